//! Which text set off a row: the first field or line, value and part that matched "before negation".

use crate::pattern::Pattern;
use crate::place::{place, Place};
use crate::profile::{Row, Test};
use crate::request::{Field, Line, Request};
use crate::row::{content_matches, line_matches, name_matches};
use crate::twist::{twisted, Twist};

/// "Each counted from 0"; "without Content it is value 0, start 0, length 0".
#[derive(Clone, Copy, PartialEq, Eq, Debug)]
pub struct Shown {
    pub field: usize,
    pub value: usize,
    pub place: Place,
}

const NOWHERE: Place = Place { start: 0, length: 0 };

/// "No match, or another kind: none."
pub fn shown(row: &Row, request: &Request) -> Option<Shown> {
    let found = match &row.test {
        Test::SipHeader { name, content } => in_fields(name, content.as_ref(), &request.fields),
        Test::SessionDescription { line, content } => in_lines(line, content.as_ref(), request),
        other => of_another_kind(other, request),
    };
    match row.negated {
        true if twisted(Twist::ShownNegatedNone) => None,
        true if twisted(Twist::ShownAfterNegation) && found.is_none() => {
            Some(Shown { field: 0, value: 0, place: NOWHERE })
        }
        _ => found,
    }
}

/// "The first field and value that matched": of the fields whose name matches and of which some value does.
fn in_fields(name: &Pattern, content: Option<&Pattern>, fields: &[Field]) -> Option<Shown> {
    let mut named = fields.iter().enumerate().filter(|(_, field)| name_matches(name, field));
    let in_field = |(number, field): (usize, &Field)| in_field(number, field, content, name);
    let found = match () {
        _ if twisted(Twist::ShownFirstByName) => named.next().and_then(in_field),
        _ if twisted(Twist::ShownLastField) => named.filter_map(in_field).last(),
        _ => named.find_map(in_field),
    }?;
    let counted = |before: &[Field]| match () {
        _ if twisted(Twist::ShownFieldOfName) => {
            before.iter().filter(|field| name_matches(name, field)).count()
        }
        _ if twisted(Twist::ShownFieldsFrom1) => before.len() + 1,
        _ => before.len(),
    };
    let before = &fields[..found.field];
    let earlier: usize = before.iter().map(|field| field.values.len()).sum();
    let earlier = if twisted(Twist::ShownValuesOfAllFields) { earlier } else { 0 };
    Some(Shown { field: counted(before), value: found.value + earlier, ..found })
}

fn in_field(number: usize, field: &Field, content: Option<&Pattern>, name: &Pattern) -> Option<Shown> {
    let Some(content) = content else { return without_content(number, &field.values[0]) };
    let mut matching =
        field.values.iter().enumerate().filter_map(|(value, text)| Some((value, place_in(content, text)?)));
    let (value, place) = match twisted(Twist::ShownLastValue) {
        true => matching.last(),
        false => matching.next(),
    }?;
    let (value, place) = counted_otherwise(field, value, place);
    let place =
        if twisted(Twist::ShownInName) { place_in(name, &field.name).unwrap_or(place) } else { place };
    Some(Shown { field: number, value, place })
}

/// Content is matched as written; a value is the piece, trimmed and reduced.
fn place_in(content: &Pattern, value: &[u8]) -> Option<Place> {
    let folded = twisted(Twist::ShownContentFolded) && content_matches(content, &value.to_ascii_lowercase());
    let value = if folded { value.to_ascii_lowercase() } else { value.to_vec() };
    place(content, &value)
}

fn without_content(number: usize, value: &[u8]) -> Option<Shown> {
    let place = match () {
        _ if twisted(Twist::ShownNothingWithoutContent) => return None,
        _ if twisted(Twist::ShownWholeWithoutContent) => Place { start: 0, length: value.len() },
        _ => NOWHERE,
    };
    Some(Shown { field: number, value: 0, place })
}

/// Other ways to count values, and bytes in them.
fn counted_otherwise(field: &Field, value: usize, place: Place) -> (usize, Place) {
    let pieces = &field.values[..value];
    match () {
        _ if twisted(Twist::ShownValuesFrom1) => (value + 1, place),
        _ if twisted(Twist::ShownEmptyPiecesUncounted) => {
            (pieces.iter().filter(|piece| !piece.is_empty()).count(), place)
        }
        _ if twisted(Twist::ShownInWholeValue) => {
            let start = place.start + piece_start(&field.reduced, &field.values, value);
            (value, Place { start, ..place })
        }
        _ if twisted(Twist::ShownNotTrimmed) && value == 0 => {
            (value, Place { start: place.start + field.blanks, ..place })
        }
        _ => (value, place),
    }
}

/// Where a piece begins in the reduced value: behind those before it, their commas and blanks.
fn piece_start(reduced: &[u8], pieces: &[Vec<u8>], number: usize) -> usize {
    let skip = |at: usize| at + (reduced.get(at) == Some(&b' ')) as usize;
    pieces[..number].iter().fold(skip(0), |at, piece| skip(skip(at + piece.len()) + 1))
}

/// "Line that is a field": only those are counted, and only where the body is a session description.
fn in_lines(line: &Pattern, content: Option<&Pattern>, request: &Request) -> Option<Shown> {
    let lines = match twisted(Twist::ShownOtherBody) {
        true => &request.body_lines,
        false => request.session_lines(),
    };
    let in_line = |(number, field): (usize, &Line)| {
        let number = if twisted(Twist::ShownEveryLine) { field.number } else { number };
        if !line_matches(line, field) {
            return None;
        }
        let Some(content) = content else { return without_content(number, &field.value) };
        place_in(content, &field.value).map(|place| Shown { field: number, value: 0, place })
    };
    let mut named = lines.iter().enumerate();
    match () {
        _ if twisted(Twist::ShownFirstByName) => {
            named.find(|(_, field)| line_matches(line, field)).and_then(in_line)
        }
        _ if twisted(Twist::ShownLastField) => named.filter_map(in_line).last(),
        _ => named.find_map(in_line),
    }
}

/// Nothing is shown of a RequestURI, a Method or a SessionCase.
fn of_another_kind(test: &Test, request: &Request) -> Option<Shown> {
    let length = match test {
        Test::RequestUri(uri) if twisted(Twist::ShownUri) && *uri == request.uri => uri.len(),
        Test::Method(method) if twisted(Twist::ShownMethod) && *method == request.method => method.len(),
        Test::SessionCase(_) if twisted(Twist::ShownCase) => 0,
        _ => return None,
    };
    Some(Shown { field: 0, value: 0, place: Place { start: 0, length } })
}
