//! When a row fits, and how many trials it takes.

use crate::matching::{matches, Letters};
use crate::pattern::Pattern;
use crate::profile::{Row, Test};
use crate::request::{Field, Line, Request};
use crate::twist::{twisted, Twist};

/// What rows are held against.
pub struct Subject<'a> {
    pub request: &'a Request,
    pub session_case: u32,
    /// Given in a listing only.
    pub registration_type: Option<u32>,
}

#[derive(Clone, Copy, PartialEq, Eq, Debug)]
pub struct Verdict {
    pub fits: bool,
    pub trials: u32,
}

pub fn judge(row: &Row, subject: &Subject) -> Verdict {
    let verdict = plain(row, subject);
    let fits = match row.negated && !twisted(Twist::NegationIgnored) {
        true if twisted(Twist::NegatedPerValue) => other_value(row, subject, verdict),
        true if twisted(Twist::SetAfterNegation) => !verdict.fits && in_set(row, subject),
        true if twisted(Twist::NegatedRowNeedsDescription) => !verdict.fits && described(row, subject),
        true => !verdict.fits,
        false => verdict.fits,
    };
    Verdict { fits, trials: verdict.trials }
}

/// The wrong way of document 01's list: some value does not match.
fn other_value(row: &Row, subject: &Subject, verdict: Verdict) -> bool {
    match &row.test {
        Test::SipHeader { name, content: Some(content) } => {
            let fields = subject.request.fields.iter().filter(|field| name_matches(name, field));
            let mut values = fields.flat_map(|field| &field.values).peekable();
            values.peek().is_none() || values.any(|value| !content_matches(content, value))
        }
        _ => !verdict.fits,
    }
}

fn plain(row: &Row, subject: &Subject) -> Verdict {
    let once = |fits| Verdict { fits, trials: 1 };
    match &row.test {
        Test::RequestUri(uri) if twisted(Twist::UriInAnyCase) => {
            once(uri.eq_ignore_ascii_case(&subject.request.uri))
        }
        Test::RequestUri(uri) => once(*uri == subject.request.uri),
        Test::Method(method) => {
            let same = match twisted(Twist::MethodInAnyCase) {
                true => method.eq_ignore_ascii_case(&subject.request.method),
                false => *method == subject.request.method,
            };
            once(same && (in_set(row, subject) || row.negated && twisted(Twist::SetAfterNegation)))
        }
        Test::SessionCase(case) => once(*case == subject.session_case),
        Test::SipHeader { name, content } => header(name, content.as_ref(), &subject.request.fields),
        Test::SessionDescription { line, content } => {
            let verdict = description(line, content.as_ref(), subject.request.session_lines());
            other_body(verdict, line, content.as_ref(), subject.request)
        }
    }
}

fn described(row: &Row, subject: &Subject) -> bool {
    subject.request.described || !matches!(row.test, Test::SessionDescription { .. })
}

/// "For REGISTER with a nonempty set the registration type must also be in it. On any other
/// row the set is ignored."
fn in_set(row: &Row, subject: &Subject) -> bool {
    let Test::Method(method) = &row.test else { return true };
    let register = method == b"REGISTER"
        || twisted(Twist::RegisterInAnyCase) && method.eq_ignore_ascii_case(b"REGISTER");
    if twisted(Twist::SetOnEveryMethod) && !register {
        return row.registration_set == 0;
    }
    if !register || row.registration_set == 0 && !twisted(Twist::EmptySetFitsNone) {
        return true;
    }
    let Some(kind) = subject.registration_type else { return false };
    let bit = if twisted(Twist::SetBitsReversed) { 2 - kind } else { kind };
    row.registration_set >> bit & 1 == 1
}

pub fn name_matches(pattern: &Pattern, field: &Field) -> bool {
    let letters = if twisted(Twist::NamesAsWritten) { Letters::AsWritten } else { Letters::EitherForm };
    let too = twisted(Twist::WrittenNameTriedToo) && matches(pattern, &field.written, letters);
    matches(pattern, &field.name, letters) || too
}

pub fn content_matches(content: &Pattern, value: &[u8]) -> bool {
    let letters = if twisted(Twist::ContentInEitherForm) { Letters::EitherForm } else { Letters::AsWritten };
    matches(content, value, letters)
}

/// "Some field's name matches and, if Content is present, some value of that same field
/// matches." Trials: "one per field, plus, with Content, one per value of each field whose
/// name matches".
fn header(name: &Pattern, content: Option<&Pattern>, fields: &[Field]) -> Verdict {
    let mut verdict = Verdict { fits: false, trials: 0 };
    for field in fields {
        verdict.trials += 1;
        if !name_matches(name, field) {
            continue;
        }
        let Some(content) = content else {
            verdict.fits = true;
            if twisted(Twist::ValuesTriedWithoutContent) {
                verdict.trials += field.values.len() as u32;
            }
            continue;
        };
        let values: &[Vec<u8>] = match twisted(Twist::FirstValueOnly) {
            true => &field.values[..field.values.len().min(1)],
            false => &field.values,
        };
        for value in values {
            if verdict.fits && twisted(Twist::TrialsStopAtMatch) {
                break;
            }
            verdict.trials += 1;
            verdict.fits |= content_matches(content, value);
        }
    }
    if twisted(Twist::NameAndContentApart) {
        verdict.fits = apart(name, content, fields);
    }
    if twisted(Twist::NothingToTryOneTrial) {
        verdict.trials = verdict.trials.max(1);
    }
    verdict
}

/// The wrong way of document 01's list: name and content in two different fields.
fn apart(name: &Pattern, content: Option<&Pattern>, fields: &[Field]) -> bool {
    let any_value = |pattern: &Pattern| {
        fields.iter().flat_map(|field| &field.values).any(|value| content_matches(pattern, value))
    };
    fields.iter().any(|field| name_matches(name, field)) && content.is_none_or(any_value)
}

pub fn line_matches(line: &Pattern, field: &Line) -> bool {
    let letters = if twisted(Twist::LineInEitherForm) { Letters::EitherForm } else { Letters::AsWritten };
    matches(line, &[field.kind], letters)
}

fn description(line: &Pattern, content: Option<&Pattern>, lines: &[Line]) -> Verdict {
    let mut verdict = Verdict { fits: false, trials: 0 };
    for field in lines {
        verdict.trials += 1;
        if !line_matches(line, field) {
            continue;
        }
        match content {
            None => verdict.fits = true,
            Some(content) => {
                verdict.trials += if twisted(Twist::LineValueNoTrial) { 0 } else { 1 };
                verdict.fits |= content_matches(content, &field.value);
            }
        }
    }
    verdict
}

/// "Trials count only such lines." Other ways to count where the body is no session description.
fn other_body(verdict: Verdict, line: &Pattern, content: Option<&Pattern>, request: &Request) -> Verdict {
    let trials = match () {
        _ if request.described => verdict.trials,
        _ if twisted(Twist::OtherBodyTried) => description(line, content, &request.body_lines).trials,
        _ if twisted(Twist::OtherBodyOneTrial) => 1,
        _ => verdict.trials,
    };
    Verdict { trials, ..verdict }
}
