//! Whether the body is a session description: change request 5, by the Content-Type fields.

use super::Field;
use crate::twist::{twisted, Twist};

const CONTENT_TYPE: &[u8] = b"Content-Type";
const SDP: &[u8] = b"application/sdp";

/// "Exactly one Content-Type field, with one value, and that, up to the first semicolon and trimmed, is
/// `application/sdp` in any case."
pub fn described(fields: &[Field]) -> bool {
    let types: Vec<&Field> = fields.iter().filter(|field| is_content_type(field)).collect();
    match types[..] {
        [] => twisted(Twist::NoContentTypeDescribes),
        [field] => one_value(field),
        _ => several(&types),
    }
}

/// By the name as it is matched, so `c` is one, "in any case".
fn is_content_type(field: &Field) -> bool {
    let name = &field.name;
    match () {
        _ if twisted(Twist::ShortContentTypeUnseen) && field.written.len() == 1 => false,
        _ if twisted(Twist::EmptyContentTypeUnseen) && field.values == [b""] => false,
        _ if twisted(Twist::ContentTypeAsWritten) => name == CONTENT_TYPE,
        _ if twisted(Twist::ContentTypeByPart) => {
            name.windows(CONTENT_TYPE.len()).any(|part| part.eq_ignore_ascii_case(CONTENT_TYPE))
        }
        _ => name.eq_ignore_ascii_case(CONTENT_TYPE),
    }
}

/// "Exactly one": with more there are no session lines, whatever they hold.
fn several(types: &[&Field]) -> bool {
    let mut says = types.iter().map(|field| one_value(field));
    match () {
        _ if twisted(Twist::FirstContentTypeDecides) => says.next() == Some(true),
        _ if twisted(Twist::LastContentTypeDecides) => says.last() == Some(true),
        _ if twisted(Twist::OneContentTypeIsEnough) => says.any(|says| says),
        _ if twisted(Twist::AllContentTypesDecide) => says.all(|says| says),
        _ if twisted(Twist::EqualContentTypesAreOne) => {
            says.all(|says| says) && types.iter().all(|field| field.values == types[0].values)
        }
        _ => false,
    }
}

/// "With one value": one piece after the cut, empty ones counted.
fn one_value(field: &Field) -> bool {
    let values = &field.values;
    match &values[..] {
        [value] => says(value),
        _ if twisted(Twist::FirstTypeValueDecides) => says(&values[0]),
        _ if twisted(Twist::OneTypeValueIsEnough) => values.iter().any(|value| says(value)),
        _ if twisted(Twist::TypeNotCut) => says(&values.join(b",".as_slice())),
        _ if twisted(Twist::EmptyTypeValuesUnseen) => {
            let mut whole = values.iter().filter(|value| !value.is_empty());
            whole.next().is_some_and(|value| says(value)) && whole.next().is_none()
        }
        _ => false,
    }
}

/// "Up to the first semicolon and trimmed, is `application/sdp` in any case."
fn says(value: &[u8]) -> bool {
    let semicolon = match () {
        _ if twisted(Twist::SemicolonNotLookedFor) => None,
        _ if twisted(Twist::LastSemicolonCounts) => value.iter().rposition(|&byte| byte == b';'),
        _ => value.iter().position(|&byte| byte == b';'),
    };
    let before = &value[..semicolon.unwrap_or(value.len())];
    let kind = if twisted(Twist::TypeNotTrimmed) { before } else { trim(before) };
    match () {
        _ if twisted(Twist::AnyTypeDescribes) => true,
        _ if twisted(Twist::TypeInSmallLetters) => kind == SDP,
        _ if twisted(Twist::TypeByBeginning) => {
            kind.len() >= SDP.len() && kind[..SDP.len()].eq_ignore_ascii_case(SDP)
        }
        _ if twisted(Twist::TypeByEnd) => {
            kind.len() >= SDP.len() && kind[kind.len() - SDP.len()..].eq_ignore_ascii_case(SDP)
        }
        _ if twisted(Twist::SubtypeAlone) => {
            kind.rsplit(|&byte| byte == b'/').next().is_some_and(|last| last.eq_ignore_ascii_case(b"sdp"))
        }
        _ if twisted(Twist::BlanksInTypeDropped) => without(kind, b" ").eq_ignore_ascii_case(SDP),
        _ if twisted(Twist::QuotesOfTypeDropped) => without(kind, b"\"<>").eq_ignore_ascii_case(SDP),
        _ if twisted(Twist::TypeUpToBlank) => {
            kind.split(|&byte| byte == b' ').next().is_some_and(|first| first.eq_ignore_ascii_case(SDP))
        }
        _ => kind.eq_ignore_ascii_case(SDP),
    }
}

fn without(text: &[u8], bytes: &[u8]) -> Vec<u8> {
    text.iter().copied().filter(|byte| !bytes.contains(byte)).collect()
}

fn trim(text: &[u8]) -> &[u8] {
    let blank = |byte: &u8| *byte == b' ' || *byte == b'\t';
    let start = text.iter().position(|byte| !blank(byte)).unwrap_or(text.len());
    let end = text.iter().rposition(|byte| !blank(byte)).map_or(start, |last| last + 1);
    &text[start..end]
}
