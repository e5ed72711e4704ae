//! The subset of change request 3 as a set of texts. No element holds one of its own kind, so it is put together from bytes,
//! rows, choices and repeats alone.

use super::element::Element;
use super::part::*;
use crate::pattern::Set;
use crate::twist::{twisted, Twist};

/// "nothing but InitialFilterCriteria elements, none or more"; "one `<?` to its `?>` at byte 0"
pub fn subset() -> Part {
    let criteria = match twisted(Twist::XmlEmptyRefused) {
        true => one_or_more(criterion()),
        false => none_or_more(criterion()),
    };
    let instructions = match () {
        _ if twisted(Twist::XmlInstructionsTaken) => none_or_more(instruction()),
        _ if twisted(Twist::XmlInstructionAfterBlank) => {
            Part::Row(vec![between(), none_or_one(instruction())])
        }
        _ => none_or_one(instruction()),
    };
    Part::Row(vec![instructions, between(), criteria])
}

fn criterion() -> Part {
    let mut inside = vec![number(Element::Priority), none_or_one(trigger()), server()];
    let part = none_or_one(number(Element::ProfilePartIndicator));
    match twisted(Twist::XmlPartBeforeServer) {
        true => inside.insert(2, part),
        false => inside.push(part),
    }
    compound(Element::InitialFilterCriteria, inside)
}

fn trigger() -> Part {
    let rows = match twisted(Twist::XmlRow33Wrong) {
        true => at_most(32, row),
        false => one_or_more(row()),
    };
    compound(Element::TriggerPoint, vec![number(Element::ConditionTypeCnf), rows])
}

fn row() -> Part {
    let groups = match twisted(Twist::XmlGroup9Wrong) {
        true => at_most(8, || number(Element::Group)),
        false => one_or_more(number(Element::Group)),
    };
    let negated = none_or_one(number(Element::ConditionNegated));
    let mut inside = match twisted(Twist::XmlGroupBeforeNegated) {
        true => vec![groups, negated],
        false => vec![negated, groups],
    };
    inside.push(test());
    let types = match () {
        _ if twisted(Twist::XmlTypesUnlimited) => 3,
        _ if twisted(Twist::XmlSecondTypeWrong) => 1,
        _ => 2,
    };
    inside.push(none_or_one(at_most(types, || number(Element::RegistrationType))));
    compound(Element::Spt, inside)
}

/// "Choice of"
fn test() -> Part {
    let content = || none_or_one(string(Element::Content));
    Part::Choice(vec![
        string(Element::RequestUri),
        string(Element::Method),
        compound(Element::SipHeader, vec![string(Element::Header), content()]),
        number(Element::SessionCase),
        compound(Element::SessionDescription, vec![string(Element::Line), content()]),
    ])
}

fn server() -> Part {
    let handling = match twisted(Twist::XmlHandlingNeeded) {
        true => number(Element::DefaultHandling),
        false => none_or_one(number(Element::DefaultHandling)),
    };
    let information = none_or_one(string(Element::ServiceInfo));
    let mut inside = vec![string(Element::ServerName), handling, information];
    if twisted(Twist::XmlInformationBeforeHandling) {
        inside.swap(1, 2);
    }
    compound(Element::ApplicationServer, inside)
}

/// One up to `most` of a part.
fn at_most(most: usize, part: impl Fn() -> Part) -> Part {
    (1..most).fold(part(), |later, _| Part::Row(vec![part(), none_or_one(later)]))
}

/// Every element has behind it what may stand before the next tag.
fn compound(element: Element, inside: Vec<Part>) -> Part {
    let mut parts = vec![begin(element), between()];
    parts.extend(inside);
    parts.extend([end(element), between()]);
    Part::Row(parts)
}

fn simple(element: Element, value: Part) -> Part {
    Part::Row(vec![begin(element), value, end(element), between()])
}

/// "bare tags (no attribute, blank or `<X/>`)"
fn begin(element: Element) -> Part {
    let mut parts = vec![plain(&format!("<{}", element.tag()))];
    if twisted(Twist::XmlBlankInTag) {
        parts.push(none_or_more(byte(blanks())));
    }
    parts.push(word(">", Gives::Begin(element)));
    Part::Row(parts)
}

fn end(element: Element) -> Part {
    plain(&format!("</{}>", element.tag()))
}

/// "Numbers and booleans are one or more decimal digits."
fn number(element: Element) -> Part {
    let of = |set| Part::Byte(set, Gives::Itself);
    let digit = || of(one_of(b"0123456789"));
    let digits = match () {
        _ if twisted(Twist::XmlLeadingZeroWrong) => Part::Choice(vec![
            of(Set::of(b'0')),
            Part::Row(vec![of(one_of(b"123456789")), none_or_more(digit())]),
        ]),
        _ if twisted(Twist::XmlEleventhDigitWrong) => at_most(10, digit),
        _ if twisted(Twist::XmlNumberMayBeEmpty) => none_or_more(digit()),
        _ if twisted(Twist::XmlNumberInBlanks) => {
            let blank = || none_or_more(byte(blanks()));
            Part::Row(vec![blank(), one_or_more(digit()), blank()])
        }
        _ => one_or_more(digit()),
    };
    simple(element, digits)
}

/// "Text is any bytes but `<` and `&`", and "the five predefined entities".
fn string(element: Element) -> Part {
    let refused: &[u8] = match () {
        _ if twisted(Twist::XmlTextWithoutZero) => b"<&\0",
        _ if twisted(Twist::XmlTextWithoutGreater) => b"<&>",
        _ => b"<&",
    };
    let mut kinds = vec![Part::Byte(none_of(refused), Gives::Itself)];
    kinds.extend(ENTITIES.iter().map(|&(name, stands)| entity(name, stands)));
    if twisted(Twist::XmlCommentInText) {
        kinds.push(comment());
    }
    simple(element, none_or_more(Part::Choice(kinds)))
}

pub const ENTITIES: [(&str, u8); 5] =
    [("&lt;", b'<'), ("&gt;", b'>'), ("&amp;", b'&'), ("&quot;", b'"'), ("&apos;", b'\'')];

fn entity(name: &str, stands: u8) -> Part {
    if twisted(Twist::XmlEntitiesKept) {
        return Part::Row(name.bytes().map(|byte| Part::Byte(Set::of(byte), Gives::Itself)).collect());
    }
    word(name, Gives::Stands(stands))
}

fn blanks() -> Set {
    match () {
        _ if twisted(Twist::XmlBlanksAsInHeads) => one_of(b" \t"),
        _ if twisted(Twist::XmlFormFeedIsBlank) => one_of(b" \t\r\n\x0C"),
        _ => one_of(b" \t\r\n"),
    }
}

/// "between elements blanks and comments"
fn between() -> Part {
    none_or_more(Part::Choice(vec![byte(blanks()), comment()]))
}

/// "comments, each to its first `-->`": one dash, or several and no `>`, do not end it.
fn comment() -> Part {
    let dash = || byte(Set::of(b'-'));
    let mut inside = vec![byte(none_of(b"-")), Part::Row(vec![dash(), byte(none_of(b"-"))])];
    let more = |dashes: Part| Part::Row(vec![dash(), one_or_more(dashes)]);
    if !twisted(Twist::XmlDoubleDashWrong) {
        inside.push(Part::Row(vec![more(dash()), byte(none_of(b"->"))]));
    }
    let end = match twisted(Twist::XmlDoubleDashWrong) {
        true => plain("-->"),
        false => Part::Row(vec![more(dash()), plain(">")]),
    };
    let mut ways = vec![Part::Row(vec![none_or_more(Part::Choice(inside)), end])];
    if twisted(Twist::XmlCommentOverlaps) {
        ways.extend([plain(">"), plain("->")]);
    }
    Part::Row(vec![plain("<!--"), Part::Choice(ways)])
}

/// "one `<?` to its `?>`"
fn instruction() -> Part {
    let mark = || byte(Set::of(b'?'));
    let inside = vec![byte(none_of(b"?")), Part::Row(vec![one_or_more(mark()), byte(none_of(b"?>"))])];
    let to_end = Part::Row(vec![none_or_more(Part::Choice(inside)), one_or_more(mark()), plain(">")]);
    let mut ways = vec![to_end];
    if twisted(Twist::XmlInstructionOverlaps) {
        ways.push(plain(">"));
    }
    Part::Row(vec![plain("<?"), Part::Choice(ways)])
}
