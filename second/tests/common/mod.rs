//! Shorthands of the tests: images by Draft, calls by their prototype.

#![allow(dead_code)]

use second::case::{self, Answer, Case};
use second::maker::build;
use second::maker::draft::Draft;
use second::matching::{matches, Letters};
use second::pattern;
use second::session::Session;

pub const READY: Session = Session { case: 0, state: 0, forwarded: 0, last: 0, handling: 0 };

/// Number and place of a check.
pub fn check(image: &[u8]) -> (u32, u32) {
    let answer = case::answer(&build::check("", image));
    (answer.number, answer.numbers[0])
}

pub fn check_draft(draft: &Draft) -> (u32, u32) {
    check(&draft.bytes())
}

/// What an advance lends, by name.
#[derive(Debug, PartialEq, Eq, Clone, Copy)]
pub struct Advance {
    pub number: u32,
    pub session: Session,
    pub place: u32,
    pub outcome: u32,
    pub criterion: u32,
    pub priority: u32,
    pub examined: u32,
    pub trials: u32,
}

pub fn advance(image: &[u8], request: &[u8], session: Session) -> Advance {
    let Answer { number, numbers, .. } = case::answer(&build::advance("", image, request, session));
    Advance {
        number,
        session: Session {
            case: numbers[0],
            state: numbers[1],
            forwarded: numbers[2],
            last: numbers[3],
            handling: numbers[4],
        },
        place: numbers[5],
        outcome: numbers[6],
        criterion: numbers[7],
        priority: numbers[8],
        examined: numbers[9],
        trials: numbers[10],
    }
}

/// Number, state after.
pub fn report(session: Session, report: u32) -> (u32, u32) {
    let answer = case::answer(&build::report("", session, report));
    (answer.number, answer.numbers[1])
}

/// Number, the list after, and place, count, examined, trials.
pub fn list(image: &[u8], request: &[u8], of: u32, kind: u32, places: usize) -> (u32, Vec<u8>, [u32; 4]) {
    let answer = case::answer(&build::list("", image, request, of, kind, places));
    (answer.number, answer.list, answer.numbers[2..6].try_into().expect("four numbers"))
}

pub fn places_before(places: usize) -> Vec<u8> {
    let case: Case = build::list("", b"", b"", 0, 0, places);
    case.list
}

/// Number and place, start, length.
pub fn server(image: &[u8], number: u32) -> (u32, [u32; 3]) {
    let answer = case::answer(&build::server("", image, number));
    (answer.number, answer.numbers[1..4].try_into().expect("three numbers"))
}

/// Number and place, present, start, length.
pub fn information(image: &[u8], number: u32) -> (u32, [u32; 4]) {
    let answer = case::answer(&build::information("", image, number));
    (answer.number, answer.numbers[1..5].try_into().expect("four numbers"))
}

/// Number and place, found, field, value, start, length.
pub fn show(image: &[u8], request: &[u8], row: u32) -> (u32, [u32; 6]) {
    let answer = case::answer(&build::show("", image, request, row));
    (answer.number, answer.numbers[1..7].try_into().expect("six numbers"))
}

pub fn accepted(pattern: &[u8]) -> bool {
    pattern::read(pattern).is_some()
}

pub fn fits(pattern: &[u8], text: &[u8]) -> bool {
    let read = pattern::read(pattern).unwrap_or_else(|| panic!("{} is refused", pattern.escape_ascii()));
    matches(&read, text, Letters::AsWritten)
}

pub fn fits_name(pattern: &[u8], name: &[u8]) -> bool {
    let read = pattern::read(pattern).unwrap_or_else(|| panic!("{} is refused", pattern.escape_ascii()));
    matches(&read, name, Letters::EitherForm)
}

/// Whether the one criterion of an image of this one row fits.
pub fn row_fits(draft: &Draft, request: &[u8]) -> bool {
    let answer = advance(&draft.bytes(), request, READY);
    assert_eq!(answer.number, 0);
    answer.outcome == 1
}

pub fn invite(rest: &[u8]) -> Vec<u8> {
    [b"INVITE sip:b SIP/2.0\r\n", rest].concat()
}

/// The values of the first field.
pub fn values(rest: &[u8]) -> Vec<Vec<u8>> {
    let request = second::request::read(&invite(rest)).expect("readable");
    request.fields[0].values.clone()
}

pub fn readable(request: &[u8]) -> bool {
    second::request::read(request).is_some()
}
