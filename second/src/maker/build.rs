//! Cases from their inputs. What a call lends holds a mark beforehand, so that an answer
//! shows which places were written.

use crate::case::{self, in_bytes, record_of, Call, Case};
use crate::session::Session;

/// Held by lent number `place` before the call; no answer has it.
fn mark(place: usize) -> u32 {
    0xDEAD_BE00 + place as u32
}

fn numbers(call: Call, given: &[u32]) -> Vec<u32> {
    let count = call.numbers().len();
    (0..count).map(|place| given.get(place).copied().unwrap_or(mark(place))).collect()
}

fn case(call: Call, label: &str, image: &[u8], request: &[u8], given: &[u32]) -> Case {
    Case {
        call,
        label: label.to_string(),
        image: image.to_vec(),
        request: request.to_vec(),
        list: Vec::new(),
        numbers: numbers(call, given),
    }
}

pub fn check(label: &str, image: &[u8]) -> Case {
    case(Call::Check, label, image, b"", &[])
}

pub fn open(label: &str, wanted: u32) -> Case {
    case(Call::Open, label, b"", b"", &[wanted])
}

pub fn advance(label: &str, image: &[u8], request: &[u8], session: Session) -> Case {
    let Session { case: of, state, forwarded, last, handling } = session;
    case(Call::Advance, label, image, request, &[of, state, forwarded, last, handling])
}

pub fn report(label: &str, session: Session, report: u32) -> Case {
    let Session { case: of, state, forwarded, last, handling } = session;
    case(Call::Report, label, b"", b"", &[of, state, forwarded, last, handling, report])
}

pub fn list(label: &str, image: &[u8], request: &[u8], of: u32, kind: u32, places: usize) -> Case {
    let list = (0..places).map(|place| 0xC0 | place as u8 & 0x3F).collect();
    Case { list, ..case(Call::List, label, image, request, &[of, kind]) }
}

pub fn server(label: &str, image: &[u8], number: u32) -> Case {
    case(Call::Server, label, image, b"", &[number])
}

pub fn information(label: &str, image: &[u8], number: u32) -> Case {
    case(Call::Information, label, image, b"", &[number])
}

pub fn show(label: &str, image: &[u8], request: &[u8], row: u32) -> Case {
    case(Call::Show, label, image, request, &[row])
}

/// The refusal numbers hold a mark, so that an answer shows which of them were written.
pub fn reports(label: &str, sessions: &[Session], reports: &[u32], refusals: usize) -> Case {
    let sessions_len = sessions.len() as u32;
    let sessions: Vec<u32> = sessions.iter().flat_map(record_of).collect();
    let before: Vec<u32> = (0..refusals).map(mark).collect();
    Case {
        list: in_bytes(&[sessions, before].concat()),
        ..case(
            Call::Reports,
            label,
            b"",
            &in_bytes(reports),
            &[sessions_len, reports.len() as u32, refusals as u32],
        )
    }
}

/// A pattern stands where the other calls have the image, a text where they have the request.
pub fn plain(label: &str, pattern: &[u8], text: &[u8]) -> Case {
    case(Call::Plain, label, pattern, text, &[])
}

pub const READY: Session = Session { case: 0, state: 0, forwarded: 0, last: 0, handling: 0 };

/// Ready again, with something in every number that a refusal must leave alone.
pub const FORWARDED: Session = Session { case: 2, state: 0, forwarded: 1, last: 1, handling: 1 };

/// A ready session that has forwarded.
pub fn after(last: u32) -> Session {
    Session { forwarded: 1, last, ..READY }
}

/// Both have a session description.
pub const INVITE: &[u8] =
    b"INVITE sip:b SIP/2.0\r\nFrom: joe\r\nContent-Type: application/sdp\r\n\r\nm=audio\r\n";
pub const REGISTER: &[u8] = b"REGISTER sip:b SIP/2.0\r\nFrom: joe\r\nc: application/sdp\r\n\r\nm=audio\r\n";

/// The session an advance or a report hands back.
pub fn session_after(case: &Case) -> Session {
    let answer = case::answer(case);
    let [of, state, forwarded, last, handling, ..] = answer.numbers[..] else {
        unreachable!("advance and report begin with a session")
    };
    Session { case: of, state, forwarded, last, handling }
}
