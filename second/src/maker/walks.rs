//! Whole walks: open, advance, report, ... to the end and one step beyond, with the request
//! and the image changed on the way.

use super::build::{self, INVITE};
use super::draft::{Draft, DNF};
use super::lean;
use super::random::Random;
use crate::case::Case;
use crate::session::{Session, READY, WAITING};

const MOST_STEPS: usize = 12;

/// 64 criteria forwarded one after another in each case, then a route: "over one image of n
/// criteria a session forwards at most n times".
pub fn longest() -> Vec<Case> {
    let mut cases = Vec::new();
    for wanted in 0..4 {
        let mut draft = Draft::new();
        for number in 0..64u32 {
            draft.criterion(number.wrapping_mul(0x9E37_79B1), DNF, 0).handling = (number % 3) as u8;
        }
        let image = draft.bytes();
        let mut session = Session { case: wanted, ..build::READY };
        for step in 0..2 * 64 + 1 {
            let case = match session.state {
                READY => build::advance(&format!("longest walk: step {step}"), &image, INVITE, session),
                _ => build::report(&format!("longest walk: step {step}"), session, 0),
            };
            session = build::session_after(&case);
            cases.push(case);
        }
    }
    cases
}

pub fn walk(random: &mut Random) -> Vec<Case> {
    let wanted = if random.chance(1, 40) { *random.pick(&[4, 5, u32::MAX]) } else { random.below(4) as u32 };
    let opening = build::open("walk: open", wanted);
    let mut session = opened(&opening);
    let mut cases = vec![opening];
    let mut request = new_request(random);
    let mut image = lean::image(random, &request, session.case).bytes();
    for step in 0..MOST_STEPS {
        let case = match session.state {
            READY => {
                change(random, &mut request, &mut image, session);
                build::advance(&format!("walk: step {step}"), &image, &request, session)
            }
            WAITING => build::report(&format!("walk: step {step}"), session, report_number(random)),
            _ => break,
        };
        session = build::session_after(&case);
        cases.push(case);
    }
    cases.push(build::report("walk: beyond the end", session, random.below(4) as u32));
    if random.chance(1, 6) {
        cases.push(build::advance("walk: beyond the end", &image, &request, session));
    }
    cases
}

fn opened(opening: &Case) -> Session {
    let answer = crate::case::answer(opening);
    let [_, case, state, forwarded, last, handling] = answer.numbers[..] else {
        unreachable!("an opening has six numbers")
    };
    Session { case, state, forwarded, last, handling }
}

fn report_number(random: &mut Random) -> u32 {
    *random.pick(&[0, 0, 0, 0, 0, 0, 1, 1, 1, 2])
}

fn new_request(random: &mut Random) -> Vec<u8> {
    let method = lean::method(random);
    lean::request(random, &method)
}

/// "The request may differ at each advance. Each call judges the image lent to it."
fn change(random: &mut Random, request: &mut Vec<u8>, image: &mut Vec<u8>, session: Session) {
    if random.chance(1, 3) {
        *request = new_request(random);
    }
    if random.chance(1, 4) {
        *image = lean::image(random, request, session.case).bytes();
    }
}
