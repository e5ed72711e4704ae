//! Reports in bulk: every length from both sides, every mixture of records and reports, single refusals at every place.

use super::build;
use super::random::Random;
use crate::case::Case;
use crate::session::{Session, READY, RELEASED, WAITING};

/// A waiting session, of which a refusal or a report must leave every number but the state.
const WAITS: Session = Session { case: 2, state: WAITING, forwarded: 1, last: 0x0102_0304, handling: 1 };

pub fn cases() -> Vec<Case> {
    let mut cases = lengths();
    cases.extend(differing());
    cases.extend(mixtures());
    cases.extend(refusals());
    cases.extend(widths());
    cases
}

/// So many sessions that differ in case, priority and default.
fn waiting(count: usize) -> Vec<Session> {
    let one = |place: usize| Session {
        case: place as u32 % 4,
        last: (place as u32).wrapping_mul(0x0101_0101),
        handling: place as u32 / 4 % 2,
        ..WAITS
    };
    (0..count).map(one).collect()
}

fn news(count: usize) -> Vec<u32> {
    (0..count).map(|place| place as u32 % 3).collect()
}

/// "up to 256 sessions": B1 and B2.
fn lengths() -> Vec<Case> {
    let lengths = [0, 1, 2, 3, 127, 128, 254, 255, 256, 257, 258, 512];
    let point = |count: usize| if count == 0 { "B1" } else { "B2" };
    lengths
        .iter()
        .map(|&count| {
            let label = format!("{}: {count} of each", point(count));
            build::reports(&label, &waiting(count), &news(count), count)
        })
        .collect()
}

/// "lengths that differ"
fn differing() -> Vec<Case> {
    let mut cases = Vec::new();
    let lengths = [0, 1, 2, 255, 256, 257];
    for sessions in lengths {
        for reports in lengths {
            for refusals in lengths {
                if sessions != reports || sessions != refusals {
                    let label = format!("lengths {sessions}, {reports}, {refusals}");
                    cases.push(build::reports(&label, &waiting(sessions), &news(reports), refusals));
                }
            }
        }
    }
    cases
}

/// Every kind of record with every report, in one list and in the other order.
fn mixtures() -> Vec<Case> {
    let mut cases = Vec::new();
    for case in [0, 3, 4] {
        let mut pairs = Vec::new();
        for state in 0..6 {
            for forwarded in 0..3 {
                for (last, handling) in [(0, 0), (7, 0), (7, 1), (7, 2)] {
                    for report in [0, 1, 2, 3] {
                        pairs.push((Session { case, state, forwarded, last, handling }, report));
                    }
                }
            }
        }
        for part in pairs.chunks(256) {
            let mut part = part.to_vec();
            for order in ["first to last", "last to first"] {
                let (sessions, news): (Vec<Session>, Vec<u32>) = part.iter().copied().unzip();
                cases.push(build::reports(
                    &format!("records of case {case}, {order}"),
                    &sessions,
                    &news,
                    part.len(),
                ));
                part.reverse();
            }
        }
    }
    cases
}

/// "refused ones unchanged", wherever they stand; the call answers 0 and goes on: B3.
fn refusals() -> Vec<Case> {
    let mut cases = Vec::new();
    for (refused, report) in
        [(Session { state: READY, ..WAITS }, 0), (WAITS, 3), (Session { case: 4, ..WAITS }, 1)]
    {
        for place in 0..4 {
            let mut sessions = waiting(4);
            let mut news = news(4);
            sessions[place] = refused;
            news[place] = report;
            cases.push(build::reports(&format!("B3: refused at {place}"), &sessions, &news, 4));
        }
        cases.push(build::reports("B3: all refused", &[refused; 3], &[report; 3], 3));
    }
    cases
}

/// "A report of 256 must not pass as 0", nor a session's number: B4.
fn widths() -> Vec<Case> {
    let mut cases = Vec::new();
    for high in [1 << 8, 1 << 16, 1 << 31, u32::MAX - 2] {
        let news = [high, high + 1, high + 2, 1];
        cases.push(build::reports(&format!("B4: reports from {high}"), &[WAITS; 4], &news, 4));
        let sessions = [
            Session { case: high + 2, ..WAITS },
            Session { state: high + 1, ..WAITS },
            Session { forwarded: high + 1, ..WAITS },
            Session { last: high, ..WAITS },
            Session { handling: high + 1, ..WAITS },
        ];
        cases.push(build::reports(&format!("B4: a session's numbers from {high}"), &sessions, &[1; 5], 5));
    }
    cases
}

pub fn random(seed: u64, count: usize) -> Vec<Case> {
    // Not the stream of the other cases, so that they stay as they were.
    let mut random = Random::new(seed ^ 0xB_0000);
    (0..count).map(|_| drawn(&mut random)).collect()
}

/// Mostly short lists of equal length, mostly of sessions that wait.
fn drawn(random: &mut Random) -> Case {
    let count = if random.chance(1, 20) { random.between(250, 260) } else { random.below(12) };
    let other = |random: &mut Random| if random.chance(1, 25) { random.below(12) } else { count };
    let (reports, refusals) = (other(random), other(random));
    let sessions: Vec<Session> = (0..count).map(|_| session(random)).collect();
    let news: Vec<u32> = (0..reports).map(|_| *random.pick(&[0, 0, 1, 1, 1, 2, 3, 256])).collect();
    build::reports("random reports", &sessions, &news, refusals)
}

fn session(random: &mut Random) -> Session {
    let waits = Session {
        case: random.below(4) as u32,
        state: WAITING,
        forwarded: 1,
        last: random.draw() as u32,
        handling: random.below(2) as u32,
    };
    match random.below(8) {
        0 => Session { state: random.below(6) as u32, ..waits },
        1 => Session { forwarded: random.below(3) as u32, ..waits },
        2 => Session { case: random.below(6) as u32, handling: random.below(3) as u32, ..waits },
        3 if random.chance(1, 4) => Session { state: RELEASED, ..waits },
        _ => waits,
    }
}
