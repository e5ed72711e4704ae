//! The order of refusals: every mixture of right and wrong inputs; every session record.

use super::build::{self, FORWARDED, INVITE, READY, REGISTER};
use super::draft::{Draft, DNF};
use crate::case::Case;
use crate::session::Session;

const UNREADABLE: &[u8] = b"INVITE sip:b SIP/2.0\n\n";

pub fn cases() -> Vec<Case> {
    let mut cases = mixtures();
    cases.extend(records());
    cases
}

fn profile() -> Draft {
    let mut draft = Draft::new();
    draft.criterion(3, DNF, 0).handling = 1;
    draft.criterion(2, DNF, 0);
    draft
}

fn mixtures() -> Vec<Case> {
    let right = profile().bytes();
    let mut faulty = profile();
    faulty.criteria[1].part = 3;
    let faulty = faulty.bytes();
    let impossible = Session { last: 9, ..READY };
    let mut cases = Vec::new();
    for image in [&right, &faulty] {
        for request in [INVITE, REGISTER, UNREADABLE] {
            for session in [
                READY,
                FORWARDED,
                impossible,
                Session { case: 4, ..READY },
                Session { state: 1, ..FORWARDED },
            ] {
                cases.push(build::advance("order of refusals", image, request, session));
            }
            for case in [0, 3, 4, u32::MAX] {
                for kind in [0, 2, 3, u32::MAX] {
                    for places in [0, 1, 2] {
                        cases.push(build::list("order of refusals", image, request, case, kind, places));
                    }
                }
            }
        }
        for number in [0, 1, 2, u32::MAX] {
            cases.push(build::server("order of refusals", image, number));
            cases.push(build::information("order of refusals", image, number));
        }
    }
    cases
}

/// Records a session can have and cannot have, in the two calls that take one.
fn records() -> Vec<Case> {
    let image = profile().bytes();
    let mut cases = Vec::new();
    for case in [0, 3, 4, u32::MAX] {
        for state in [0, 1, 2, 3, 4, 5] {
            for forwarded in [0, 1, 2] {
                for last in [0, 2] {
                    for handling in [0, 1, 2] {
                        let session = Session { case, state, forwarded, last, handling };
                        cases.push(build::advance("record", &image, INVITE, session));
                        for report in [0, 1, 2, 3, u32::MAX] {
                            cases.push(build::report("record", session, report));
                        }
                    }
                }
            }
        }
    }
    cases
}
