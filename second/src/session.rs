//! The session's record: opening, what records a session can have, reports.

use crate::twist::{twisted, Twist};

pub const READY: u32 = 0;
pub const WAITING: u32 = 1;
pub const FINISHED: u32 = 2;
pub const RELEASED: u32 = 3;
pub const ENDED: u32 = 4;

#[derive(Clone, Copy, PartialEq, Eq, Debug)]
pub struct Session {
    pub case: u32,
    pub state: u32,
    /// 1 once a criterion has been forwarded to.
    pub forwarded: u32,
    pub last: u32,
    /// The default handling of the criterion last forwarded to: 0 or 1.
    pub handling: u32,
}

pub fn open(case: u32) -> Result<Session, Session> {
    let highest = if twisted(Twist::OpenTakesCase4) { 4 } else { 3 };
    let session = Session { case, state: READY, forwarded: 0, last: 0, handling: 0 };
    if case <= highest && !(twisted(Twist::OpenRefusesCase3) && case == 3) {
        return Ok(session);
    }
    Err(Session {
        case: if twisted(Twist::RefusedOpeningKeepsCase) { case } else { 0 },
        state: match () {
            _ if twisted(Twist::RefusedOpeningReady) => READY,
            _ if twisted(Twist::RefusedOpeningEnded) => ENDED,
            _ => FINISHED,
        },
        ..session
    })
}

/// Whether a session can have this record: last priority and default handling are "0 and 0
/// if none", and a session that has forwarded nothing is ready or finished.
pub fn possible(session: &Session) -> bool {
    let Session { case, state, forwarded, last, handling } = *session;
    if case > 3 && !twisted(Twist::RecordTakesAnyCase) {
        return false;
    }
    let highest = if twisted(Twist::RecordTakesHandling2) { 2 } else { 1 };
    if state > ENDED || handling > highest {
        return false;
    }
    match forwarded {
        0 => {
            (last == 0 || twisted(Twist::RecordTakesLastUnforwarded))
                && (handling == 0 || twisted(Twist::RecordTakesHandlingUnforwarded))
                && (state == READY || state == FINISHED || twisted(Twist::RecordTakesWaitingUnforwarded))
        }
        1 => {
            (state != RELEASED || handling == 1)
                && !(twisted(Twist::RecordRefusesForwardedReady) && state == READY)
        }
        _ => twisted(Twist::RecordTakesForwarded2),
    }
}

/// The state after a report; the refusal number otherwise.
pub fn report(session: &Session, report: u32) -> Result<u32, u32> {
    let highest = if twisted(Twist::ReportTakes3) { 3 } else { 2 };
    if twisted(Twist::ReportNumberJudgedFirst) && report > highest {
        return Err(8);
    }
    let waiting = session.state == WAITING || twisted(Twist::ReportWhenReady) && session.state == READY;
    if !possible(session) || !waiting {
        return Err(10);
    }
    if report > highest {
        return Err(8);
    }
    Ok(match report {
        0 => READY,
        1 if twisted(Twist::UnreachableAlwaysContinues) => READY,
        1 if twisted(Twist::UnreachableAlwaysReleases) => RELEASED,
        1 if twisted(Twist::UnreachableEnds) && session.handling != 0 => ENDED,
        1 if session.handling == 0 => READY,
        1 => RELEASED,
        _ if twisted(Twist::FinalResponseFinishes) => FINISHED,
        _ => ENDED,
    })
}
