//! Change request 8: a list of sessions gets a list of reports, and each session its refusal number.

use crate::session::{self, Session};
use crate::twist::{twisted, Twist};

/// "a lent list of up to 256 sessions"
pub const MOST: usize = 256;

/// "all of equal length": how many of each, or none where 17 is given.
fn fitting(sessions: usize, reports: usize, refusals: usize) -> Option<usize> {
    let most = match () {
        _ if twisted(Twist::Bulk257Taken) => 257,
        _ if twisted(Twist::Bulk256Refused) => 255,
        _ => MOST,
    };
    let shortest = sessions.min(reports).min(refusals);
    let equal = match () {
        _ if twisted(Twist::BulkShortestTaken) => true,
        _ if twisted(Twist::BulkMoreRefusalsTaken) => sessions == reports && sessions <= refusals,
        _ if twisted(Twist::BulkMoreReportsTaken) => sessions == refusals && sessions <= reports,
        _ => sessions == reports && sessions == refusals,
    };
    let empty = twisted(Twist::BulkEmptyRefused) && shortest == 0;
    (equal && shortest <= most && !empty).then_some(shortest)
}

/// Each as the single call leaves it, and its number; the call's own number is 0 or 17.
pub fn report_all(sessions: &mut [Session], reports: &[u32], refusals: &mut [u32]) -> u32 {
    let Some(count) = fitting(sessions.len(), reports.len(), refusals.len()) else {
        if twisted(Twist::BulkRefusedWrites) {
            refusals.fill(17);
        }
        return 17;
    };
    let mut first = 0;
    let walked = if twisted(Twist::BulkLastLeftOut) { count.saturating_sub(1) } else { count };
    for place in 0..walked {
        let number = report(&mut sessions[place], news(reports, place));
        if number != 0 || !twisted(Twist::BulkZeroUnwritten) {
            refusals[place] = number;
        }
        first = if first == 0 { number } else { first };
        if number != 0 && twisted(Twist::BulkStopsAtRefusal) {
            break;
        }
    }
    if twisted(Twist::BulkAnswersFirstRefusal) {
        first
    } else {
        0
    }
}

fn news(reports: &[u32], place: usize) -> u32 {
    match () {
        _ if twisted(Twist::BulkFirstReportForAll) => reports[0],
        _ if twisted(Twist::BulkReportAsByte) => reports[place] & 0xFF,
        _ if twisted(Twist::BulkReportAs16Bits) => reports[place] & 0xFFFF,
        _ => reports[place],
    }
}

fn report(session: &mut Session, news: u32) -> u32 {
    match session::report(session, news) {
        Ok(state) => {
            session.state = state;
            if twisted(Twist::BulkForgetsLast) {
                session.last = 0;
            }
            0
        }
        Err(number) => {
            if twisted(Twist::BulkRefusedEnds) {
                session.state = session::ENDED;
            }
            number
        }
    }
}
