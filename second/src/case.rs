//! A case is one call with all its inputs; an answer is everything the call hands back.

use crate::bulk;
use crate::calls;
use crate::place::Place;
use crate::plain;
use crate::profile::Fault;
use crate::session::{self, Session};
use crate::shown::Shown;
use crate::twist::{twisted, Twist};

#[derive(Clone, Copy, PartialEq, Eq, Debug)]
pub enum Call {
    Check,
    Open,
    Advance,
    Report,
    List,
    Server,
    Information,
    Show,
    Reports,
    Plain,
}

pub const CALLS: [Call; 10] = [
    Call::Check,
    Call::Open,
    Call::Advance,
    Call::Report,
    Call::List,
    Call::Server,
    Call::Information,
    Call::Show,
    Call::Reports,
    Call::Plain,
];

impl Call {
    /// The call's `uint32_t` parameters in the order of the C prototype; `*` marks a lent one.
    pub fn numbers(self) -> &'static [&'static str] {
        match self {
            Call::Check => &["*place"],
            Call::Open => &["wanted_case", "*session_case", "*state", "*forwarded", "*last", "*handling"],
            Call::Advance => &[
                "session_case",
                "*state",
                "*forwarded",
                "*last",
                "*handling",
                "*place",
                "*outcome",
                "*criterion",
                "*priority",
                "*examined",
                "*trials",
            ],
            Call::Report => &["session_case", "*state", "forwarded", "last", "handling", "report"],
            Call::List => &["session_case", "registration_type", "*place", "*count", "*examined", "*trials"],
            Call::Server => &["criterion", "*place", "*start", "*length"],
            Call::Information => &["criterion", "*place", "*present", "*start", "*length"],
            Call::Show => &["row", "*place", "*found", "*field", "*value", "*start", "*length"],
            Call::Reports => &["sessions_len", "reports_len", "refusals_len"],
            Call::Plain => &["*found", "*start", "*length"],
        }
    }
}

#[derive(Clone, PartialEq, Eq, Debug)]
pub struct Case {
    pub call: Call,
    /// For the reader of a difference.
    pub label: String,
    /// Of plain: the pattern.
    pub image: Vec<u8>,
    /// Of reports in bulk, the list of reports as written by `in_bytes`; of plain, the text.
    pub request: Vec<u8>,
    /// The lent list before the call; of reports in bulk both lists, the sessions and then the refusal numbers.
    pub list: Vec<u8>,
    /// Every number parameter before the call, lent ones with what they hold.
    pub numbers: Vec<u32>,
}

#[derive(Clone, PartialEq, Eq, Debug)]
pub struct Answer {
    pub number: u32,
    pub list: Vec<u8>,
    /// Every number parameter after the call.
    pub numbers: Vec<u32>,
}

pub fn answer(case: &Case) -> Answer {
    let mut list = case.list.clone();
    let mut numbers = case.numbers.clone();
    let number = match case.call {
        Call::Check => check(case, &mut numbers),
        Call::Open => open(&mut numbers),
        Call::Advance => advance(case, &mut numbers),
        Call::Report => report(&mut numbers),
        Call::List => listing(case, &mut list, &mut numbers),
        Call::Server => server(case, &mut numbers),
        Call::Information => information(case, &mut numbers),
        Call::Show => show(case, &mut numbers),
        Call::Reports => reports(case, &mut list),
        Call::Plain => plain(case, &mut numbers),
    };
    Answer { number, list, numbers }
}

fn check(case: &Case, numbers: &mut [u32]) -> u32 {
    let Fault { number, place } = calls::check(&case.image);
    numbers[0] = place as u32;
    number
}

fn open(numbers: &mut [u32]) -> u32 {
    let (number, session) = match session::open(numbers[0]) {
        Ok(session) => (0, session),
        Err(session) => (8, session),
    };
    if twisted(Twist::RefusedOpeningWritesNothing) && number != 0 {
        return number;
    }
    numbers[1] = session.case;
    numbers[2..6].copy_from_slice(&rest_of(session));
    number
}

/// A session but for its case, as the calls lend it.
fn rest_of(session: Session) -> [u32; 4] {
    [session.state, session.forwarded, session.last, session.handling]
}

fn session_of(numbers: &[u32]) -> Session {
    Session {
        case: numbers[0],
        state: numbers[1],
        forwarded: numbers[2],
        last: numbers[3],
        handling: numbers[4],
    }
}

fn advance(case: &Case, numbers: &mut [u32]) -> u32 {
    let advanced = calls::advance(&case.image, &case.request, session_of(numbers));
    if twisted(Twist::RefusedAdvanceKeepsCounts) && advanced.is_err() {
        numbers[5..9].fill(0);
    } else {
        numbers[5..].fill(0);
    }
    match advanced {
        Ok(advanced) => {
            numbers[1..5].copy_from_slice(&rest_of(advanced.session));
            numbers[6] = advanced.outcome;
            numbers[7] = advanced.criterion;
            numbers[8] = advanced.priority;
            numbers[9] = advanced.counts.examined;
            numbers[10] = advanced.counts.trials;
            0
        }
        Err(fault) => {
            numbers[5] = fault.place as u32;
            if twisted(Twist::RefusedAdvanceFinishes) {
                numbers[1] = session::FINISHED;
            }
            if twisted(Twist::RefusedAdvanceForgets) && fault.number <= 7 {
                numbers[2..5].fill(0);
            }
            fault.number
        }
    }
}

fn report(numbers: &mut [u32]) -> u32 {
    match session::report(&session_of(numbers), numbers[5]) {
        Ok(state) => {
            numbers[1] = state;
            0
        }
        Err(number) => {
            if twisted(Twist::RefusedReportEnds) {
                numbers[1] = session::ENDED;
            }
            number
        }
    }
}

fn listing(case: &Case, list: &mut [u8], numbers: &mut [u32]) -> u32 {
    numbers[2..].fill(0);
    match calls::list(&case.image, &case.request, numbers[0], numbers[1], list) {
        Ok(listed) => {
            numbers[3..].copy_from_slice(&[listed.count, listed.counts.examined, listed.counts.trials]);
            0
        }
        Err(fault) => {
            numbers[2] = fault.place as u32;
            if twisted(Twist::CountOnTwelve) && fault.number == 12 {
                numbers[3] = list.len() as u32;
            }
            fault.number
        }
    }
}

fn server(case: &Case, numbers: &mut [u32]) -> u32 {
    let found = calls::server(&case.image, numbers[0]);
    if !(twisted(Twist::RefusedLookupKeepsPart) && found.is_err()) {
        numbers[1..].fill(0);
    }
    match found {
        Ok(part) => {
            numbers[2..].copy_from_slice(&[part.start as u32, part.len() as u32]);
            0
        }
        Err(fault) => {
            numbers[1] = fault.place as u32;
            fault.number
        }
    }
}

fn information(case: &Case, numbers: &mut [u32]) -> u32 {
    numbers[1..].fill(0);
    match calls::information(&case.image, numbers[0]) {
        Ok(Some(part)) => {
            numbers[2..].copy_from_slice(&[1, part.start as u32, part.len() as u32]);
            0
        }
        Ok(None) => 0,
        Err(fault) => {
            numbers[1] = fault.place as u32;
            fault.number
        }
    }
}

fn show(case: &Case, numbers: &mut [u32]) -> u32 {
    let shown = calls::show(&case.image, &case.request, numbers[0]);
    let kept = match shown {
        Ok(None) => twisted(Twist::NothingShownWritesNothing),
        Ok(Some(_)) => false,
        Err(_) => twisted(Twist::RefusedShowWritesNothing),
    };
    if !kept {
        numbers[1..].fill(0);
    }
    match shown {
        Ok(Some(Shown { field, value, place: Place { start, length } })) => {
            let length = if twisted(Twist::ShownEndForLength) { start + length } else { length };
            let of = [(field, Twist::ShownFieldAsByte), (value, Twist::ShownValueAsByte)];
            let bytes = [(start, Twist::ShownStartAsByte), (length, Twist::ShownLengthAsByte)];
            numbers[2] = 1;
            for (place, (number, twist)) in of.into_iter().chain(bytes).enumerate() {
                numbers[3 + place] = if twisted(twist) { number & 255 } else { number } as u32;
            }
            0
        }
        Ok(None) => 0,
        Err(fault) => {
            numbers[1] = fault.place as u32;
            fault.number
        }
    }
}

/// Numbers as the files have them: 4 bytes each, big-endian.
pub fn in_bytes(numbers: &[u32]) -> Vec<u8> {
    numbers.iter().flat_map(|number| number.to_be_bytes()).collect()
}

fn in_numbers(bytes: &[u8]) -> Vec<u32> {
    bytes
        .chunks_exact(4)
        .map(|four| four.iter().fold(0, |number, &byte| number << 8 | u32::from(byte)))
        .collect()
}

/// Numbers of a session.
pub const RECORD: usize = 5;

/// A session's numbers, in the order of the C struct.
pub fn record_of(session: &Session) -> [u32; RECORD] {
    let [state, forwarded, last, handling] = rest_of(*session);
    [session.case, state, forwarded, last, handling]
}

fn reports(case: &Case, list: &mut Vec<u8>) -> u32 {
    let (sessions, refusals) = list.split_at(4 * RECORD * case.numbers[0] as usize);
    let mut sessions: Vec<Session> = in_numbers(sessions).chunks_exact(RECORD).map(session_of).collect();
    let mut refusals = in_numbers(refusals);
    let number = bulk::report_all(&mut sessions, &in_numbers(&case.request), &mut refusals);
    let sessions: Vec<u32> = sessions.iter().flat_map(record_of).collect();
    *list = in_bytes(&[sessions, refusals].concat());
    number
}

fn plain(case: &Case, numbers: &mut [u32]) -> u32 {
    let found = plain::plain(&case.image, &case.request);
    let kept = match found {
        Ok(None) => twisted(Twist::NowherePlainWritesNothing),
        Ok(Some(_)) => false,
        Err(_) => twisted(Twist::RefusedPlainWritesNothing),
    };
    if !kept {
        numbers.fill(0);
    }
    match found {
        Ok(Some(Place { start, length })) => {
            let length = if twisted(Twist::PlainEndForLength) { start + length } else { length };
            let as_byte = |number: usize, twist| if twisted(twist) { number & 255 } else { number } as u32;
            let places = [as_byte(start, Twist::PlainStartAsByte), as_byte(length, Twist::PlainLengthAsByte)];
            numbers.copy_from_slice(&[1, places[0], places[1]]);
            0
        }
        Ok(None) => 0,
        Err(number) => number,
    }
}
