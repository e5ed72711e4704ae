//! Change request 8, sentence by sentence, and its readings B1 to B4.

use second::bulk::report_all;
use second::case::{self, record_of};
use second::maker::build;
use second::session::{self, Session};

const WAITS: Session = Session { case: 1, state: 1, forwarded: 1, last: 7, handling: 0 };
const STRICT: Session = Session { handling: 1, ..WAITS };
const READY: Session = Session { state: 0, ..WAITS };

/// The call's number, the sessions and the refusal numbers after it; the latter hold 99 before it.
fn reported(sessions: &[Session], reports: &[u32], refusals: usize) -> (u32, Vec<Session>, Vec<u32>) {
    let (mut sessions, mut refusals) = (sessions.to_vec(), vec![99; refusals]);
    let number = report_all(&mut sessions, reports, &mut refusals);
    (number, sessions, refusals)
}

/// "Each session ends as the single call leaves it": a server that is down, by each session's own default.
#[test]
fn each_by_its_own_default() {
    let released = Session { state: 3, ..STRICT };
    assert_eq!(reported(&[WAITS, STRICT], &[1, 1], 2), (0, vec![READY, released], vec![0, 0]));
}

/// "refused ones unchanged; the numbers are the single call's, 0 for none" (B3)
#[test]
fn refused_ones_stay_and_the_others_go_on() {
    let impossible = Session { case: 4, ..WAITS };
    let sessions = [READY, WAITS, impossible, WAITS];
    let ended = Session { state: 4, ..WAITS };
    let right = (0, vec![READY, WAITS, impossible, ended], vec![10, 8, 10, 0]);
    assert_eq!(reported(&sessions, &[0, 3, 1, 2], 4), right);
}

/// "17 for lengths that differ or exceed 256, and then no list is touched" (B2)
#[test]
fn lengths() {
    for (sessions, reports, refusals) in
        [(1, 0, 1), (0, 1, 1), (1, 1, 0), (1, 1, 2), (2, 1, 2), (257, 257, 257), (257, 256, 256)]
    {
        let before = vec![WAITS; sessions];
        let right = (17, before.clone(), vec![99; refusals]);
        assert_eq!(
            reported(&before, &vec![0; reports], refusals),
            right,
            "{sessions}, {reports}, {refusals}"
        );
    }
    for count in [0, 1, 255, 256] {
        let right = (0, vec![READY; count], vec![0; count]);
        assert_eq!(reported(&vec![WAITS; count], &vec![0; count], count), right, "{count}");
    }
}

/// "A report of 256 must not pass as 0" (B4)
#[test]
fn wide_reports() {
    for report in [256, 257, 65_536, u32::MAX] {
        assert_eq!(reported(&[WAITS], &[report], 1), (0, vec![WAITS], vec![8]), "{report}");
    }
}

/// One by one and all at once, in either order.
#[test]
fn as_one_by_one() {
    for case in second::maker::bulks::random(4, 2_000) {
        let [count, reports, refusals] = [0, 1, 2].map(|place| case.numbers[place] as usize);
        if count != reports || count != refusals || count > 256 {
            continue;
        }
        let number = |bytes: &[u8], place: usize| {
            u32::from_be_bytes(bytes[4 * place..4 * place + 4].try_into().expect("four"))
        };
        let answer = case::answer(&case);
        for place in 0..count {
            let [of, state, forwarded, last, handling] =
                [0, 1, 2, 3, 4].map(|k| number(&case.list, 5 * place + k));
            let before = Session { case: of, state, forwarded, last, handling };
            let (after, refusal) = match session::report(&before, number(&case.request, place)) {
                Ok(state) => (Session { state, ..before }, 0),
                Err(number) => (before, number),
            };
            assert_eq!([0, 1, 2, 3, 4].map(|k| number(&answer.list, 5 * place + k)), record_of(&after));
            assert_eq!(number(&answer.list, 5 * count + place), refusal);
        }
    }
}

/// A case holds its lists as the file says: each session's five numbers, then the refusal numbers.
#[test]
fn a_case_byte_by_byte() {
    let case = build::reports("", &[STRICT], &[1], 1);
    let five = b"\0\0\0\x01\0\0\0\x01\0\0\0\x01\0\0\0\x07\0\0\0\x01";
    assert_eq!(case.list, [&five[..], b"\xDE\xAD\xBE\0"].concat());
    assert_eq!((case.request, case.numbers), (b"\0\0\0\x01".to_vec(), vec![1, 1, 1]));
}
