//! The worked examples of document 01: every value here is written there.

mod common;
use common::*;
use second::maker::draft::{case_row, negated, Draft, CNF, DNF};
use second::maker::points::trigger_of_000;
use second::session::Session;

const EMPTY_PROFILE: &[u8] = &[1, 0, 0, 0, 0, 0, 0, 0, 0];

/// `01 0001 0005 7369703A61 0000 0000 0001 00000005 02 02 0000 0000 0000 01 FFFF`
const ONE_CRITERION: &[u8] = &[
    0x01, 0x00, 0x01, 0x00, 0x05, 0x73, 0x69, 0x70, 0x3A, 0x61, 0x00, 0x00, 0x00, 0x00, 0x00, 0x01, 0x00,
    0x00, 0x00, 0x05, 0x02, 0x02, 0x00, 0x00, 0x00, 0x00, 0x00, 0x00, 0x01, 0xFF, 0xFF,
];

const BARE: &[u8] = b"INVITE sip:b SIP/2.0\r\n\r\n";

#[test]
fn empty_profile() {
    assert_eq!(check(EMPTY_PROFILE), (0, 0));
    let routed = advance(EMPTY_PROFILE, BARE, READY);
    assert_eq!((routed.number, routed.outcome, routed.session.state), (0, 2, 2));
    assert_eq!((routed.criterion, routed.priority, routed.examined, routed.trials), (0, 0, 0, 0));
}

#[test]
fn one_criterion_is_whole() {
    assert_eq!(ONE_CRITERION.len(), 31);
    assert_eq!(check(ONE_CRITERION), (0, 0));
    let forwarded = advance(ONE_CRITERION, BARE, READY);
    assert_eq!((forwarded.outcome, forwarded.criterion, forwarded.priority), (1, 0, 5));
    let waiting = Session { case: 0, state: 1, forwarded: 1, last: 5, handling: 1 };
    assert_eq!(forwarded.session, waiting);
    assert_eq!(report(waiting, 0), (0, 0));
    assert_eq!(report(waiting, 1), (0, 3));
    assert_eq!(report(waiting, 2), (0, 4));
    assert_eq!(report(Session { handling: 0, ..waiting }, 1), (0, 0));
    let (number, [place, start, length]) = server(ONE_CRITERION, 0);
    assert_eq!((number, place), (0, 0));
    assert_eq!(&ONE_CRITERION[start as usize..(start + length) as usize], b"sip:a");
    assert_eq!(information(ONE_CRITERION, 0), (0, [0, 0, 0, 0]));
}

#[test]
fn draft_writes_the_worked_image() {
    let mut draft = Draft::new();
    draft.criterion(5, DNF, 0).handling = 1;
    assert_eq!(draft.bytes(), ONE_CRITERION);
}

/// "Marked for proof, as a single list."
#[test]
fn marked_patterns() {
    assert!(fits(b"^Jo", b"Joe"));
    assert!(!fits(b"^Jo", b"a Joe"));
    assert!(fits(b"Jo", b"a Joe"));
    assert!(!fits(b"*a", b"a"));
    assert!(fits(b"*a", b"x*a"));
    assert!(fits(b"a*", b""));
    assert!(fits(b"x$y", b"x$y"));
    assert!(fits(b"[]a]", b"]"));
    assert!(!accepted(b"[z-a]"));
}

#[test]
fn trigger_of_000_in_both_forms() {
    for form in [DNF, CNF] {
        let image = trigger_of_000(form);
        let fits = |request: &str| advance(&image, request.as_bytes(), READY).outcome == 1;
        assert!(!fits("SUBSCRIBE sip:b SIP/2.0\r\nFrom: joe\r\n\r\n"), "form {form}");
        assert!(fits("SUBSCRIBE sip:b SIP/2.0\r\n\r\n"), "form {form}");
        assert!(!fits("BYE sip:b SIP/2.0\r\n\r\n"), "form {form}");
        assert!(fits("INVITE sip:b SIP/2.0\r\nFrom: joe\r\n\r\n"), "form {form}");
        assert!(fits("MESSAGE sip:b SIP/2.0\r\nFrom: joe\r\n\r\n"), "form {form}");
    }
}

/// "Names ... `[^f]` meets `f`. Line and Content are matched as written."
#[test]
fn either_form_on_names_only() {
    assert!(fits_name(b"[^f]", b"f"));
    assert!(!fits(b"[^f]", b"f"));
    assert!(fits_name(b"^from$", b"FROM"));
    assert!(!fits(b"^from$", b"FROM"));
}

/// "From `joe` and `ann`, Content `joe`, negated. The row fits only if no value matches."
#[test]
fn negation_is_not_per_value() {
    let mut draft = Draft::new();
    let row = draft.text_row(2, b"From", Some(b"joe"));
    draft.single(1, negated(row));
    assert!(!row_fits(&draft, &invite(b"From: joe\r\nFrom: ann\r\n\r\n")));
    assert!(!row_fits(&draft, &invite(b"From: joe, ann\r\n\r\n")));
    assert!(row_fits(&draft, &invite(b"From: ann\r\nFrom: bob\r\n\r\n")));
}

#[test]
fn small_priority_numbers_first() {
    let mut draft = Draft::new();
    draft.criterion(9, DNF, 0);
    draft.criterion(3, DNF, 0);
    let first = advance(&draft.bytes(), BARE, READY);
    assert_eq!((first.criterion, first.priority, first.examined), (1, 3, 1));
    let second = advance(&draft.bytes(), BARE, Session { forwarded: 1, last: 3, ..READY });
    assert_eq!((second.criterion, second.priority, second.examined), (0, 9, 1));
    let route = advance(&draft.bytes(), BARE, Session { forwarded: 1, last: 9, ..READY });
    assert_eq!((route.outcome, route.examined), (2, 0));
}

#[test]
fn name_and_content_in_one_field() {
    let mut draft = Draft::new();
    let row = draft.text_row(2, b"From", Some(b"joe"));
    draft.single(1, row);
    assert!(!row_fits(&draft, &invite(b"From: ann\r\nTo: joe\r\n\r\n")));
    assert!(row_fits(&draft, &invite(b"X-From-Id: joe\r\n\r\n")));
}

/// "Negating a group in place of a row": not-A or B fits when A and B both hold.
#[test]
fn negation_is_of_the_row() {
    let mut draft = Draft::new();
    draft.add_row(negated(case_row(0)), &[0]);
    draft.add_row(case_row(0), &[0]);
    draft.criterion(1, CNF, 2);
    assert!(row_fits(&draft, BARE));
}

/// "The request may differ at each advance."
#[test]
fn the_rest_is_assessed_against_the_new_request() {
    let mut draft = Draft::new();
    draft.criterion(1, DNF, 0);
    let row = draft.text_row(1, b"MESSAGE", None);
    draft.single(2, row);
    let image = draft.bytes();
    let waiting = advance(&image, BARE, READY).session;
    let (_, state) = report(waiting, 0);
    let ready = Session { state, ..waiting };
    assert_eq!(advance(&image, BARE, ready).outcome, 2);
    assert_eq!(advance(&image, b"MESSAGE sip:b SIP/2.0\r\n\r\n", ready).outcome, 1);
}

/// "1 for kinds 0, 1, 3; for kind 2 one per field, plus, with Content, one per value of each
/// field whose name matches; kind 4 likewise over lines that are fields, one value each."
#[test]
fn trials_by_kind() {
    let request = invite(
        b"From: a, b, c\r\nTo: d\r\nFrom: e\r\nc: application/sdp\r\n\r\nv=0\r\na=1\r\nno line\r\na=2\r\n",
    );
    let trials = |kind: u8, first: &[u8], second: Option<&[u8]>| {
        let mut draft = Draft::new();
        let row = draft.text_row(kind, first, second);
        draft.single(1, row);
        advance(&draft.bytes(), &request, READY).trials
    };
    assert_eq!(trials(0, b"sip:b", None), 1);
    assert_eq!(trials(1, b"INVITE", None), 1);
    assert_eq!(trials(2, b"From", None), 4);
    assert_eq!(trials(2, b"From", Some(b"a")), 4 + 4);
    assert_eq!(trials(2, b"^To$", Some(b"a")), 4 + 1);
    assert_eq!(trials(2, b"None", Some(b"a")), 4);
    assert_eq!(trials(4, b"a", None), 3);
    assert_eq!(trials(4, b"a", Some(b"1")), 3 + 2);
}

/// The list places beyond the answer keep their bytes; one place is one byte.
#[test]
fn listing() {
    let mut draft = Draft::new();
    draft.criterion(30, DNF, 0);
    draft.single(20, case_row(1));
    draft.criterion(10, DNF, 0);
    let image = draft.bytes();
    let register = b"REGISTER sip:b SIP/2.0\r\n\r\n";
    for places in [2, 3, 7, 100] {
        let before = places_before(places);
        let (number, after, numbers) = list(&image, register, 0, 0, places);
        assert_eq!((number, numbers), (0, [0, 2, 3, 1]));
        assert_eq!(after[..2], [2, 0]);
        assert_eq!(after[2..], before[2..]);
    }
    for places in [0, 1] {
        assert_eq!(list(&image, register, 0, 0, places), (12, places_before(places), [0; 4]));
    }
}

/// The table of refusal numbers, one line each.
#[test]
fn refusal_numbers() {
    let register = b"REGISTER sip:b SIP/2.0\r\n\r\n";
    assert_eq!(check(&[1; 32_769]), (1, 0));
    assert_eq!(check(&ONE_CRITERION[..30]), (2, 30));
    assert_eq!(check(&[EMPTY_PROFILE, &[0, 0]].concat()), (3, 9));
    assert_eq!(check(&[2]), (4, 0));
    let mut empty_server = Draft::new();
    empty_server.strings[0].clear();
    empty_server.criterion(5, DNF, 0);
    assert_eq!(check_draft(&empty_server), (5, empty_server.criterion_place(0) as u32 + 10));
    let mut twice = Draft::new();
    twice.criterion(5, DNF, 0);
    twice.criterion(5, DNF, 0);
    assert_eq!(check_draft(&twice), (6, twice.criterion_place(1) as u32));
    assert_eq!(advance(EMPTY_PROFILE, b"INVITE", READY).number, 7);
    assert_eq!(list(EMPTY_PROFILE, register, 4, 0, 1).0, 8);
    assert_eq!(report(Session { state: 1, forwarded: 1, ..READY }, 3).0, 8);
    assert_eq!(list(EMPTY_PROFILE, register, 0, 3, 1).0, 9);
    assert_eq!(report(READY, 0).0, 10);
    assert_eq!(advance(EMPTY_PROFILE, register, READY).number, 11);
    assert_eq!(list(EMPTY_PROFILE, BARE, 0, 0, 1).0, 11);
    assert_eq!(list(ONE_CRITERION, register, 0, 0, 0).0, 12);
    assert_eq!(server(ONE_CRITERION, 1), (13, [0, 0, 0]));
    assert_eq!(information(ONE_CRITERION, 1), (13, [0, 0, 0, 0]));
}

/// "Order: 10, image faults, 7, 11, 8, 9, 12; for a lookup 13 after the image."
#[test]
fn order_of_refusals() {
    let waiting = Session { state: 1, forwarded: 1, ..READY };
    assert_eq!(advance(&[2], b"", waiting).number, 10);
    assert_eq!(advance(&[2], b"", READY).number, 4);
    let other = b"INVITE sip:b SIP/2.0\r\n\r\n";
    let register = b"REGISTER sip:b SIP/2.0\r\n\r\n";
    assert_eq!(list(&[2], b"", 9, 9, 0).0, 4);
    assert_eq!(list(ONE_CRITERION, b"", 9, 9, 0).0, 7);
    assert_eq!(list(ONE_CRITERION, other, 9, 9, 0).0, 11);
    assert_eq!(list(ONE_CRITERION, register, 9, 9, 0).0, 8);
    assert_eq!(list(ONE_CRITERION, register, 3, 9, 0).0, 9);
    assert_eq!(list(ONE_CRITERION, register, 3, 2, 0).0, 12);
    assert_eq!(server(&[2], 99), (4, [0, 0, 0]));
}
