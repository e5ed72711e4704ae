//! The readings about fitting and counts: parts, methods, sets, trials, groups.

use crate::case::Case;
use crate::maker::build::{advance, list, INVITE, READY, REGISTER};
use crate::maker::draft::{case_row, negated, with_set, Draft, CNF, DNF};
use crate::session::Session;

pub fn cases() -> Vec<Case> {
    let mut cases = part_points();
    cases.extend(method_points());
    cases.extend(set_points());
    cases.extend(trial_points());
    cases.extend(group_points());
    cases
}

fn part_points() -> Vec<Case> {
    let mut parts = Draft::new();
    for (place, part) in [1, 0, 1, 2, 0].into_iter().enumerate() {
        parts.add_row(case_row(if place == 4 { 0 } else { 1 }), &[0]);
        parts.criterion(place as u32 * 10, DNF, 1).part = part;
    }
    let parts = parts.bytes();
    let mut cases = Vec::new();
    for case in 0..4 {
        let session = Session { case, ..READY };
        cases.push(advance("F2: parts that do not fit", &parts, INVITE, session));
        cases.push(list("F2: parts that do not fit", &parts, REGISTER, case, 0, 9));
    }
    cases
}

fn method_points() -> Vec<Case> {
    let mut methods = Draft::new();
    for (place, method) in ["register", "Register", "REGISTER", "invite", "INVITE"].iter().enumerate() {
        let row = methods.text_row(1, method.as_bytes(), None);
        methods.single(place as u32, with_set(row, 2));
    }
    let methods = methods.bytes();
    let mut cases = Vec::new();
    for method in ["register", "Register", "REGISTER", "INVITE", "invite", "REGISTERX", "REGISTE"] {
        let request = format!("{method} sip:b SIP/2.0\r\n\r\n");
        let label = format!("F7: {method}");
        cases.push(advance(&label, &methods, request.as_bytes(), READY));
        for kind in 0..4 {
            cases.push(list(&label, &methods, request.as_bytes(), 0, kind, 9));
        }
    }
    cases
}

/// Every set against every type, negated and not, alone and beside a row of another kind.
fn set_points() -> Vec<Case> {
    let mut cases = Vec::new();
    for kind in 0..3 {
        let mut draft = Draft::new();
        for set in 0..7 {
            let register = draft.text_row(1, b"REGISTER", None);
            draft.single(u32::from(set), with_set(register, set));
            draft.single(u32::from(set) + 10, negated(with_set(register, set)));
            let uri = draft.text_row(0, b"sip:b", None);
            draft.single(u32::from(set) + 20, with_set(uri, set));
            let other = draft.text_row(1, b"INVITE", None);
            draft.single(u32::from(set) + 30, negated(with_set(other, set)));
        }
        cases.push(list("F8: sets and types", &draft.bytes(), REGISTER, 0, kind, 64));
    }
    cases
}

/// Rows of every kind, each also negated, shared by triggers of every length.
fn trial_image() -> Vec<u8> {
    let mut draft = Draft::new();
    let rows = [
        draft.text_row(0, b"sip:b", None),
        draft.text_row(1, b"REGISTER", None),
        draft.text_row(2, b"^[FT]", Some(b"joe")),
        case_row(0),
        draft.text_row(4, b"[av]", Some(b"x")),
        draft.text_row(2, b"^From$", None),
        draft.text_row(4, b"v", None),
        draft.text_row(2, b"^None$", Some(b"a")),
    ];
    for row in rows {
        draft.add_row(row, &[0, 4, 9]);
        draft.add_row(negated(row), &[1]);
    }
    for count in 1..=16 {
        for form in [DNF, CNF] {
            let priority = 100 - 2 * count as u32 - u32::from(form);
            let criterion = draft.criterion(priority, form, count);
            criterion.first_row = 0;
            criterion.part = (count % 3) as u8;
        }
    }
    draft.criterion(1, DNF, 0);
    draft.bytes()
}

const REST: &[u8] = b" sip:b SIP/2.0\r\nFrom: ann, joe, bob\r\nTo: joe\r\nX: joe, joe\r\nfrom:\r\n\
    Content-Type: application/sdp;x\r\n\r\nv=0\r\na=x\r\na=y\r\nno\r\n";

fn trial_points() -> Vec<Case> {
    let image = trial_image();
    let mut cases = Vec::new();
    for case in 0..4 {
        let session = Session { case, ..READY };
        cases.push(list("F: trials", &image, &[b"REGISTER", REST].concat(), case, 0, 40));
        for last in [0, 1, 67, 68, 90, 97, 98, 200, u32::MAX] {
            let session = Session { forwarded: 1, last, ..session };
            cases.push(advance("F: trials", &image, &[b"INVITE", REST].concat(), session));
            cases.push(advance("F: trials", &image, b"BYE sip:c SIP/2.0\r\n\r\n", session));
        }
        cases.push(advance("F5: nothing to try", &image, b"BYE sip:c SIP/2.0\r\n\r\n", session));
        cases.push(list("F5: nothing to try", &image, b"REGISTER sip:b SIP/2.0\r\n\r\n", case, 2, 40));
    }
    cases
}

/// F6: the same group numbers in two triggers; rows in several groups.
fn group_points() -> Vec<Case> {
    let mut cases = Vec::new();
    for fitting in 0..16u16 {
        let mut draft = Draft::new();
        let groups: [&[u16]; 4] = [&[0, 1], &[1, 2], &[0], &[2, 3]];
        for (place, groups) in groups.iter().enumerate() {
            draft.add_row(case_row((fitting >> place & 1) ^ 1), groups);
        }
        for (place, (first, count)) in
            [(0, 4), (0, 2), (2, 2), (1, 3), (0, 1), (3, 1)].into_iter().enumerate()
        {
            for form in [DNF, CNF] {
                let criterion = draft.criterion(place as u32 * 2 + u32::from(form), form, count);
                criterion.first_row = first;
            }
        }
        let label = format!("F6: groups, rows {fitting:04b}");
        cases.push(list(&label, &draft.bytes(), REGISTER, 0, 0, 20));
        cases.push(advance(&label, &draft.bytes(), INVITE, READY));
    }
    cases
}
