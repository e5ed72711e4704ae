//! As much of everything as an image or a request can hold.

use super::build::{self, READY};
use super::draft::{case_row, negated, Draft, CNF, DNF};
use crate::case::Case;
use crate::session::Session;

pub fn cases() -> Vec<Case> {
    let mut cases = Vec::new();
    for (label, draft) in [("64 criteria of 32 rows", full()), ("810 rows of 8 memberships", grouped())] {
        let image = draft.bytes();
        let label = format!("mass: {label}");
        cases.push(build::check(&label, &image));
        for case in 0..4 {
            let session = Session { case, ..READY };
            cases.push(build::advance(&label, &image, build::INVITE, session));
            cases.push(build::advance(
                &label,
                &image,
                build::INVITE,
                Session { forwarded: 1, last: 3_000, ..session },
            ));
            cases.push(build::list(&label, &image, build::REGISTER, case, case % 3, 64));
        }
    }
    cases.extend(requests());
    cases
}

/// Rows of every kind in turn, 32 to a criterion, so that no two criteria ask the same.
fn full() -> Draft {
    let mut draft = Draft::new();
    for number in 0..2_048usize {
        let text = format!("{}{}", char::from(b'a' + (number % 26) as u8), number / 32 % 9);
        let row = match number % 5 {
            0 => draft.text_row(0, b"sip:b", None),
            1 => draft.text_row(1, if number % 2 == 0 { b"INVITE" } else { b"REGISTER" }, None),
            2 => draft.text_row(2, b"[Ff]rom", Some(format!("[^{text}]").as_bytes())),
            3 => case_row(number as u16 % 4),
            _ => draft.text_row(4, b"^m$", Some(format!("{text}*o$").as_bytes())),
        };
        let row = if number % 7 == 3 { negated(row) } else { row };
        draft.add_row(row, &[(number / 3 % 8) as u16 * 9_000]);
    }
    for number in 0..64u32 {
        let form = if number % 4 == 0 { CNF } else { DNF };
        let criterion = draft.criterion(number * 7_919 % 6_007, form, 32);
        criterion.first_row = number as u16 * 32;
        criterion.part = (number % 3) as u8;
        criterion.handling = (number / 3 % 3) as u8;
    }
    draft
}

fn grouped() -> Draft {
    let mut draft = Draft::new();
    for number in 0..810u16 {
        let groups: Vec<u16> = (0..8).map(|group| group * 8_191 + number % 5).collect();
        draft.add_row(case_row(number / 2 % 4), &groups);
    }
    for number in 0..60u32 {
        let form = if number % 2 == 0 { CNF } else { DNF };
        let rows = 1 + number as usize % 32;
        draft.criterion(6_000 - number * 100, form, rows).first_row = number as u16 * 13;
    }
    draft
}

/// Requests of 65,535 bytes or little less: very many fields, folds, pieces, lines.
fn requests() -> Vec<Case> {
    let mut draft = Draft::new();
    let rows = [
        draft.text_row(2, b"^X$", Some(b"y$")),
        draft.text_row(2, b"^X$", Some(b"^y y")),
        draft.text_row(4, b"a", Some(b"^$")),
        draft.text_row(2, b"Z", None),
        draft.text_row(2, b"^[FS]", Some(b"y,y")),
    ];
    for (place, row) in rows.into_iter().enumerate() {
        draft.single(place as u32, row);
    }
    let image = draft.bytes();
    let shapes: [(&str, &[u8], &[u8], &[u8]); 14] = [
        ("fields", b"", b"X:\r\n", b"\r\n"),
        ("folds", b"X:", b"\r\n y", b"\r\n\r\n"),
        ("blank folds", b"X:", b"\r\n\t", b"\r\n\r\n"),
        ("lines", b"c: application/sdp\r\n\r\n", b"a=\n", b""),
        ("empty lines", b"Content-Type: application/sdp\r\n\r\n", b"\r\n", b""),
        ("lines of another body", b"c: text/plain\r\n\r\n", b"a=\n", b""),
        ("Content-Type fields", b"", b"c: application/sdp\r\n", b"\r\na="),
        ("fields before Content-Type", b"", b"X:\r\n", b"c: application/sdp\r\n\r\na="),
        ("folds in Content-Type", b"c: application/sdp", b"\r\n ", b";x\r\n\r\na="),
        ("quoted commas", b"X:", b"\"\\\",\",", b"\r\n\r\n"),
        ("commas in <>", b"X:", b"<,\">,y,", b"\r\n\r\n"),
        ("never cut", b"Subject:", b"y,", b"\r\n\r\n"),
        ("never cut under s", b"s:", b"y,", b"\r\n\r\n"),
        ("short names", b"", b"f:\r\nS:y,y\r\n", b"\r\n"),
    ];
    let mut cases = Vec::new();
    for (label, before, unit, after) in shapes {
        let label = format!("mass: {label}");
        let request = |method: &str| {
            let start = [format!("{method} sip:b SIP/2.0\r\n").as_bytes(), before].concat();
            let times = (65_535 - start.len() - after.len()) / unit.len();
            [start, unit.repeat(times), after.to_vec()].concat()
        };
        cases.push(build::advance(&label, &image, &request("INVITE"), READY));
        cases.push(build::list(&label, &image, &request("REGISTER"), 0, 0, 5));
        for row in [0, 2, 4] {
            cases.push(build::show(&label, &image, &request("INVITE"), row));
        }
    }
    cases
}
