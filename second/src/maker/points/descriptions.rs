//! The readings about session descriptions: which Content-Type fields make the body one, and what rows and trials see of
//! another body.

use crate::case::Case;
use crate::maker::build::{advance, after, list, READY};
use crate::maker::draft::{negated, Draft, CNF, DNF};
use crate::maker::types::{field, NAMES, OTHER_NAMES, RIGHT, WRONG};

pub fn cases() -> Vec<Case> {
    let mut cases = every_value();
    cases.extend(every_name());
    cases.extend(several_fields());
    cases.extend(every_body());
    cases.extend(between_other_fields());
    cases.extend(a_presence_document());
    cases
}

const BODY: &[u8] = b"v=0\r\nm=audio 1 RTP/AVP 8\r\nno field\r\na=x\r\n";

/// Line rows without Content and with it, each also negated; one that meets nothing, negated; a header row.
fn asking() -> Vec<u8> {
    let mut draft = Draft::new();
    let rows = [
        draft.text_row(4, b"^m$", None),
        draft.text_row(4, b"^m$", Some(b"^audio ")),
        draft.text_row(4, b".", Some(b".")),
        draft.text_row(4, b"z", None),
        draft.text_row(2, b"^Content-Type$", Some(b"^application/sdp$")),
    ];
    for (place, row) in rows.into_iter().enumerate() {
        draft.single(10 * place as u32, row);
        draft.single(10 * place as u32 + 5, negated(row));
    }
    draft.bytes()
}

/// Listed, and advanced to each of the first rows.
fn asked(label: &str, image: &[u8], head: &[u8], body: &[u8]) -> Vec<Case> {
    let request = |method: &[u8]| [method, b" sip:b SIP/2.0\r\n", head, b"\r\n", body].concat();
    let mut cases = vec![list(label, image, &request(b"REGISTER"), 0, 0, 64)];
    for session in [READY, after(5), after(20)] {
        cases.push(advance(label, image, &request(b"INVITE"), session));
    }
    cases
}

/// Every value, right and wrong, under the long name and the short one.
fn every_value() -> Vec<Case> {
    let image = asking();
    let mut cases = Vec::new();
    for (point, behind) in RIGHT.iter().chain(WRONG) {
        for name in ["Content-Type", "c"] {
            let head = field(name, behind);
            let label = format!("{point}: {}", head.escape_ascii());
            cases.extend(asked(&label, &image, &head, BODY));
        }
    }
    cases
}

/// Every name that is one, and every one that only looks so.
fn every_name() -> Vec<Case> {
    let image = asking();
    let mut cases = Vec::new();
    for name in NAMES.iter().chain(OTHER_NAMES) {
        for behind in [b": application/sdp".as_slice(), b": application/sdp;x", b": text/plain"] {
            let head = field(name, behind);
            let label = format!("5.1: {}", head.escape_ascii());
            cases.extend(asked(&label, &image, &head, BODY));
        }
    }
    cases
}

/// None, two and three fields, in every order.
fn several_fields() -> Vec<Case> {
    let image = asking();
    let fields: [&[u8]; 8] = [
        b"Content-Type: application/sdp\r\n",
        b"c: application/sdp\r\n",
        b"CONTENT-TYPE: Application/SDP;x\r\n",
        b"Content-Type: text/plain\r\n",
        b"C: application/sdp, application/sdp\r\n",
        b"c:\r\n",
        b"X-Content-Type: application/sdp\r\n",
        b"Accept: application/sdp\r\n",
    ];
    let mut cases = asked("5.4: no Content-Type", &image, b"", BODY);
    cases.extend(asked("5.4: no Content-Type", &image, b"Content-Length: 9\r\nTo: a\r\n", BODY));
    for first in fields {
        for second in fields {
            let label = format!("5.3: {}{}", first.escape_ascii(), second.escape_ascii());
            cases.extend(asked(&label, &image, &[first, second].concat(), BODY));
        }
    }
    let three = [fields[0], b"To: a\r\n", fields[0], b"From: b\r\n", fields[1]].concat();
    cases.extend(asked("5.3: three Content-Type fields", &image, &three, BODY));
    cases
}

/// What the body holds does not decide.
fn every_body() -> Vec<Case> {
    let image = asking();
    let bodies: [&[u8]; 9] = [
        b"",
        b"m=audio ",
        b"m=x\r\n",
        b"\r\nm=audio 1\r\n",
        b"m=x\r\n\r\nm=audio 1\r\n\r\n",
        b"no field\r\n",
        b"Content-Type: application/sdp\r\n\r\nm=audio 1\r\n",
        b"<x>\nm=audio 1\n</x>\n",
        b"=\r\n==\r\nz=\r\n",
    ];
    let heads: [(&str, &[u8]); 5] = [
        ("5.5", b"c: application/sdp\r\n"),
        ("5.5", b"c: application/xml\r\n"),
        ("5.4", b""),
        ("5.3", b"c: application/sdp\r\nc: application/sdp\r\n"),
        ("5.7", b"Content-Type:,\r\n"),
    ];
    let mut cases = Vec::new();
    for body in bodies {
        for (point, head) in heads {
            let label = format!("{point}: {} before {}", head.escape_ascii(), body.escape_ascii());
            cases.extend(asked(&label, &image, head, body));
        }
    }
    cases
}

/// First, last and in the middle of many fields, folded, and with the longest of blanks and parameters.
fn between_other_fields() -> Vec<Case> {
    let image = asking();
    let right = b"c: application/sdp\r\n".to_vec();
    let others = b"Via: a, b\r\nSubject: application/sdp\r\nContent-Disposition: session\r\n".repeat(9);
    let long = |before: &[u8], unit: &[u8], after: &[u8]| {
        [b"Content-Type:", before, &unit.repeat(4_096 / unit.len()), after, b"\r\n"].concat()
    };
    let heads = [
        ("first", [right.clone(), others.clone()].concat()),
        ("last", [others.clone(), right.clone()].concat()),
        ("in the middle", [others.clone(), right.clone(), others.clone()].concat()),
        ("twice, far apart", [right.clone(), others.clone(), right.clone()].concat()),
        ("nowhere", others.clone()),
        ("behind blanks", long(b"", b" \t", b"application/sdp")),
        ("behind folds", long(b"", b"\r\n ", b"application/sdp")),
        ("before folds and a semicolon", long(b" application/sdp", b"\r\n\t", b";x")),
        ("before folds and a word", long(b" application/sdp", b"\r\n\t", b"x")),
        ("with a long parameter", long(b" application/sdp;", b"ab", b"")),
        ("with a long quoted parameter", long(b" application/sdp;\"", b"a,", b"\"")),
        ("with a long parameter and a comma", long(b" application/sdp;", b"ab", b",c")),
        ("before many semicolons", long(b" application/sdp", b";", b"")),
        ("before many commas", long(b" application/sdp", b",", b"")),
        ("of many letters", long(b" application/sdp", b"p", b"")),
    ];
    let mut cases = Vec::new();
    for (place, head) in heads {
        cases.extend(asked(&format!("5.5: Content-Type {place}"), &image, &head, BODY));
    }
    cases
}

/// What the request was made for: a presence document in a MESSAGE whose lines set off a trigger, in both forms, and its
/// like negated.
fn a_presence_document() -> Vec<Case> {
    let mut draft = Draft::new();
    let method = draft.text_row(1, b"MESSAGE", None);
    let line = draft.text_row(4, b"m", Some(b"x"));
    for (priority, form, turned) in [(10, CNF, false), (20, DNF, false), (30, CNF, true), (40, DNF, true)] {
        let group = u16::from(form == CNF);
        draft.add_row(method, &[0]);
        draft.add_row(if turned { negated(line) } else { line }, &[group]);
        draft.criterion(priority, form, 2);
    }
    let image = draft.bytes();
    let document: &[u8] =
        b"<?xml version=\"1.0\"?>\r\n<presence>\r\n<note>\r\nm=x\r\n</note>\r\n</presence>\r\n";
    let heads: [&[u8]; 7] = [
        b"Content-Type: application/pidf+xml\r\n",
        b"c: application/pidf+xml;charset=utf-8\r\n",
        b"",
        b"Content-Type: application/sdp\r\n",
        b"c: Application/SDP ; x=y\r\n",
        b"Content-Type: application/sdp\r\nc: application/sdp\r\n",
        b"Content-Type: application/pidf+xml, application/sdp\r\n",
    ];
    let mut cases = Vec::new();
    for head in heads {
        for method in ["MESSAGE", "NOTIFY"] {
            let request = [method.as_bytes(), b" sip:b SIP/2.0\r\n", head, b"\r\n", document].concat();
            for last in [0, 10, 20, 30] {
                cases.push(advance("5.4: a presence document", &image, &request, after(last)));
            }
        }
    }
    cases
}
