//! Each reading marked H, each wrong way document 01 lists, and its worked trigger, with
//! cases of their own.

mod descriptions;
mod fitting;
mod image;
mod names;
mod plain;
mod shown;

use super::boundaries::{pattern_image, shapes};
use super::build::{self, advance, after, check, list, INVITE, READY, REGISTER};
use super::draft::{case_row, negated, Draft, CNF, DNF};
use super::patterns::on_line;
use crate::case::Case;
use crate::session::Session;

pub fn cases() -> Vec<Case> {
    let mut cases = pattern_points();
    cases.extend(image::cases());
    cases.extend(request_points());
    cases.extend(names::cases());
    cases.extend(descriptions::cases());
    cases.extend(fitting::cases());
    cases.extend(session_points());
    cases.extend(listing_points());
    cases.extend(wrong_ways());
    cases.extend(worked_trigger());
    cases.extend(shown::cases());
    cases.extend(plain::cases());
    cases
}

fn pattern_points() -> Vec<Case> {
    let points: [(&str, &[&[u8]]); 4] = [
        ("P1", &[b"^", b"$", b"^$"]),
        ("P6", &[b"[a-c-e]", b"[a-c--]", b"[a-c--e]", b"[%---/]", b"[----a]", b"[---a]", b"[a-c-]"]),
        ("P7", &[b"[%--]", b"[+--]", b"[a--]", b"[--]", b"[---]", b"[%---]"]),
        ("P9", &[b"[[.]", b"[A-[.]", b"[.]", b"[=]", b"[:a:]", b"[^.]", b"[[:]", b"[[=]"]),
    ];
    let mut cases = Vec::new();
    for (point, patterns) in points {
        for pattern in patterns {
            let label = format!("{point}: pattern {}", pattern.escape_ascii());
            cases.push(check(&label, &pattern_image(pattern).bytes()));
            for text in [b"".as_slice(), b"-", b"&", b"a", b"b", b"e", b"[", b"."] {
                cases.push(on_line(&label, pattern, text));
            }
        }
    }
    for count in [60, 61] {
        for (shape, pattern) in shapes(count) {
            cases.push(check(&format!("P3: {count} elements, {shape}"), &pattern_image(&pattern).bytes()));
        }
    }
    cases
}

fn request_points() -> Vec<Case> {
    let mut draft = Draft::new();
    let with_cr = draft.text_row(4, b"a", Some(b"b\r$"));
    draft.single(1, with_cr);
    let without = draft.text_row(4, b"a", Some(b"b$"));
    draft.single(2, without);
    let image = draft.bytes();
    let invite = |body: &[u8]| [b"INVITE sip:b SIP/2.0\r\nc: application/sdp\r\n\r\n", body].concat();
    let long = |size: usize| {
        let mut request = invite(b"a=b\n");
        request.resize(size, b'y');
        request
    };
    vec![
        advance("R1: 65,535 bytes by the body", &image, &long(65_535), READY),
        advance("R1: 65,536 bytes by the body", &image, &long(65_536), READY),
        advance("R13: last line ends in CR", &image, &invite(b"a=b\r"), READY),
        advance("R13: last line ends in CR LF", &image, &invite(b"a=b\r\n"), READY),
        advance("R14: CR CR LF", &image, &invite(b"a=b\r\r\n"), READY),
        advance("R14: lone CR in a line", &image, &invite(b"x=y\ra=b\n"), READY),
        advance("R13: CR alone after the last LF", &image, &invite(b"a=b\n\r"), READY),
    ]
}

fn session_points() -> Vec<Case> {
    let mut draft = Draft::new();
    draft.criterion(0, DNF, 0).handling = 2;
    draft.criterion(u32::MAX, DNF, 0).handling = 1;
    draft.criterion(0x8000_0000, DNF, 0).handling = 0;
    let image = draft.bytes();
    let empty = Draft::new().bytes();
    let terminated = Session { handling: 1, ..after(5) };
    let record = |case, handling| Session { case, handling, ..after(5) };
    let mut cases = vec![
        advance("S2: a route after forwarding", &empty, INVITE, terminated),
        advance("S2: a route with nothing forwarded", &empty, INVITE, READY),
        advance("S3: default 2 is forwarded", &image, INVITE, READY),
        advance("S3: a record with default 2", &image, INVITE, record(0, 2)),
        advance("S5: a record of case 4", &image, INVITE, record(4, 0)),
        advance("S5: a record of case 4, no image", b"", b"", record(4, 0)),
        build::report("S5: a report on case 4", Session { state: 1, ..record(4, 0) }, 0),
        build::report("S3: a report on default 2", Session { state: 1, ..record(0, 2) }, 1),
        build::report("S7: report 3 when not waiting", record(0, 0), 3),
    ];
    for last in [0, 1, 0x7FFF_FFFF, 0x8000_0000, u32::MAX - 1, u32::MAX] {
        cases.push(advance("S9: the last priority", &image, INVITE, after(last)));
    }
    for case in [0, 1, 2, 3, 4, 5, 256, u32::MAX] {
        cases.push(build::open("S12: opening", case));
    }
    cases
}

fn listing_points() -> Vec<Case> {
    let mut draft = Draft::new();
    draft.strings.extend([Vec::new(), b"info".to_vec(), b"\x00\xFF ".to_vec()]);
    for (place, information) in [1, 65_535, 2, 3, 0].into_iter().enumerate() {
        let criterion = draft.criterion(90 - place as u32, DNF, 0);
        criterion.information = information;
        criterion.server = if place == 3 { 3 } else { 0 };
    }
    let image = draft.bytes();
    let mut cases = Vec::new();
    for number in [0, 1, 2, 3, 4, 5, 64, 255, 256, 258, 65_536, u32::MAX] {
        cases.push(build::information("L5: information", &image, number));
        cases.push(build::server("L4: server", &image, number));
    }
    for places in [0, 1, 4, 5, 6, 64, 65, 300] {
        cases.push(list("L1: places", &image, REGISTER, 0, 0, places));
        cases.push(list("L1: places, none fitting", &Draft::new().bytes(), REGISTER, 0, 0, places));
    }
    cases
}

/// The list "ways it is commonly got wrong".
fn wrong_ways() -> Vec<Case> {
    let mut draft = Draft::new();
    let from_joe = draft.text_row(2, b"From", Some(b"joe"));
    draft.single(30, negated(from_joe));
    draft.single(20, from_joe);
    draft.add_row(negated(from_joe), &[0]);
    draft.add_row(case_row(2), &[0]);
    draft.criterion(10, CNF, 2);
    let image = draft.bytes();
    let heads: [&[u8]; 9] = [
        b"From: joe\r\nFrom: ann\r\n",
        b"f: joe\r\nFrom: ann\r\n",
        b"f: ann\r\nt: joe\r\n",
        b"From: ann\r\nFrom: bob\r\n",
        b"From: joe, ann\r\n",
        b"From: ann\r\nTo: joe\r\n",
        b"X-From-Id: joe\r\n",
        b"To: joe\r\n",
        b"",
    ];
    let mut cases = Vec::new();
    for head in heads {
        for method in ["INVITE", "REGISTER"] {
            let request = [method.as_bytes(), b" sip:b SIP/2.0\r\n", head, b"\r\n"].concat();
            cases.push(advance("commonly got wrong", &image, &request, READY));
            cases.push(advance("commonly got wrong", &image, &request, after(10)));
            cases.push(list("commonly got wrong", &image, &request, 0, 0, 3));
        }
    }
    cases
}

/// The trigger of 000 in both its forms.
pub fn trigger_of_000(form: u8) -> Vec<u8> {
    let mut draft = Draft::new();
    let invite = draft.text_row(1, b"INVITE", None);
    let message = draft.text_row(1, b"MESSAGE", None);
    let subscribe = draft.text_row(1, b"SUBSCRIBE", None);
    let from = draft.text_row(2, b"From", Some(b"joe"));
    let groups: [&[u16]; 4] = match form {
        DNF => [&[0], &[1], &[2], &[2]],
        _ => [&[0, 1], &[0, 1], &[0], &[1]],
    };
    for (row, groups) in [invite, message, subscribe, negated(from)].into_iter().zip(groups) {
        draft.add_row(row, groups);
    }
    draft.criterion(0, form, 4);
    draft.bytes()
}

fn worked_trigger() -> Vec<Case> {
    let mut cases = Vec::new();
    for form in [DNF, CNF] {
        let image = trigger_of_000(form);
        for method in ["INVITE", "MESSAGE", "SUBSCRIBE", "BYE"] {
            for field in [
                "From: joe\r\n",
                "f: joe\r\n",
                "From: \"joe\" <sip:j>\r\n",
                "From: ann\r\n",
                "F: ann\r\n",
                "",
            ] {
                let request = format!("{method} sip:b SIP/2.0\r\n{field}\r\n");
                cases.push(advance("the trigger of 000", &image, request.as_bytes(), READY));
            }
        }
    }
    cases
}
