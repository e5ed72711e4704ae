//! Random requests, and images that lean on a request so that their rows often fit.

use super::draft::{case_row, Draft, RowDraft, ABSENT, CNF, DNF};
use super::random::Random;
use super::types;
use crate::request::{self, Request};

const METHODS: &[&str] = &["INVITE", "MESSAGE", "SUBSCRIBE", "BYE", "invite", "X-a.1", "register", "OPTIONS"];
const NAMES: &[&str] = &[
    "From",
    "To",
    "FROM",
    "X-From-Id",
    "Contact",
    "Date",
    "SUBJECT",
    "subject",
    "Authorization",
    "proxy-authenticate",
    "WWW-Authenticate",
    "Via",
    "a`b",
    "Accept",
    "Call-ID",
    "Content-Type",
    "Supported",
];
/// Mostly names that become long ones; some that only look so.
const SHORT_NAMES: &[&str] = &[
    "i", "m", "e", "l", "c", "f", "s", "k", "t", "v", "f", "s", "I", "M", "E", "L", "C", "F", "S", "K", "T",
    "V", "o", "u", "r", "x", "j", "ff", "s-", "-t",
];
/// Header patterns that a short name met before it became a long one.
const SHORT_PATTERNS: &[&str] = &["^.$", "^f$", "^s$", "^[a-z]$", "^[imeclfsktv]$", "^[^f]$"];
const PIECES: &[&[u8]] = &[
    b"joe",
    b"ann",
    b"\"joe, ann\" <sip:joe>",
    b"<sip:a,b>",
    b"",
    b"a b",
    b"a\tb",
    b"\"a\\\",b\"",
    b"\xC3\xA4",
    b"x>y",
    b"<a",
    b"\"q",
    b"a\\,b",
    b"(c,d)",
    b"1*2",
    b"[z]",
    b"^",
    b"$5",
    b"sip:joe@home;tag=1",
    b"a  b",
    b"-",
    b"JOE",
];
const LINES: &[&[u8]] = &[
    b"v=0\r\n",
    b"m=audio 49170 RTP/AVP 0\r\n",
    b"a=sendrecv\n",
    b"a=\r\n",
    b"==x\n",
    b"no field\r\n",
    b"a=b\r\r\n",
    b"x=\x00\xFE\r\n",
    b"M=video\r\n",
    b"s= \r\n",
    b"\r\n",
    b"c=IN IP4 1.2.3.4\r\n",
];

pub fn method(random: &mut Random) -> Vec<u8> {
    random.pick(METHODS).as_bytes().to_vec()
}

/// A readable request with folds, tabs, quoted commas and a body, which is mostly a session description.
pub fn request(random: &mut Random, method: &[u8]) -> Vec<u8> {
    let uri = *random.pick(&[b"sip:b".as_slice(), b"tel:+1", b"sip:B", b"\"<>"]);
    let body = body(random);
    let described = !body.is_empty() && random.chance(3, 4);
    let mut fields: Vec<Vec<u8>> = (0..random.below(6)).map(|_| field(random, described)).collect();
    let kinds = match described {
        true => vec![types::right(random)],
        false if body.is_empty() && random.chance(2, 3) => Vec::new(),
        false => types::other(random),
    };
    for kind in kinds {
        let place = random.below(fields.len() + 1);
        fields.insert(place, kind);
    }
    [method, b" ", uri, b" SIP/2.0\r\n", &fields.concat(), b"\r\n", &body].concat()
}

fn body(random: &mut Random) -> Vec<u8> {
    let mut out = Vec::new();
    for _ in 0..random.below(5) {
        out.extend(*random.pick(LINES));
    }
    if random.chance(1, 5) {
        out.extend(*random.pick(&[b"a=z".as_slice(), b"a=z\r", b"a=", b"="]));
    }
    out
}

/// Of any name; where the body is described, none but one of Content-Type.
fn field(random: &mut Random, described: bool) -> Vec<u8> {
    let names = if random.chance(1, 3) { SHORT_NAMES } else { NAMES };
    let mut name = *random.pick(names);
    while described && ["Content-Type", "c", "C"].contains(&name) {
        name = *random.pick(names);
    }
    let mut out = name.as_bytes().to_vec();
    out.extend(random.pick(&["", "", "", " ", "\t "]).bytes());
    out.push(b':');
    for place in 0..random.below(4) {
        if place > 0 {
            out.push(b',');
        }
        out.extend(random.pick(&["", " ", "\t", "\r\n ", "\r\n\t \r\n ", "  "]).bytes());
        out.extend(*random.pick(PIECES));
        out.extend(random.pick(&["", "", " ", "\r\n\t"]).bytes());
    }
    out.extend(b"\r\n");
    out
}

/// A pattern that fits some part of the text, more often than not.
pub fn pattern(random: &mut Random, text: &[u8]) -> Vec<u8> {
    let start = random.below(text.len() + 1);
    let length = random.below((text.len() - start).min(8) + 1);
    let mut out = Vec::new();
    let start = if random.chance(1, 3) { 0 } else { start };
    let length = length.min(text.len() - start);
    if start == 0 && random.chance(1, 2) {
        out.push(b'^');
    }
    for &byte in &text[start..start + length] {
        element(random, byte, &mut out);
    }
    if start + length == text.len() && random.chance(1, 2) {
        out.push(b'$');
    }
    if out.is_empty() {
        out.extend(random.pick(&[".*", "^", "a*", "$", "[^q]*"]).bytes());
    }
    if random.chance(1, 60) {
        damage(random, &mut out);
    }
    out
}

fn element(random: &mut Random, byte: u8, out: &mut Vec<u8>) {
    match random.below(9) {
        0 => out.push(b'.'),
        1 => out.extend([b'[', byte, b']']),
        2 => out.extend([b'[', byte.saturating_sub(1), b'-', byte.saturating_add(1), b']']),
        3 => out.extend(b"[^~]"),
        4 => out.extend(b"q*."),
        5 => out.extend(b".*"),
        _ => {
            if b".[\\*^$".contains(&byte) {
                out.push(b'\\');
            }
            out.push(byte);
            if random.chance(1, 6) {
                out.push(b'*');
            }
        }
    }
}

/// One to three small changes of the bytes.
pub fn damage(random: &mut Random, bytes: &mut Vec<u8>) {
    for _ in 0..random.between(1, 3) {
        let place = random.below(bytes.len() + 1);
        let byte = match random.below(3) {
            0 => random.byte(),
            1 => *random.pick(b"*[]^$\\-.,\"<>:= \t\r\n\x00\x01\x02\xFF"),
            _ => bytes.get(place).map_or(0, |byte| byte.wrapping_add(1)),
        };
        match random.below(5) {
            0 => bytes.insert(place, byte),
            1 if place < bytes.len() => {
                bytes.remove(place);
            }
            2 if random.chance(1, 3) => bytes.truncate(place),
            _ if place < bytes.len() => bytes[place] = byte,
            _ => bytes.push(byte),
        }
    }
}

fn row(random: &mut Random, draft: &mut Draft, request: &Request, case: u32) -> RowDraft {
    let mut row = match random.below(10) {
        0 => case_row(if random.chance(2, 3) { case as u16 % 4 } else { random.below(4) as u16 }),
        1 | 2 if random.chance(2, 3) => draft.text_row(1, &request.method, None),
        1 | 2 => draft.text_row(1, random.pick(METHODS).as_bytes(), None),
        3 if random.chance(2, 3) => draft.text_row(0, &request.uri, None),
        3 => draft.text_row(0, b"sip:other", None),
        4 | 5 => line_row(random, draft, request),
        _ => header_row(random, draft, request),
    };
    row.negated = random.chance(1, 5) as u8;
    row.set = if random.chance(1, 4) { random.below(7) as u8 } else { 0 };
    row
}

fn header_row(random: &mut Random, draft: &mut Draft, request: &Request) -> RowDraft {
    if request.fields.is_empty() {
        return draft.text_row(2, b"From", Some(b"joe"));
    }
    let field = random.pick(&request.fields);
    let mut name = field.name.clone();
    if random.chance(1, 3) {
        name.make_ascii_uppercase();
    }
    let name = match random.chance(1, 12) {
        true => random.pick(SHORT_PATTERNS).as_bytes().to_vec(),
        false => pattern(random, &name),
    };
    let content = random.chance(2, 3).then(|| {
        let value = random.pick(&field.values).clone();
        pattern(random, &value)
    });
    draft.text_row(2, &name, content.as_deref())
}

fn line_row(random: &mut Random, draft: &mut Draft, request: &Request) -> RowDraft {
    if request.body_lines.is_empty() {
        return draft.text_row(4, b"v", None);
    }
    let line = random.pick(&request.body_lines);
    let kind = pattern(random, &[line.kind]);
    let content = random.chance(2, 3).then(|| pattern(random, &line.value));
    draft.text_row(4, &kind, content.as_deref())
}

fn priority(random: &mut Random) -> u32 {
    match random.below(8) {
        0 => random.draw() as u32,
        1 => *random.pick(&[0, 1, 0x7FFF_FFFF, 0x8000_0000, u32::MAX - 1, u32::MAX]),
        _ => random.below(200) as u32,
    }
}

fn groups(random: &mut Random) -> Vec<u16> {
    let count = if random.chance(1, 40) { 8 } else { random.between(1, 3) };
    let mut groups: Vec<u16> = (0..count)
        .map(|_| if random.chance(1, 30) { random.draw() as u16 } else { random.below(4) as u16 })
        .collect();
    groups.sort_unstable();
    groups.dedup();
    groups
}

/// A whole image for this request; now and then one of its patterns is refused.
pub fn image(random: &mut Random, request: &[u8], case: u32) -> Draft {
    let request = request::read(request).unwrap_or(Request {
        method: b"INVITE".to_vec(),
        uri: b"sip:b".to_vec(),
        fields: Vec::new(),
        body_lines: Vec::new(),
        described: false,
    });
    let mut draft = Draft::new();
    draft.strings.extend([Vec::new(), b"information".to_vec(), b"sip:c".to_vec()]);
    let criteria = if random.chance(1, 50) { random.between(20, 64) } else { random.below(7) };
    for _ in 0..criteria {
        criterion(random, &mut draft, &request, case);
    }
    if random.chance(1, 4) {
        draft.string(b"[unused");
    }
    draft
}

fn criterion(random: &mut Random, draft: &mut Draft, request: &Request, case: u32) {
    let priority = priority(random);
    if draft.criteria.iter().any(|criterion| criterion.priority == priority) && !random.chance(1, 50) {
        return;
    }
    let most = if random.chance(1, 60) { 32 } else { 4 };
    let mut rows = if random.chance(1, 6) { 0 } else { random.between(1, most) };
    let shared = draft.rows.len() >= rows && random.chance(1, 6);
    if !shared && draft.strings.len() < 900 {
        for _ in 0..rows {
            let row = row(random, draft, request, case);
            let groups = groups(random);
            draft.add_row(row, &groups);
        }
    }
    rows = rows.min(draft.rows.len());
    let form = if random.chance(1, 2) { DNF } else { CNF };
    let fitting_part = if case < 2 { 0 } else { 1 };
    let part = *random.pick(&[2, 2, 2, fitting_part, fitting_part, 1 - fitting_part]);
    let server = *random.pick(&[0, 3]);
    let handling = random.below(3) as u8;
    let information = *random.pick(&[ABSENT, ABSENT, 1, 2]);
    let criterion = draft.criterion(priority, form, rows);
    *criterion = super::draft::CriterionDraft { part, server, handling, information, ..*criterion };
}
