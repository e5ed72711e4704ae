//! Every limit of document 01 from both sides.

use super::build;
use super::draft::{case_row, Draft, ABSENT, CNF, DNF};
use crate::case::Case;

pub fn cases() -> Vec<Case> {
    let mut cases = Vec::new();
    for (label, draft) in images() {
        let image = draft.bytes();
        let label = format!("limit: {label}");
        cases.push(build::check(&label, &image));
        cases.push(build::advance(&label, &image, build::INVITE, build::READY));
        cases.push(build::list(&label, &image, build::REGISTER, 0, 0, 64));
        let last = draft.criteria.len() as u32;
        for number in [last.wrapping_sub(1), last] {
            cases.push(build::server(&label, &image, number));
            cases.push(build::information(&label, &image, number));
        }
    }
    cases.extend(sizes());
    cases.extend(requests());
    cases.extend(heavy());
    cases
}

fn images() -> Vec<(String, Draft)> {
    let mut images = vec![("the empty profile".to_string(), empty_profile())];
    for count in [1_023, 1_024, 1_025] {
        images.push((format!("{count} strings"), strings(count)));
        images.push((format!("a string of {count} bytes"), long_string(count)));
    }
    for count in [2_047, 2_048, 2_049] {
        images.push((format!("{count} rows"), rows(count)));
    }
    for count in [16_383, 16_384, 16_385] {
        images.push((format!("{count} memberships counted"), memberships(count)));
    }
    for count in [63, 64, 65] {
        images.push((format!("{count} criteria"), criteria(count)));
    }
    for count in [31, 32, 33] {
        images.push((format!("{count} rows in a trigger"), trigger(count)));
    }
    for count in [7, 8, 9] {
        images.push((format!("{count} memberships of a row"), row_memberships(count)));
    }
    for count in [59, 60, 61] {
        for (shape, pattern) in shapes(count) {
            images.push((format!("{count} elements, {shape}"), pattern_image(&pattern)));
        }
    }
    images
}

fn empty_profile() -> Draft {
    Draft { strings: Vec::new(), ..Draft::new() }
}

fn strings(count: usize) -> Draft {
    let mut draft = Draft::new();
    draft.strings.resize(count - 1, Vec::new());
    draft.strings.push(b"sip:last".to_vec());
    draft.criterion(1, DNF, 0).server = count as u16 - 1;
    draft
}

fn long_string(length: usize) -> Draft {
    let mut draft = Draft::new();
    draft.strings.push(vec![b's'; length]);
    draft.criterion(1, DNF, 0).server = 1;
    draft.criteria[0].information = 1;
    draft
}

fn rows(count: usize) -> Draft {
    let mut draft = Draft::new();
    for number in 0..count {
        draft.add_row(case_row(0), &[number as u16]);
    }
    draft.criterion(1, DNF, 1);
    draft
}

/// So many do not fit into an image: the count is judged, then the image ends.
fn memberships(count: u16) -> Draft {
    let mut draft = rows(4);
    draft.counts[2] = Some(count);
    draft.memberships = (0..4).flat_map(|row| (0..2_000).map(move |group| (row, group))).collect();
    draft.cut = Some(draft.criterion_count_place());
    draft
}

fn criteria(count: usize) -> Draft {
    let mut draft = Draft::new();
    for number in 0..count {
        draft.criterion(1_000 - number as u32, DNF, 0);
    }
    draft
}

/// All rows fit but the last, which decides; one group.
fn trigger(count: usize) -> Draft {
    let mut draft = Draft::new();
    for number in 0..count {
        draft.add_row(case_row(if number + 1 == count { 1 } else { 0 }), &[0]);
    }
    draft.criterion(2, CNF, count);
    draft.criterion(1, DNF, count);
    draft
}

fn row_memberships(count: u16) -> Draft {
    let mut draft = Draft::new();
    draft.add_row(case_row(1), &[7]);
    let groups: Vec<u16> = (0..count).map(|number| number * 8_000).collect();
    draft.add_row(case_row(0), &groups);
    draft.criterion(1, CNF, 2);
    draft.criterion(2, DNF, 2);
    draft
}

/// Patterns of so many elements, in several shapes.
pub fn shapes(count: usize) -> Vec<(&'static str, Vec<u8>)> {
    let join = |part: &str, count: usize| part.repeat(count).into_bytes();
    let around =
        |before: &str, middle: Vec<u8>, after: &str| [before.as_bytes(), &middle, after.as_bytes()].concat();
    vec![
        ("plain", join("a", count)),
        ("repeating", join("a*", count)),
        ("anchored", around("^", join("a", count), "$")),
        ("anchored and repeating", around("^", join("a*", count), "$")),
        ("pairs", join("\\.", count)),
        ("dots", join(".", count)),
        ("lists", join("[a-z]", count)),
        ("ordinary star first", around("*", join("a", count - 1), "")),
        ("ordinary star after the anchor", around("^*", join("a", count - 1), "")),
    ]
}

/// The pattern in the four places a pattern can stand.
pub fn pattern_image(pattern: &[u8]) -> Draft {
    let mut draft = Draft::new();
    let name = draft.text_row(2, pattern, None);
    let content = draft.text_row(2, b"^X$", Some(pattern));
    let line = draft.text_row(4, pattern, None);
    let value = draft.text_row(4, b"x", Some(pattern));
    for (place, row) in [name, content, line, value].into_iter().enumerate() {
        draft.single(place as u32, row);
    }
    draft
}

/// Whole images of 32,767 to 32,769 bytes, and longer ones that are nothing else.
fn sizes() -> Vec<Case> {
    let mut cases = Vec::new();
    for size in [32_767, 32_768, 32_769, 40_000] {
        let mut draft = Draft::new();
        draft.criterion(1, DNF, 0);
        while size - draft.end() > 2 + 1_024 {
            draft.strings.push(vec![b'p'; 1_024]);
        }
        draft.strings.push(vec![b'q'; size - draft.end() - 2]);
        draft.criteria[0].server = draft.strings.len() as u16 - 1;
        let label = format!("limit: image of {size} bytes");
        let image = draft.bytes();
        cases.push(build::check(&label, &image));
        cases.push(build::advance(&label, &image, build::INVITE, build::READY));
        cases.push(build::list(&label, &image, build::REGISTER, 0, 0, 1));
        cases.push(build::server(&label, &image, 0));
        cases.push(build::information(&label, &image, 0));
        cases.push(build::check(&format!("limit: {size} zero bytes"), &vec![0; size]));
    }
    cases
}

fn padded(before: &[u8], pad: u8, after: &[u8], size: usize) -> Vec<u8> {
    let mut request = before.to_vec();
    request.resize(size - after.len(), pad);
    request.extend(after);
    request
}

/// The end of a request whose Content-Type is long.
const TYPED: &[u8] = b"application/sdp\r\n\r\na=c";

/// Requests about 65,535 bytes, long by head, by body, by one value, by many fields.
fn requests() -> Vec<Case> {
    let mut draft = Draft::new();
    let header = draft.text_row(2, b"X", Some(b"z$"));
    draft.single(1, header);
    let line = draft.text_row(4, b"a", Some(b"^b*c$"));
    draft.single(2, line);
    let image = draft.bytes();
    let mut cases = Vec::new();
    for size in [65_534, 65_535, 65_536, 70_000] {
        for start in ["INVITE", "REGISTER"] {
            let start = format!("{start} sip:b SIP/2.0\r\n");
            let long = [
                ("value", padded(format!("{start}X: ").as_bytes(), b'y', b"z\r\n\r\n", size)),
                ("URI", padded(&start.as_bytes()[..8], b'u', b" SIP/2.0\r\n\r\n", size)),
                ("body", padded(format!("{start}c: application/sdp\r\n\r\na=").as_bytes(), b'b', b"c", size)),
                ("other body", padded(format!("{start}\r\na=").as_bytes(), b'b', b"c", size)),
                ("Content-Type", padded(format!("{start}c:").as_bytes(), b' ', TYPED, size)),
                ("blanks", padded(format!("{start}X:").as_bytes(), b' ', b"z\r\n\r\n", size)),
                ("commas", padded(format!("{start}X:").as_bytes(), b',', b"\r\n\r\n", size)),
                ("no end of head", padded(format!("{start}X:").as_bytes(), b'v', b"", size)),
            ];
            for (what, request) in long {
                let label = format!("limit: request of {size} bytes by its {what}");
                cases.push(build::advance(&label, &image, &request, build::READY));
                cases.push(build::list(&label, &image, &request, 0, 0, 3));
            }
        }
    }
    cases
}

/// The most work: 60 repeating elements on the longest texts, and the most trials.
fn heavy() -> Vec<Case> {
    let pattern = [b"^".to_vec(), b"a*".repeat(60), b"$".to_vec()].concat();
    let mut draft = Draft::new();
    let header = draft.text_row(2, b"X", Some(&pattern));
    draft.single(1, header);
    let line = draft.text_row(4, b"a", Some(&b"[^b]*".repeat(60)));
    draft.single(2, line);
    let value = padded(b"INVITE sip:b SIP/2.0\r\nX: ", b'a', b"b\r\n\r\n", 65_535);
    let body = padded(b"INVITE sip:b SIP/2.0\r\nc: application/sdp\r\n\r\na=", b'a', b"", 65_535);
    let image = draft.bytes();
    vec![
        build::advance("limit: 60 repeating elements on a long value", &image, &value, build::READY),
        build::advance("limit: 60 repeating elements on a long line", &image, &body, build::READY),
        most_trials(),
    ]
}

/// 64 criteria of 32 rows on a request of very many values.
fn most_trials() -> Case {
    let mut draft = Draft::new();
    let row = draft.text_row(2, b"X", Some(b"^b"));
    for _ in 0..32 {
        draft.add_row(row, &[0]);
    }
    for number in 0..64 {
        draft.criterion(number, DNF, 32).information = ABSENT;
    }
    let request = padded(b"INVITE sip:b SIP/2.0\r\nX:", b',', b"\r\n\r\n", 3_000);
    build::advance("limit: many trials", &draft.bytes(), &request, build::READY)
}
