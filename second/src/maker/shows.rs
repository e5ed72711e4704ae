//! Random cases of show: several rows of each image; and the place of every written pattern.

use super::build::show;
use super::draft::{Draft, RowDraft};
use super::random::Random;
use super::requests::exactly;
use super::{lean, patterns};
use crate::case::{Call, Case};

/// Every written pattern on the texts made of its bytes.
pub fn of_patterns() -> Vec<Case> {
    patterns::cases().iter().filter(|case| case.call == Call::Advance).map(|case| shown(case, 0)).collect()
}

fn shown(case: &Case, row: u32) -> Case {
    show(&case.label, &case.image, &case.request, row)
}

pub fn random(seed: u64, count: usize) -> Vec<Case> {
    // Not the stream of the other cases, so that they stay as they were.
    let mut random = Random::new(seed ^ 0x5A0_0000);
    let mut cases = Vec::new();
    while cases.len() < count {
        match random.below(8) {
            0 => cases.extend(super::leaning_pattern(&mut random).iter().map(|case| shown(case, 0))),
            1 => cases.extend(super::long_pattern(&mut random).iter().map(|case| shown(case, 0))),
            2 => cases.extend(damaged(&mut random)),
            3 | 4 => cases.extend(pieces(&mut random)),
            _ => cases.extend(rows(&mut random)),
        }
    }
    cases.truncate(count);
    cases
}

fn drawn(random: &mut Random) -> (Draft, Vec<u8>) {
    let method = if random.chance(1, 5) { b"REGISTER".to_vec() } else { lean::method(random) };
    let request = lean::request(random, &method);
    (lean::image(random, &request, 0), request)
}

/// Up to twelve rows of an image, and one number beyond them.
fn rows(random: &mut Random) -> Vec<Case> {
    let (draft, request) = drawn(random);
    let image = draft.bytes();
    let count = draft.rows.len();
    let mut rows: Vec<usize> = (0..count.min(12)).map(|row| row * count / count.min(12)).collect();
    rows.push(count + random.below(3));
    rows.into_iter().map(|row| show("random show", &image, &request, row as u32)).collect()
}

/// Fields of several pieces, and rows that ask for one of them.
fn pieces(random: &mut Random) -> Vec<Case> {
    const PIECES: &[&str] = &["joe", "ann", "", "bob", "a b", "\"x, joe\"", "<bob,ann>", "joe  joe", "b\\,o"];
    let mut request = b"INVITE sip:b SIP/2.0\r\n".to_vec();
    for _ in 0..random.between(1, 4) {
        let pieces: Vec<&str> = (0..random.between(1, 7)).map(|_| *random.pick(PIECES)).collect();
        let name = random.pick(&["X", "x", "f", "From", "s", "Via"]);
        let comma = *random.pick(&[",", " , ", ",\r\n "]);
        request.extend(format!("{name}: {}\r\n", pieces.join(comma)).bytes());
    }
    request.extend(b"\r\n");
    let mut draft = Draft::new();
    for _ in 0..5 {
        let name = random.pick(&["^X$", "^From$", "[xf]", "."]).as_bytes();
        let text = random.pick(PIECES).as_bytes();
        let text = &text[random.below(text.len() + 1)..];
        let content = match random.chance(1, 3) {
            true => exactly(text),
            false => lean::pattern(random, text),
        };
        let row = draft.text_row(2, name, Some(&content));
        draft.add_row(RowDraft { negated: random.below(2) as u8, ..row }, &[0]);
    }
    let image = draft.bytes();
    (0..5).map(|row| show("random pieces", &image, &request, row)).collect()
}

fn damaged(random: &mut Random) -> Vec<Case> {
    let (draft, mut request) = drawn(random);
    let mut image = draft.bytes();
    match random.chance(2, 3) {
        true => lean::damage(random, &mut request),
        false => lean::damage(random, &mut image),
    }
    let row = random.below(draft.rows.len() + 1) as u32;
    vec![show("damaged show", &image, &request, row)]
}
