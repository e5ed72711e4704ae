//! Cases of the plain matcher: every written pattern, the limits of its texts, and random pairs, all of which end soon.

use super::build::{plain, show};
use super::random::Random;
use super::{lean, patterns};
use crate::case::Case;
use crate::pattern;
use crate::plain::turns;

/// No pair takes more turns than this; there are pairs that would not end in a lifetime.
pub const TURNS_MOST: u64 = 20_000;

/// Whether it is soon known that it fits, or is refused.
pub fn ends_soon(pattern: &[u8], text: &[u8]) -> bool {
    pattern::read(pattern).is_none_or(|pattern| turns(&pattern, text) <= TURNS_MOST)
}

/// Every written pattern on the texts made of its bytes.
pub fn of_patterns() -> Vec<Case> {
    let mut cases = Vec::new();
    for pattern in patterns::WRITTEN {
        let texts = match pattern::read(pattern) {
            Some(_) => patterns::probes(pattern),
            None => vec![b"".to_vec(), b"a".to_vec()],
        };
        for text in texts.iter().filter(|text| ends_soon(pattern, text)) {
            let label = format!("pattern {} on {}", pattern.escape_ascii(), text.escape_ascii());
            cases.push(plain(&label, pattern, text));
        }
    }
    cases
}

/// A pattern and a text that mostly suit each other. The text has neither CR nor LF, so that it can be a session line's value.
pub fn pair(random: &mut Random) -> (Vec<u8>, Vec<u8>) {
    loop {
        let (pattern, mut text) = any_pair(random);
        text.retain(|byte| !b"\r\n".contains(byte));
        if pattern.len() <= 1_024 && ends_soon(&pattern, &text) {
            return (pattern, text);
        }
    }
}

const LETTERS: &[u8] = b"ab-]^$*.\\[\x00\xFFJoE";

fn any_pair(random: &mut Random) -> (Vec<u8>, Vec<u8>) {
    let length = match random.below(64) {
        0 => *random.pick(&[255, 256, 256, 257, 300]),
        1..=4 => random.below(120),
        _ => random.below(14),
    };
    let few = random.chance(1, 2);
    let text: Vec<u8> = (0..length).map(|_| *random.pick(if few { b"aab" } else { LETTERS })).collect();
    match random.below(8) {
        0..=3 => {
            let pattern = lean::pattern(random, &text);
            let mut text = text;
            if random.chance(1, 3) {
                lean::damage(random, &mut text);
            }
            (pattern, text)
        }
        4 => (few_of(random, LETTERS, 7), text),
        _ => (of_elements(random), text),
    }
}

fn few_of(random: &mut Random, letters: &[u8], bound: usize) -> Vec<u8> {
    (0..random.below(bound)).map(|_| *random.pick(letters)).collect()
}

/// A few elements, so that several ways through the text compete, with anchors or not.
fn of_elements(random: &mut Random) -> Vec<u8> {
    const PARTS: &[&str] = &[
        "a", "b", "a*", "b*", ".", ".*", "[ab]*", "[^a]", "[^b]*", "[]a]", "[^]b]*", "[+--]", "[a-]*", "\\.",
        "\\*", "[a-z]",
    ];
    let mut pattern = Vec::new();
    if random.chance(1, 3) {
        pattern.push(b'^');
    }
    for _ in 0..random.between(1, 7) {
        pattern.extend(random.pick(PARTS).bytes());
    }
    if random.chance(1, 3) {
        pattern.push(b'$');
    }
    pattern
}

pub fn random(seed: u64, count: usize) -> Vec<Case> {
    // Not the stream of the other cases, so that they stay as they were.
    let mut random = Random::new(seed ^ 0x7A0_0000);
    (0..count)
        .map(|_| pair(&mut random))
        .map(|(pattern, text)| plain("random plain", &pattern, &text))
        .collect()
}

/// One pair asked of both matchers: the plain one, and the main one as `show` tells its place, of a session line with this value.
pub fn of_both(pattern: &[u8], text: &[u8]) -> [Case; 2] {
    let line = patterns::on_line("", pattern, text);
    [plain("", pattern, text), show("", &line.image, &line.request, 0)]
}
