//! The matcher against the C library's basic regular expressions, "C" locale.
//!
//! Compared are the patterns document 01 accepts; the C library must accept each of them and
//! agree on every text, and on the place where it matches. Left out:
//! - byte 0 in a pattern or text: the C library ends strings there;
//! - what document 01 refuses and the C library may accept: the empty pattern, `\(` `\)` `\{`
//!   `\}` `\1` and every other pair but six, `[.` `[=` `[:` in a list, `a**`, `[a-c-e]`, more
//!   than 60 elements;
//! - matching on names: `REG_ICASE` folds before negation (reading P14).
//!
//! No form that document 01 accepts is left out but for byte 0: on all others the two agree.

#[path = "common/c_library.rs"]
mod c_library;

use c_library::{Regex, BASIC};
use second::maker::random::Random;
use second::matching::{matches, Letters};
use second::pattern;
use second::place::place;

const PATTERN_BYTES: &[u8] = b"aab--]]^$**..\\[[cz%/+\x80\xFF\n";
const TEXT_BYTES: &[u8] = b"aaabbc-]^$*.\\[%/+z\x80\xFF\n,";

fn text(random: &mut Random, letters: &[u8], most: usize) -> Vec<u8> {
    (0..random.below(most + 1)).map(|_| *random.pick(letters)).collect()
}

/// Lists get their own share: random bytes seldom close one.
fn pattern_text(random: &mut Random) -> Vec<u8> {
    let mut out = Vec::new();
    if random.chance(1, 4) {
        out.push(b'^');
    }
    for _ in 0..random.between(1, 5) {
        match random.below(6) {
            0 | 1 => {
                out.push(b'[');
                if random.chance(1, 3) {
                    out.push(b'^');
                }
                out.extend(text(random, b"abc--]^$*.\\[%/+\x80\xFF", 5));
                out.push(b']');
            }
            2 => out.extend(text(random, PATTERN_BYTES, 3)),
            3 => out.extend([b'\\', *random.pick(b".[\\*^$")]),
            _ => out.push(*random.pick(b"abc.$^")),
        }
        if random.chance(1, 3) {
            out.push(b'*');
        }
    }
    if random.chance(1, 4) {
        out.push(b'$');
    }
    out
}

#[test]
fn agrees_with_the_c_library() {
    let mut random = Random::new(0x5EC0_0D00);
    let (mut compared, mut matched, mut lists) = (0, 0, 0);
    while compared < 60_000 {
        let pattern = pattern_text(&mut random);
        let Some(read) = pattern::read(&pattern) else { continue };
        let shown = pattern.escape_ascii();
        let regex = Regex::new(&pattern, BASIC).unwrap_or_else(|| panic!("only ours accepts {shown}"));
        lists += pattern.contains(&b'[') as usize;
        for _ in 0..6 {
            let text = text(&mut random, TEXT_BYTES, 7);
            let ours = matches(&read, &text, Letters::AsWritten);
            assert_eq!(ours, regex.matches(&text), "{shown} on {}", text.escape_ascii());
            assert_eq!(place(&read, &text), regex.place(&text), "{shown} on {}", text.escape_ascii());
            compared += 1;
            matched += ours as usize;
        }
    }
    assert!(matched > compared / 10 && matched < compared * 9 / 10, "{matched} of {compared} match");
    assert!(lists > 3_000, "{lists} patterns with a list");
}

/// Every byte against single lists, so that each range is held end by end.
#[test]
fn lists_hold_the_same_bytes() {
    let mut random = Random::new(7);
    let mut lists = 0;
    while lists < 1_500 {
        let mut pattern = b"^[".to_vec();
        if random.chance(1, 3) {
            pattern.push(b'^');
        }
        pattern.extend(text(&mut random, b"ab-c-]^\\[%/+\x80\xFE", 6));
        pattern.extend(b"]$");
        let Some(read) = pattern::read(&pattern) else { continue };
        let shown = pattern.escape_ascii();
        let regex = Regex::new(&pattern, BASIC).unwrap_or_else(|| panic!("only ours accepts {shown}"));
        for byte in 1..=255u8 {
            assert_eq!(
                matches(&read, &[byte], Letters::AsWritten),
                regex.matches(&[byte]),
                "{shown} on {byte}"
            );
        }
        lists += 1;
    }
}

/// What both refuse: unclosed lists, falling ranges, a final `\`.
#[test]
fn refused_by_both() {
    for pattern in [
        b"[a".as_slice(),
        b"[]",
        b"[^]",
        b"[^",
        b"[",
        b"[z-a]",
        b"[a--]",
        b"[]--]",
        b"a\\",
        b"[a-\\]",
        b"[b-a",
    ] {
        assert!(pattern::read(pattern).is_none(), "{}", pattern.escape_ascii());
        assert!(Regex::new(pattern, BASIC).is_none(), "{}", pattern.escape_ascii());
    }
}
