//! The readings about the plain matcher: what it refuses, and the places that it answers.

use crate::case::Case;
use crate::maker::build::plain;
use crate::plain::TEXT_MOST;

pub fn cases() -> Vec<Case> {
    let mut cases = refusals();
    cases.extend(limits());
    cases.extend(long_patterns());
    cases.extend(places());
    cases
}

/// "5, then 17", also of the empty pattern.
fn refusals() -> Vec<Case> {
    let patterns: [&[u8]; 8] = [b"", b"a**", b"[a", b"[z-a]", b"\\", b"\\(", b"[[.]", b"a"];
    let mut cases = Vec::new();
    for pattern in patterns {
        for length in [0, 1, TEXT_MOST, TEXT_MOST + 1, 70_000] {
            let label = format!("7.1: {} on {length} bytes", pattern.escape_ascii());
            cases.push(plain(&label, pattern, &vec![b'a'; length]));
        }
    }
    cases
}

/// Texts of 0, 255, 256 and 257 bytes: found at their end, as a whole, and not at all.
fn limits() -> Vec<Case> {
    let patterns: [&[u8]; 9] = [b"$", b"^", b"a*", b"^a*$", b".*$", b"b", b"ba*", b"[^b]*", b"aa$"];
    let mut cases = Vec::new();
    for pattern in patterns {
        for length in [0, 255, 256, 257] {
            let label = format!("7.1: {} on {length} bytes", pattern.escape_ascii());
            cases.push(plain(&label, pattern, &vec![b'a'; length]));
            let label = format!("7.1: {} on {length} bytes, the last another", pattern.escape_ascii());
            let mut text = vec![b'a'; length];
            if let Some(last) = text.last_mut() {
                *last = b'b';
            }
            cases.push(plain(&label, pattern, &text));
        }
    }
    let full: Vec<u8> = (0..=255).collect();
    for pattern in [b"\\.".as_slice(), b"[\xFF]", b"\x00", b".", b".*", b"[^\x00]*$"] {
        cases.push(plain(&format!("7.1: {} on all bytes", pattern.escape_ascii()), pattern, &full));
    }
    cases
}

/// "The bound is the image's, not the pattern's": a pattern of more than 1,024 bytes, and one of sixty such elements.
fn long_patterns() -> Vec<Case> {
    let list = |length: usize| [b"[".as_slice(), &vec![b'a'; length - 2], b"]"].concat();
    let mut cases = Vec::new();
    for length in [1_023, 1_024, 1_025, 70_000] {
        for text in [b"".as_slice(), b"ba", b"bb"] {
            let label = format!("7.3: a list of {length} bytes on {}", text.escape_ascii());
            cases.push(plain(&label, &list(length), text));
        }
        let label = format!("7.3: a list of {length} bytes that is not closed");
        cases.push(plain(&label, &list(length)[..length - 1], b"a"));
    }
    for count in [60, 61] {
        let label = format!("7.3: {count} lists of 1,100 bytes");
        cases.push(plain(&label, &list(1_100).repeat(count), &[b'a'; 60]));
    }
    cases
}

/// "found, start, length as CR 2"; edition 1, and no form but the one written.
fn places() -> Vec<Case> {
    let pairs: [(&[u8], &[u8]); 16] = [
        (b"a*", b"baa"),
        (b"b*$", b"baa"),
        (b"$", b"ab"),
        (b"^", b"ab"),
        (b"aa*", b"baabaaa"),
        (b"a.*a", b"xabaay"),
        (b"a*ab", b"aaab"),
        (b"ab*", b"xabbbab"),
        (b"c", b"ab"),
        (b"^b", b"ab"),
        (b"joe", b"JOE joe"),
        (b"JOE", b"joe"),
        (b"a|b", b"b a|b"),
        (b"a|b", b"ab"),
        (b"(a)", b"a(a)"),
        (b"a{2}", b"aa{2}"),
    ];
    let label =
        |pattern: &[u8], text: &[u8]| format!("7.2: {} on {}", pattern.escape_ascii(), text.escape_ascii());
    pairs.iter().map(|(pattern, text)| plain(&label(pattern, text), pattern, text)).collect()
}
