//! Patterns written for each sentence about them, each tried on bytes near its own.

use super::boundaries::pattern_image;
use super::build;
use super::draft::Draft;
use crate::case::Case;

/// Every form document 01 and the readings speak of, accepted and refused.
#[rustfmt::skip]
pub const WRITTEN: &[&[u8]] = &[
    // Anchors by place (P1, P2).
    b"", b"^", b"$", b"^$", b"$$", b"^^", b"^^$", b"$^", b"\\$", b"a\\$", b"\\$$", b"a$b", b"x$y",
    b"a^b", b"^Jo", b"Jo", b"Jo$", b"^Jo$", b"joe", b"^joe", b"joe$", b"From", b"x", b"^X", b"X$",
    // Stars (P12).
    b"*a", b"^*a", b"**", b"^**", b"***", b"^***", b"a*", b"a**", b"a***", b"\\***", b"\\**", b"$*",
    b"^$*", b"a$*", b"a^*", b"^^*", b".*", b".**", b"[a]*", b"[a]**", b"*", b"^*", b"^*$", b"*$",
    b"a*b*c*", b"^a*b*$", b"^a*$", b"^[ab]*c$",
    // Lists, closed and not, and their ranges (P4, P5, P8).
    b"[]a]", b"[^]a]", b"[]", b"[^]", b"[", b"[^", b"[a", b"[a-", b"[a-z", b"[$", b"[$]", b"^[$]$",
    b"[z-a]", b"[a-a]", b"^[a-a]$", b"[a-cc-e]", b"[a-cb-e]", b"[]-a]", b"[]-]]", b"[]--]", b"[^]-a]",
    b"[]]", b"[^]]", b"[]-]", b"[a]]", b"[a-]]",
    // Dashes in lists (P6, P7).
    b"[a-c-e]", b"[a-c--]", b"[a-c--e]", b"[%----/]", b"[-----a]", b"[a-c-]", b"[%---/]", b"[----a]",
    b"[---a]", b"[%--]", b"[+--]", b"[a--]", b"[--]", b"[---]", b"[%---]", b"[--a]", b"[^--a]",
    b"[^--]", b"[^---]", b"[-]", b"[^-]", b"[-a]", b"[^-a]", b"[a-]", b"[-a-c]", b"[a-c-e-g]",
    b"[--/-]", b"[--/-9]", b"[!--.]", b"[!---]", b"[a-c%--]",
    // What POSIX names in lists (P9).
    b"[.]", b"[=]", b"[:]", b"[:a:]", b"[^.]", b"[^:]", b"[[.]", b"[[=]", b"[[:]", b"[a[.]", b"[[.a.]]",
    b"[[=a=]]", b"[[:alpha:]]", b"[^[:]", b"[A-[.]", b"[A-[]", b"[A-[a]", b"[[-a]", b"[[]", b"[[a]",
    b"[a[]", b"[[[]", b"[[[.]", b"[[^.]", b"[a[b.]",
    // Other bytes in lists (P10, P11), and forms on names (P14).
    b"[\\]", b"[\\]]", b"[\\-a]", b"[A-\\]", b"[a-\\]", b"[\\n]", b"[\\.]", b"[*]", b"[a*]", b"[^^]",
    b"[a^]", b"[.$*]", b"[^a]", b"[^f]", b"[^Ff]", b"[^a-z]", b"[a-z]", b"[A-Z]", b"f", b"F", b"[@-Z]",
    b"`", b"@", b"~", b"\x5E",
    // Pairs (P15).
    b"\\.", b"\\[", b"\\\\", b"\\*", b"\\^", b"\\$x", b"^\\*", b"\\]", b"\\/", b"\\-", b"\\n", b"\\(",
    b"\\)", b"\\{", b"\\}", b"\\(a\\)", b"a\\{2\\}", b"\\1", b"\\9", b"\\0", b"\\+", b"\\?", b"\\|",
    b"\\<", b"\\\x80", b"\\\xFF", b"\\\x00", b"\\", b"a\\", b"\\\\\\",
    // Ordinary bytes (P16) and byte 0 (P13).
    b"(", b")", b"(a)", b"{", b"}", b"a{2}", b"+", b"a+", b"?", b"a?", b"|", b"a|b", b"]", b"a]", b"-",
    b"a-b", b"\x01", b"\x7F", b"\x80", b"\xFF", b"\x80*\xFF", b"[\x80-\xFF]", b"[^\x80-\xFF]",
    b"[\xFF-\x80]", b"\x00", b"a\x00b", b"[\x00]", b"[\x00-\x05]", b"[^\x00]", b"[^a\x00]", b".", b"..",
    b"a.b", b"^.$", b"^..$", b"^.*$", b"ab", b"a\tb", b"a b", b"\r", b".\r",
];

/// Each written pattern judged, and tried on texts made of its own bytes.
pub fn cases() -> Vec<Case> {
    let mut cases = Vec::new();
    for pattern in WRITTEN {
        let label = format!("pattern {}", pattern.escape_ascii());
        cases.push(build::check(&label, &pattern_image(pattern).bytes()));
        if crate::pattern::read(pattern).is_none() {
            continue;
        }
        for text in probes(pattern) {
            cases.push(on_line(&label, pattern, &text));
        }
        cases.push(on_names(&label, pattern));
    }
    cases
}

/// The bytes of the pattern and their neighbours, each alone, and some longer texts.
pub fn probes(pattern: &[u8]) -> Vec<Vec<u8>> {
    let mut bytes: Vec<u8> = pattern.to_vec();
    bytes.extend(pattern.iter().map(|byte| byte.wrapping_add(1)));
    bytes.extend(pattern.iter().map(|byte| byte.wrapping_sub(1)));
    bytes.extend([0, b'-', b'b', b'\r', 0xFF]);
    bytes.sort_unstable();
    bytes.dedup();
    bytes.retain(|&byte| byte != b'\n');
    let mut texts: Vec<Vec<u8>> = bytes.iter().map(|&byte| vec![byte]).collect();
    texts.push(Vec::new());
    texts.push(pattern.to_vec());
    texts.push(pattern.repeat(2));
    texts.push([b"x", pattern, b"x"].concat());
    texts.push(pattern.iter().copied().filter(u8::is_ascii_alphanumeric).collect());
    texts.push(pattern.iter().rev().copied().collect());
    texts.retain(|text| !text.contains(&b'\n'));
    texts
}

/// The text as a session line's value: it may have any byte but LF.
pub fn on_line(label: &str, pattern: &[u8], text: &[u8]) -> Case {
    let mut draft = Draft::new();
    let row = draft.text_row(4, b"x", Some(pattern));
    draft.single(7, row);
    let request = [b"INVITE sip:b SIP/2.0\r\nc:application/sdp\r\n\r\nx=", text].concat();
    build::advance(&format!("{label} on {}", text.escape_ascii()), &draft.bytes(), &request, build::READY)
}

/// Trials tell how many of these names match.
fn on_names(label: &str, pattern: &[u8]) -> Case {
    let mut draft = Draft::new();
    let row = draft.text_row(2, pattern, Some(b"."));
    draft.single(7, row);
    let names = [
        "From",
        "FROM",
        "from",
        "ff",
        "FF",
        "X-From-Id",
        "Z",
        "`",
        "~",
        "*",
        "a.b",
        "JOE",
        "_",
        "-",
        "jo",
        "%",
        "f",
        "V",
    ];
    let mut request = b"INVITE sip:b SIP/2.0\r\n".to_vec();
    for (place, name) in names.iter().enumerate() {
        // One more value for each name, so that the sum tells which names matched.
        request.extend(format!("{name}:{}\r\n", ",".repeat((1 << place.min(9)) - 1)).bytes());
    }
    request.extend(b"\r\n");
    build::advance(&format!("{label} on names"), &draft.bytes(), &request, build::READY)
}
