//! Extended patterns (change request 6). The fixed cases are counted and placed by hand, from the request and the list of readings
//! (points 6.1 to 6.20); then random ones: the reader against rules on neighbours, the derivatives against every part tried,
//! against intervals written out, against edition 1 and against the C library.

#[path = "common/c_library.rs"]
mod c_library;

use c_library::{Regex, EXTENDED};
use second::bracket;
use second::extended::read::SPECIAL;
use second::extended::{matches, place, read, tried, Alternative, Pattern, Times, Tree};
use second::maker::patterns::WRITTEN;
use second::maker::plains;
use second::maker::random::Random;
use second::matching::{self, Letters};
use second::pattern::{self, Set};
use second::place::{self as parts, Place};
use std::rc::Rc;

#[rustfmt::skip]
const REFUSED: &[&str] = &[
    // "`^` not first or `$` not last" (6.2).
    "a^b", "x$y", "^^", "$$", "$a", "a^", "$^", "^^a", "a$$", "^a^", "a|b^", "$a|b", "a|^^b", "(a)^", "$(a)", "a*^b", "^$a",
    // "in an alternative outside groups" (6.3).
    "(^a)", "(a$)", "(a|^b)", "(^)", "($)", "(^$)", "(a|b$)", "((^a))", "^(^a)", "(a$)$", "(a$|b)", "x|(^a)", "(^a)*", "(a$){0}",
    // "an empty alternative or group" (6.5).
    "", "a|", "|a", "a||b", "()", "(a|)", "(|a)", "(a||b)", "|", "||", "(|)", "a()", "()b", "(())", "(a)()", "^|", "|$", "$||a",
    "(a|){0}", "(){0}", "a(b|c|)", "(|)*", "a|b|",
    // A repeat "with nothing before it" (6.6). No `*` is ever ordinary.
    "*", "*a", "+a", "?a", "{2}", "{2}a", "^*", "^+", "^?", "^{2}", "^*a", "a|*b", "a|+", "a|?b", "a|{1}", "a|^*b", "(*a)", "(+)",
    "(?a)", "({2})", "(a|*b)", "$*", "a$+", "a$?", "a${2}", "(a|{1})",
    // "a repeat after a repeat" (6.7).
    "a**", "a+?", "a{2}{3}", "(a)*?", "a*+", "a?*", "a??", "a++", "a*{2}", "a{2}*", "a{2}?", "a{2,}+", "a{1,2}{0}", "[a]**", ".*+",
    "\\.+*", "(a*)**", "(a**)", "(b|a+?)", "a***", "a{0}{0}", "a**|b", "a{1}{", "a{1}{1",
    // "a `{` that begins no interval, one that falls" (6.8).
    "a{", "a{}", "a{,}", "a{,3}", "a{ 1}", "a{1 }", "a{1, 2}", "a{1,2,3}", "a{1", "a{1,", "a{1,2", "a{x}", "a{1x}", "a{-1}", "a{+1}",
    "a{1,x}", "a{1;2}", "a{,}}", "a{{1}}", "a{1\\}", "{", "a{1,2|b}", "(a{1)}", "a{[1]}", "a{1,,2}", "a{0x1}", "a\0{1",
    "a{2,1}", "a{1,0}", "a{32,31}", "a{10,9}", "a{2,01}", "(a{3,2})", "a{5,004}",
    // "intervals up to 32", by value (6.8, 6.9).
    "a{33}", "a{0,33}", "a{33,}", "a{33,33}", "a{100}", "a{0033}", "a{255}", "a{256}", "a{257}", "a{65536}", "a{65537}",
    "a{4294967296}", "a{4294967297}", "a{1,4294967298}", "a{18446744073709551616}", "a{18446744073709551617}", "(a{33}){0}",
    "a{340282366920938463463374607431768211457}", "a{99999999999999999999999999999999999999999999}",
    // "an unpaired `(` or `)`" (6.12).
    "(", ")", "(a", "a)", "(a))", "((a)", ")a(", "a)b", "(a)|b)", "(a|b", "(\\)", "([)]", "(a[)]", "\\()", "^)", "a|)", "(a{2)", "[(])",
    // Pairs (6.13), and "not supported" ones of edition 1.
    "\\", "a\\", "\\}", "\\]", "\\-", "\\,", "\\/", "\\1", "\\9", "\\0", "\\n", "\\a", "\\<", "\\ ", "\\\0", "\\\u{80}", "(a)\\1", "a\\\\\\",
    "(\\)a", "\\'", "(\\1){0}", "a|\\", "\\w",
    // Lists as in edition 1 (6.14).
    "[", "[a", "[]", "[^]", "[^", "[z-a]", "[a-c-e]", "[a--]", "[]--]", "[[.a.]]", "[[=a=]]", "[[:alpha:]]", "[A-[.]", "[%---/]", "[a-\\]",
    "([z-a]){0}", "(a|[b)", "[(", "[a|b",
];

/// With how many elements they count (6.10).
#[rustfmt::skip]
const ACCEPTED: &[(&str, usize)] = &[
    // Ordinary bytes and pairs (6.1, 6.13).
    ("a", 1), ("]", 1), ("}", 1), (",", 1), ("-", 1), ("/", 1), ("0", 1), ("\0", 1), ("a}", 2), ("a{1}}", 2), ("a,2}", 4), ("a]", 2),
    ("]}", 2), ("}{2}", 2), ("]*", 1), ("\\^", 1), ("\\.", 1), ("\\[", 1), ("\\$", 1), ("\\(", 1), ("\\)", 1), ("\\|", 1), ("\\*", 1),
    ("\\+", 1), ("\\?", 1), ("\\{", 1), ("\\\\", 1), ("a\\{2}", 4), ("\\(a\\)", 3), ("\\**", 1), ("\\++", 1), ("\\{{2}", 2), ("\\^*", 1),
    ("a\\^b", 3), ("x\\$y", 3), ("\\$$", 1), ("^\\^", 1), ("\\\\{3}", 3), ("a\\|b", 3), (" {2}", 2), ("<>=!\"", 5),
    // Anchors (6.2 to 6.5).
    ("^", 0), ("$", 0), ("^$", 0), ("a|^", 1), ("$|a", 1), ("^|$", 0), ("^$|^$", 0), ("^a|b$", 2), ("^a$", 1), ("^a|^b", 2), ("a$|b$", 2),
    ("^(a)$", 1), ("^(a|b)$", 2), ("^a*$", 1), ("(a)|^b", 2), ("^|a|$", 1), ("(a)$|(b)", 2),
    // Groups, alternatives, repeats (6.7, 6.12).
    ("(a)", 1), ("a|b", 2), ("a|ab", 3), ("(a|ab)(c|bcd)", 7), ("(a*)*", 1), ("(a+)?", 1), ("((a*)*)*", 1), ("(a?){2}", 2), ("a+b?", 2),
    ("(a)*", 1), ("(a)(b)", 2), ("((a))", 1), ("(\\))", 1), ("([)])", 1), ("(a{2})?", 2), ("(a{2}){3}", 6), ("a*b*", 2), ("(a*)+", 1),
    ("a|b|c|d", 4), ("(a|b)|(c|d)", 4), ("x(y|z)+w", 4), ("(a|(b|(c)))", 3),
    // Intervals (6.8, 6.9).
    ("a{0}", 0), ("a{0,0}", 0), ("a{1}", 1), ("a{32}", 32), ("a{0,32}", 32), ("a{32,}", 32), ("a{32,32}", 32), ("a{0,}", 1), ("a{1,}", 1),
    ("a{2,}", 2), ("a{0,1}", 1), ("a{3,5}", 5), ("[ab]{2}", 2), (".{2}", 2), ("(a|b){2}", 4), ("a{2}b{3}", 5),
    ("a{0032}", 32), ("a{00}", 0), ("a{0000000000000000000000000000000000000000000000001}", 1), ("a{002,0003}", 3), ("a{01,}", 1),
    ("a{00000000000000000000000000000000000000000000000000000000000000000000000000000000,000000000000000000000000032}", 32),
    // Written out (6.10).
    ("a{0}b", 1), ("(a|b|c){0}", 0), ("(a{32}){0}", 0), ("((a{32}){32}){0}", 0), ("(a{0}){32}", 0), ("(a{30}){2}", 60), ("(aa){30}", 60),
    ("(a|b){30}", 60), ("a{0,32}b{28}", 60), ("(a{20,}){3,}", 60), ("(a+b?){30}", 60), ("((a{2}){3}){10}", 60), ("a{32}|b{28}", 60),
    ("^a{32}b{28}$", 60), ("(a*){32}", 32), ("(a{0,2}b{0}){30}", 60), ("((a{2,}){0,}){30}", 60), ("(a{5}){0,12}", 60),
    // Lists (6.14).
    ("[()]", 1), ("[|]", 1), ("[{}]", 1), ("[+?*]", 1), ("[]a]", 1), ("[^]a]", 1), ("[a{2}]", 1), ("[(]a", 2), ("[a|b]", 1), ("[$^]", 1),
    ("[\\]", 1), ("[\\]]", 2), ("[.]", 1), ("[a-]", 1), ("[%--]", 1), ("[---a]", 1), ("[a-a]", 1), ("[]-]]", 2), ("[^^]", 1), ("[)-+]", 1),
    ("([)])|[(]", 2), ("[|]|[|]", 2),
];

fn elements(text: &[u8]) -> Option<usize> {
    read(text).map(|pattern| pattern.elements())
}

#[test]
fn refused() {
    for text in REFUSED {
        assert_eq!(elements(text.as_bytes()), None, "{}", text.escape_debug());
    }
}

#[test]
fn accepted() {
    for (text, count) in ACCEPTED {
        assert_eq!(elements(text.as_bytes()), Some(*count), "{}", text.escape_debug());
    }
}

/// Each is written once, and so is counted once.
#[test]
fn enough_fixed_cases() {
    let mut all: Vec<&str> = REFUSED.iter().copied().chain(ACCEPTED.iter().map(|(text, _)| *text)).collect();
    all.sort();
    assert_eq!(all.windows(2).find(|pair| pair[0] == pair[1]), None);
    assert!(REFUSED.len() >= 200 && ACCEPTED.len() >= 120, "{} {}", REFUSED.len(), ACCEPTED.len());
    assert!(PLACES.len() >= 60, "{}", PLACES.len());
}

/// Every byte by itself, and after `\` (6.1, 6.13).
#[test]
fn single_bytes() {
    for byte in 0..=255u8 {
        let special = b"^.[$()|*+?{\\".contains(&byte);
        let alone = !special || b"^.$".contains(&byte);
        assert_eq!(read(&[byte]).is_some(), alone, "{byte}");
        assert_eq!(read(&[b'a', byte]).is_some(), !special || b".$*+?".contains(&byte), "a, {byte}");
        assert_eq!(read(&[b'\\', byte]).is_some(), special, "\\, {byte}");
        assert_eq!(read(&[b'[', byte, b']']).is_some(), byte != b'^', "[, {byte}");
    }
}

fn nested(depth: usize, inner: &str, after: &str) -> Vec<u8> {
    ["(".repeat(depth), inner.to_owned(), ")".repeat(depth), after.to_owned()].concat().into_bytes()
}

/// "Groups nest at most 8 deep" (6.11).
#[test]
fn depth() {
    assert_eq!(elements(&nested(8, "a", "")), Some(1));
    assert_eq!(elements(&nested(8, "a|b", "*")), Some(2));
    assert_eq!(elements(&nested(8, "a", "{0}")), Some(0));
    for after in ["", "*", "{0}", "|b"] {
        assert_eq!(elements(&nested(9, "a", after)), None, "{after}");
    }
    assert_eq!(elements(&nested(7, "(a)(b)|(c)", "")), Some(3));
    assert_eq!(elements(&nested(7, "(a)((b))", "")), None);
    assert_eq!(elements("(a)".repeat(60).as_bytes()), Some(60));
    assert_eq!(elements(&nested(8, "\\([(]", "")), Some(2));
    assert_eq!(elements(&[nested(8, "a", ""), nested(8, "b", "")].concat()), Some(2));
    assert_eq!(elements(&nested(500, "a", "")), None);
}

/// "At most 60 elements with intervals written out" (6.10, 6.20).
#[test]
fn count() {
    let sixty = "a".repeat(60);
    for (after, right) in [
        ("", Some(60)),
        ("b", None),
        ("b{0}", Some(60)),
        ("b{0,0}", Some(60)),
        ("b{0,}", None),
        ("b?", None),
        ("|b", None),
        ("|^", Some(60)),
        ("|(b|c){0}", Some(60)),
        ("$", Some(60)),
    ] {
        assert_eq!(elements([&sixty, after].concat().as_bytes()), right, "{after}");
    }
    for over in [
        "(a{31}){2}",
        "(a{30}){2}b",
        "(a|b){31}",
        "a{29,}b{32}",
        "(a{21,}){3,}",
        "(a{32}){32}",
        "(a{2}b{0,}){21}",
    ] {
        assert_eq!(elements(over.as_bytes()), None, "{over}");
    }
    let hundred = "a".repeat(100);
    assert_eq!(elements(format!("({hundred}){{0}}b").as_bytes()), Some(1));
    assert_eq!(elements(format!("({hundred}){{0}}").repeat(9).as_bytes()), Some(0));
    assert_eq!(elements(format!("({hundred}){{0,}}b").as_bytes()), None);
    assert_eq!(elements(format!("[{}]", "a".repeat(2_000)).as_bytes()), Some(1));
    assert_eq!(elements("(.|\\.|[.])*".repeat(20).as_bytes()), Some(60));
    assert_eq!(elements("(.|\\.|[.])*".repeat(21).as_bytes()), None);
    // 32 to the eighth power times 32: no number wraps.
    let power = ["(".repeat(8), "a{32}".to_owned(), "){32}".repeat(8)].concat();
    assert_eq!(elements(power.as_bytes()), None);
    assert_eq!(elements(power.replace("a{32}", "a{0}").as_bytes()), Some(0));
    for inside in ["a**", "a||b", "[z-a]", "\\1", "a{33}", "*a", "^a", "a$", "a{2,1}", "a{", "(b", ""] {
        assert_eq!(elements(format!("({inside}){{0}}b").as_bytes()), None, "{inside}");
    }
}

/// Counted by hand; `None` where no part fits.
#[rustfmt::skip]
const PLACES: &[(&str, &str, Option<(usize, usize)>)] = &[
    // The longest, whichever alternative (6.17).
    ("a|ab", "xab", Some((1, 2))), ("ab|a", "xab", Some((1, 2))), ("(a|ab)(c|bcd)", "xabcd", Some((1, 4))),
    ("a|b|cd|bcd", "xbcd", Some((1, 3))), ("(ab|a)(bc|c)?", "abc", Some((0, 3))), ("(ab|a)bc", "abc", Some((0, 3))),
    ("(a|ab)(c|bcd)?$", "abcd", Some((0, 4))), ("a$|ab", "ab", Some((0, 2))), ("(a|aa){3}", "aaaaaaa", Some((0, 6))),
    ("(aa|aaa){2}", "aaaaaaa", Some((0, 6))), ("(aaa|aa)+$", "aaaaaaa", Some((0, 7))), ("(aa)+$", "aaaaa", Some((1, 4))),
    ("abc|b", "abd", Some((1, 1))), ("b|abc", "abcb", Some((0, 3))), ("(a|bc){2}", "abca", Some((0, 3))),
    // Anchors bind their own alternative (6.4, 6.5).
    ("^a|b$", "ba", None), ("^a|b$", "ab", Some((0, 1))), ("^a|b$", "cb", Some((1, 1))), ("^a|b$", "aab", Some((0, 1))),
    ("^", "ab", Some((0, 0))), ("$", "ab", Some((2, 0))), ("^$", "", Some((0, 0))), ("^$", "a", None), ("x|^", "ax", Some((0, 0))),
    ("x|$", "axx", Some((1, 1))), ("$|a", "ba", Some((1, 1))), ("^|a", "a", Some((0, 1))), ("b+$|a", "bab", Some((1, 1))),
    ("^(a|b)*$", "abab", Some((0, 4))), ("^(a|b)*$", "abcab", None), ("^ab|c", "xab", None), ("^b|a$", "aba", Some((2, 1))),
    // Repeats, and turns that are empty (6.7).
    ("a*", "baa", Some((0, 0))), ("b*$", "baa", Some((3, 0))), ("(a*)*", "baa", Some((0, 0))), ("(a*)+b", "xaab", Some((1, 3))),
    ("((a*)*)*b|c", "aac", Some((2, 1))), ("(a+)?b", "aab", Some((0, 3))), ("(a+)?", "baa", Some((0, 0))), ("a+", "baab", Some((1, 2))),
    ("a?a", "aa", Some((0, 2))), ("a?", "b", Some((0, 0))), ("x*", "", Some((0, 0))), ("(a|b)*c", "xabac", Some((1, 4))),
    ("a*b*", "xaabb", Some((0, 0))), ("(a?b){2}", "abb", Some((0, 3))), ("(a|b)+", "cab", Some((1, 2))), ("(a*b)+", "aabba", Some((0, 4))),
    ("(ab*)*c", "abbac", Some((0, 5))), ("a+", "", None), ("(a*)*$", "ba", Some((1, 1))), ("(a?){3}b", "aaaab", Some((1, 4))),
    // Intervals (6.8).
    ("a{2}", "aaa", Some((0, 2))), ("a{2,}", "baaaa", Some((1, 4))), ("a{2,3}", "aaaa", Some((0, 3))), ("a{0}", "aa", Some((0, 0))),
    ("a{0}b", "aab", Some((2, 1))), ("(ab){2}", "ababab", Some((0, 4))), ("(ab){2,}", "xababab", Some((1, 6))),
    ("a{0,2}", "aaa", Some((0, 2))), ("(a{0,2}){2}", "aaaaa", Some((0, 4))), ("(a|b){3}", "abxaba", Some((3, 3))),
    ("(a|b)+c{0}", "cab", Some((1, 2))), ("a{3}", "aabaa", None), ("^a{0}$", "", Some((0, 0))), ("^a{0}$", "a", None),
    ("(a{0}){5}", "a", Some((0, 0))), ("a{0003}", "aaaa", Some((0, 3))), ("(a{2}){2}", "aaaaa", Some((0, 4))), ("(a{2,3}){2}", "aaa", None),
    ("^(a{2}|a{5})*$", "aaa", None), ("^(a{2}|a{5})*$", "aaaaaaa", Some((0, 7))), ("(aab){0}a", "baab", Some((1, 1))),
    // Ordinary bytes, pairs, lists (6.1, 6.13, 6.14).
    ("a}", "xa}", Some((1, 2))), ("a{1}}", "aa}", Some((1, 2))), ("]", "a]", Some((1, 1))), ("\\(a\\)", "(a)", Some((0, 3))),
    ("[()]+", "a(()", Some((1, 3))), ("[|]", "a|", Some((1, 1))), ("a\\|b", "ab a|b", Some((3, 3))), ("\\**", "a**", Some((0, 0))),
    ("\\*+", "a**", Some((1, 2))), ("[a{2}]+", "xa{2}", Some((1, 4))), ("\\\\+", "a\\\\", Some((1, 2))), ("a,2}", "a,2}", Some((0, 4))),
    // Byte 0 (6.15).
    (".+", "\0ab\0c", Some((1, 2))), ("\0+", "a\0\0", Some((1, 2))), ("[^a]", "\0b", Some((1, 1))), ("(.|\0)+", "a\0b", Some((0, 3))),
    // As a request URI has it (6.16): as written, some part.
    ("sip:(joe|ann)@a\\.b", "x sip:ann@a.b", Some((2, 11))), ("sip:(joe|ann)@a\\.b", "sip:ann@axb", None), ("SIP", "sip:a", None),
    ("^sips?:", "sip:a", Some((0, 4))), ("^tel:\\+[0-9]{3,}", "tel:+4912345", Some((0, 12))), ("a|b", "c", None),
];

#[test]
fn places() {
    for (text, subject, right) in PLACES {
        let pattern = read(text.as_bytes()).unwrap_or_else(|| panic!("{text} is accepted"));
        let right = right.map(|(start, length)| Place { start, length });
        assert_eq!(place(&pattern, subject.as_bytes()), right, "{text} on {subject}");
        assert_eq!(tried::place(&pattern, subject.as_bytes()), right, "{text} on {subject}, tried");
        assert_eq!(matches(&pattern, subject.as_bytes(), Letters::AsWritten), right.is_some());
    }
}

/// On names each element is tried in both forms, after its negation (6.15, P14).
#[test]
fn names() {
    for (text, name, as_written, either) in [
        ("^(from|to)$", "FROM", false, true),
        ("^(from|to)$", "To", false, true),
        ("^(from|to)$", "ToFrom", false, false),
        ("^(FROM|TO)$", "from", false, true),
        ("[^f]", "f", false, true),
        ("[^f]", "F", true, true),
        ("[^Ff]", "f", false, false),
        ("^([^a-z])+$", "from", false, true),
        ("^[a-c]{3}$", "AbC", false, true),
        ("^(f|g){2}$", "Fg", false, true),
        ("^(f+|x)?$", "FfF", false, true),
        ("@", "`", false, false),
        ("[@-Z]", "`", false, false),
        ("[[-a]", "{", false, false),
        ("\\{", "[", false, false),
        ("^(.|[^x])$", "\0", false, false),
    ] {
        let pattern = read(text.as_bytes()).expect("accepted");
        let given = [Letters::AsWritten, Letters::EitherForm]
            .map(|letters| matches(&pattern, name.as_bytes(), letters));
        assert_eq!(given, [as_written, either], "{text} on {name}");
    }
}

/// As long as a value of a request can be.
#[test]
fn long_texts() {
    let mut text = vec![b'a'; 65_535];
    text[65_534] = b'c';
    for (pattern, start, length) in [
        ("(a|a*b)*c", 0, 65_535),
        ("((a*)*)*c", 0, 65_535),
        ("(a|b)*c$", 0, 65_535),
        ("(.{20}){3}$", 65_475, 60),
        ("(a?){30}(a|b){14}c", 65_490, 45),
        ("c|b(a|b)*", 65_534, 1),
        ("(a|aa|aaa)+|a*c", 0, 65_535),
    ] {
        let right = Some(Place { start, length });
        assert_eq!(place(&read(pattern.as_bytes()).expect("accepted"), &text), right, "{pattern}");
    }
    assert_eq!(place(&read(b"(a|b)*d").expect("accepted"), &text), None);
}

/// A piece of a pattern: as a text, with intervals written out (`None` where one is `{0}`, which nothing else says), as a tree.
#[derive(Clone)]
struct Made<T> {
    text: Vec<u8>,
    long: Option<Vec<u8>>,
    tree: T,
}

fn set(bytes: &[u8]) -> Set {
    let mut set = Set::EMPTY;
    bytes.iter().for_each(|&byte| set.add(byte));
    set
}

/// Every byte but these and byte 0.
fn set_without(bytes: &[u8]) -> Set {
    let mut set = set(bytes);
    set.add(0);
    set.complement()
}

fn made_element(random: &mut Random) -> Made<Tree> {
    let (text, set): (&[u8], Set) = match random.below(16) {
        0..=3 => (b"a", set(b"a")),
        4..=6 => (b"b", set(b"b")),
        7 => (b"c", set(b"c")),
        8 => (b".", set_without(b"")),
        9 => (b"[ab]", set(b"ab")),
        10 => (b"[^a]", set_without(b"a")),
        11 => (b"[b-d|]", set(b"bcd|")),
        12 => (b"\\|", set(b"|")),
        13 => (b"}", set(b"}")),
        14 => (b"[]{(]", set(b"]{(")),
        _ => (b"\\(", set(b"(")),
    };
    Made { text: text.to_vec(), long: Some(text.to_vec()), tree: Tree::Element(set) }
}

/// One after the other, `between` standing between each two.
fn joined<T>(all: Vec<Made<T>>, between: &[u8]) -> Made<Vec<T>> {
    let text = all.iter().map(|made| made.text.as_slice()).collect::<Vec<_>>().join(between);
    let long = all.iter().map(|made| made.long.as_deref()).collect::<Option<Vec<_>>>();
    Made {
        text,
        long: long.map(|long| long.join(between)),
        tree: all.into_iter().map(|made| made.tree).collect(),
    }
}

fn made_row(random: &mut Random, deep: usize) -> Made<Vec<Tree>> {
    let all = (0..random.between(1, 3)).map(|_| made_repeated(random, deep)).collect();
    joined(all, b"")
}

fn made_single(random: &mut Random, deep: usize) -> Made<Tree> {
    if deep == 0 || random.chance(1, 2) {
        return made_element(random);
    }
    let rows = (0..random.between(1, 3)).map(|_| made_row(random, deep - 1)).collect();
    let group = joined(rows, b"|");
    let closed = |inside: &[u8]| [b"(", inside, b")"].concat();
    Made {
        text: closed(&group.text),
        long: group.long.map(|long| closed(&long)),
        tree: Tree::Group(group.tree.into()),
    }
}

fn made_times(random: &mut Random) -> (String, Times) {
    let (least, more) = (random.below(4), random.below(3));
    let zeros = if random.chance(1, 4) { "00" } else { "" };
    match random.below(8) {
        0 | 1 => ("*".to_owned(), Times { least: 0, most: None }),
        2 => ("+".to_owned(), Times { least: 1, most: None }),
        3 => ("?".to_owned(), Times { least: 0, most: Some(1) }),
        4 => (format!("{{{zeros}{least}}}"), Times { least, most: Some(least) }),
        5 => (format!("{{{zeros}{least},}}"), Times { least, most: None }),
        _ => (format!("{{{least},{zeros}{}}}", least + more), Times { least, most: Some(least + more) }),
    }
}

fn written_out(long: &[u8], times: Times) -> Option<Vec<u8>> {
    let once = |mark: &[u8]| [long, mark].concat();
    match times {
        Times { most: Some(0), .. } => None,
        Times { least: 0, most: None } => Some(once(b"*")),
        Times { least, most: None } => Some([long.repeat(least - 1), once(b"+")].concat()),
        Times { least, most: Some(most) } => {
            Some([long.repeat(least), once(b"?").repeat(most - least)].concat())
        }
    }
}

fn made_repeated(random: &mut Random, deep: usize) -> Made<Tree> {
    let single = made_single(random, deep);
    if random.chance(1, 2) {
        return single;
    }
    let (mark, times) = made_times(random);
    Made {
        text: [single.text, mark.into_bytes()].concat(),
        long: single.long.and_then(|long| written_out(&long, times)),
        tree: Tree::Repeat(Rc::new(single.tree), times),
    }
}

fn made_alternative(random: &mut Random) -> Made<Alternative> {
    let [at_start, at_end] = [(), ()].map(|_| random.chance(1, 5));
    let alone = (at_start || at_end) && random.chance(1, 10);
    let deep = random.below(4);
    let row = if alone { joined(vec![], b"") } else { made_row(random, deep) };
    let anchored = |row: &[u8]| {
        let [start, end] =
            [(at_start, b"^"), (at_end, b"$")].map(|(stands, mark)| if stands { &mark[..] } else { b"" });
        [start, row, end].concat()
    };
    Made {
        text: anchored(&row.text),
        long: row.long.map(|long| anchored(&long)),
        tree: Alternative { at_start, at_end, row: row.tree },
    }
}

/// Mostly with few elements; what has too many is left out.
fn made_pattern(random: &mut Random) -> Made<Pattern> {
    loop {
        let count = *random.pick(&[1, 1, 1, 2, 3]);
        let made = joined((0..count).map(|_| made_alternative(random)).collect(), b"|");
        let pattern = Pattern { alternatives: made.tree };
        if pattern.elements() <= 60 {
            return Made { text: made.text, long: made.long, tree: pattern };
        }
    }
}

fn made_text(random: &mut Random, most: usize) -> Vec<u8> {
    (0..random.below(most + 1)).map(|_| *random.pick(b"aaaaabbbbcd|}({]")).collect()
}

/// What is written is read as it was meant, and the derivatives give the place that trying every part gives.
#[test]
fn read_as_meant_and_placed_as_tried() {
    let mut random = Random::new(6);
    let (mut placed, mut inside) = (0, 0);
    for _ in 0..8_000 {
        let made = made_pattern(&mut random);
        let shown = made.text.escape_ascii();
        assert_eq!(read(&made.text).as_ref(), Some(&made.tree), "{shown}");
        for most in [4, 9, 14] {
            let text = made_text(&mut random, most);
            let tried = tried::place(&made.tree, &text);
            assert_eq!(place(&made.tree, &text), tried, "{shown} on {}", text.escape_ascii());
            placed += tried.is_some() as usize;
            inside += tried.is_some_and(|place| place.start > 0 && place.length > 1) as usize;
        }
    }
    assert!(placed > 8_000 && placed < 20_000 && inside > 700, "{placed} {inside}");
}

/// "with intervals written out": as many elements, and the same places.
#[test]
fn intervals_written_out() {
    let mut random = Random::new(60);
    let mut compared = 0;
    while compared < 4_000 {
        let made = made_pattern(&mut random);
        let Some(long) = made.long.filter(|_| made.text.contains(&b'{')) else { continue };
        let shown = [&made.text, &b" as "[..], &long].concat();
        let shown = shown.escape_ascii();
        let written = read(&long).unwrap_or_else(|| panic!("{shown} is accepted"));
        assert_eq!(written.elements(), made.tree.elements(), "{shown}");
        for _ in 0..3 {
            let text = made_text(&mut random, 12);
            assert_eq!(
                place(&written, &text),
                place(&made.tree, &text),
                "{shown} on {}",
                text.escape_ascii()
            );
        }
        compared += 1;
    }
}

/// A pattern as its tokens: which may stand beside which is all that most of the refusals say.
#[derive(Clone, Copy, PartialEq)]
enum Token {
    Single,
    /// With its copies.
    Repeat(u128),
    Open,
    Close,
    Bar,
    Start,
    End,
}

fn bound(digits: &str) -> Option<u128> {
    let right = !digits.is_empty() && digits.bytes().all(|byte| byte.is_ascii_digit());
    let value = digits.trim_start_matches('0');
    let value = if value.is_empty() { "0" } else { value };
    (right && value.len() <= 2).then(|| value.parse().expect("two digits")).filter(|&value| value <= 32)
}

/// The copies of an interval, from what stands between `{` and `}`.
fn copies(inside: &[u8]) -> Option<u128> {
    let inside = std::str::from_utf8(inside).ok()?;
    match inside.split(',').collect::<Vec<_>>()[..] {
        [least] => bound(least),
        [least, ""] => bound(least).map(|least| least.max(1)),
        [least, most] => bound(least)?.le(&bound(most)?).then(|| bound(most))?,
        _ => None,
    }
}

fn token(text: &[u8]) -> Option<(Token, usize)> {
    let single = match text[0] {
        b'(' => Token::Open,
        b')' => Token::Close,
        b'|' => Token::Bar,
        b'^' => Token::Start,
        b'$' => Token::End,
        b'*' | b'+' | b'?' => Token::Repeat(1),
        b'{' => {
            let inside = text[1..].iter().position(|&byte| byte == b'}')?;
            return Some((Token::Repeat(copies(&text[1..=inside])?), inside + 2));
        }
        b'[' => return Some((Token::Single, bracket::read(&text[1..])?.width + 1)),
        b'\\' => return text.get(1).filter(|byte| SPECIAL.contains(byte)).map(|_| (Token::Single, 2)),
        _ => Token::Single,
    };
    Some((single, 1))
}

/// Both ends of the pattern are as a `|`.
fn tokens(text: &[u8]) -> Option<Vec<Token>> {
    let (mut all, mut next) = (vec![Token::Bar], 0);
    while next < text.len() {
        let (token, width) = token(&text[next..])?;
        all.push(token);
        next += width;
    }
    all.push(Token::Bar);
    Some(all)
}

fn may_stand(before: Token, after: Token) -> bool {
    use Token::*;
    match (before, after) {
        (Bar | Open, Bar | Close) => false,
        (Bar | Open | Start | Repeat(_), Repeat(_)) => false,
        (before, Start) => before == Bar,
        (End, after) => after == Bar,
        _ => true,
    }
}

/// How many elements, if nothing is refused.
fn judged_by_neighbours(text: &[u8]) -> Option<u128> {
    let tokens = tokens(text)?;
    if !tokens.windows(2).all(|pair| may_stand(pair[0], pair[1])) {
        return None;
    }
    // For each open group the elements so far; and those of what a repeat would repeat.
    let (mut sums, mut last) = (vec![0u128], 0);
    for &token in &tokens {
        let open = sums.len() - 1;
        match token {
            Token::Single => last = 1,
            Token::Open => sums.push(0),
            Token::Close => last = sums.pop().filter(|_| open > 0)?,
            Token::Repeat(copies) => {
                *sums.last_mut()? -= last;
                last *= copies;
            }
            Token::Start | Token::End if open > 0 => return None,
            _ => {}
        }
        if matches!(token, Token::Single | Token::Close | Token::Repeat(_)) {
            *sums.last_mut()? += last;
        }
        if sums.len() > 9 {
            return None;
        }
    }
    (sums.len() == 1 && sums[0] <= 60).then_some(sums[0])
}

/// One byte more, one less, or another.
fn damaged(random: &mut Random, mut text: Vec<u8>) -> Vec<u8> {
    let place = random.below(text.len() + 1);
    let byte = *random.pick(SOUP);
    match random.below(3) {
        0 => text.insert(place, byte),
        1 if place < text.len() => drop(text.remove(place)),
        _ if place < text.len() => text[place] = byte,
        _ => text.push(byte),
    }
    text
}

const SOUP: &[u8] = b"aab()()||*+?{}{}012,3^$.[]\\-^$\0";

fn soup(random: &mut Random) -> Vec<u8> {
    (0..random.between(1, 7)).map(|_| *random.pick(SOUP)).collect()
}

/// Every refusal of the request and no other: the descent against rules on neighbours, a depth and a sum.
#[test]
fn refused_as_by_rules_on_neighbours() {
    let fixed =
        REFUSED.iter().chain(ACCEPTED.iter().map(|(text, _)| text)).map(|text| text.as_bytes().to_vec());
    let mut all: Vec<Vec<u8>> = fixed.collect();
    let mut random = Random::new(61);
    for _ in 0..30_000 {
        let text = made_pattern(&mut random).text;
        all.push(damaged(&mut random, text));
        all.push(soup(&mut random));
    }
    let mut taken = 0;
    for text in &all {
        let read = read(text).map(|pattern| pattern.elements() as u128);
        assert_eq!(read, judged_by_neighbours(text), "{}", text.escape_ascii());
        taken += read.is_some() as usize;
    }
    assert!(taken > all.len() / 5 && taken < all.len() * 4 / 5, "{taken} of {}", all.len());
}

/// An edition 1 pattern as an extended one: what was ordinary there and is special here gets its `\`.
fn as_extended(text: &[u8]) -> Vec<u8> {
    let mut out = Vec::new();
    let (mut next, mut begun) = (0, false);
    while next < text.len() {
        let rest = &text[next..];
        let (width, ordinary) = match rest[0] {
            b'^' => (1, next > 0),
            b'$' => (1, rest.len() > 1),
            b'[' => (bracket::read(&rest[1..]).expect("accepted").width + 1, false),
            b'\\' => (2, false),
            b'*' => (1, !begun),
            byte => (1, b"()|+?{".contains(&byte)),
        };
        if ordinary {
            out.push(b'\\');
        }
        out.extend(&rest[..width]);
        begun |= next > 0 || rest[0] != b'^';
        next += width;
    }
    out
}

/// "matching is proved once over both editions": a pattern that says the same in both has the same answers.
#[test]
fn edition_1_rewritten() {
    let mut random = Random::new(1);
    let mut pairs: Vec<(Vec<u8>, Vec<u8>)> = (0..20_000).map(|_| plains::pair(&mut random)).collect();
    pairs.extend(WRITTEN.iter().map(|text| (text.to_vec(), made_text(&mut random, 9))));
    let (mut compared, mut changed) = (0, 0);
    for (text, subject) in pairs {
        let Some(first) = pattern::read(&text) else { continue };
        let rewritten = as_extended(&text);
        let shown = [&text, &b" as "[..], &rewritten].concat();
        let shown = shown.escape_ascii();
        let second = read(&rewritten).unwrap_or_else(|| panic!("{shown} is accepted"));
        assert_eq!(second.elements(), first.elements.len(), "{shown}");
        assert_eq!(place(&second, &subject), parts::place(&first, &subject), "{shown}");
        for letters in [Letters::AsWritten, Letters::EitherForm] {
            let right = matching::matches(&first, &subject, letters);
            assert_eq!(matches(&second, &subject, letters), right, "{shown}");
        }
        compared += 1;
        changed += (text != rewritten) as usize;
    }
    assert!(compared > 15_000 && changed > 400, "{compared} {changed}");
}

/// The C library accepts every pattern that ours accepts, and agrees on the place. Left out:
/// - byte 0: the C library ends strings there;
/// - what the request refuses and the C library may accept: the empty pattern and alternative, `()`, `*a`, `a**`, `(^a)`, `a^b`,
///   `a{,3}`, a `{` that begins no interval, a lone `)`, more than 60 elements, nine groups deep, `{33}`, `\1` and the other pairs,
///   `[[:alpha:]]`;
/// - matching on names: `REG_ICASE` folds before negation (P14).
///
/// Back-references are in no extended expression, and ranges go by byte number in the "C" locale, so nothing else is left out.
#[test]
fn agrees_with_the_c_library() {
    let mut random = Random::new(0x5EC0_0D06);
    let (mut compared, mut placed, mut soups) = (0, 0, 0);
    while compared < 24_000 {
        let from_soup = random.chance(1, 2);
        let pattern = if from_soup { soup(&mut random) } else { made_pattern(&mut random).text };
        let Some(read) = read(&pattern).filter(|_| !pattern.contains(&0)) else { continue };
        let shown = pattern.escape_ascii();
        let regex = Regex::new(&pattern, EXTENDED).unwrap_or_else(|| panic!("only ours accepts {shown}"));
        for _ in 0..4 {
            let text = made_text(&mut random, 10);
            let ours = place(&read, &text);
            assert_eq!(ours, regex.place(&text), "{shown} on {}", text.escape_ascii());
            assert_eq!(ours.is_some(), regex.matches(&text), "{shown} on {}", text.escape_ascii());
            compared += 1;
            placed += ours.is_some() as usize;
            soups += from_soup as usize;
        }
    }
    assert!(placed > compared / 10 && placed < compared * 9 / 10, "{placed} of {compared} placed");
    assert!(soups > compared / 20, "{soups} of {compared} from soup");
}

/// What the C library refuses too; none of these is a matter of reading.
#[test]
fn refused_by_both() {
    for text in ["(a", "((a)", "[a", "[z-a]", "a\\", "a{2,1}", "(a{3,2})", "a{10,9}", "[", "(", "a{99999}"] {
        assert!(read(text.as_bytes()).is_none(), "{text}");
        assert!(Regex::new(text.as_bytes(), EXTENDED).is_none(), "{text}");
    }
}
