//! Change request 2, point by point: each value here is written in the list of readings, or counted by hand.

mod common;
use common::*;
use second::maker::draft::{case_row, negated, Draft};
use second::maker::random::Random;
use second::matching::{matches, Letters};
use second::pattern;
use second::place::{fits, longest_reached, longest_tried, place, Place};

const NONE: (u32, [u32; 6]) = (0, [0; 6]);

/// Found, with field, value, start and length.
fn at(field: u32, value: u32, start: u32, length: u32) -> (u32, [u32; 6]) {
    (0, [0, 1, field, value, start, length])
}

fn refused(number: u32) -> (u32, [u32; 6]) {
    (number, [0; 6])
}

fn one_row(kind: u8, first: &[u8], content: Option<&[u8]>) -> Draft {
    let mut draft = Draft::new();
    let row = draft.text_row(kind, first, content);
    draft.single(1, row);
    draft
}

/// A SIPHeader row on the request with this head and no body.
fn header(name: &[u8], content: Option<&[u8]>, head: &[u8]) -> (u32, [u32; 6]) {
    show(&one_row(2, name, content).bytes(), &invite(&[head, b"\r\n"].concat()), 0)
}

/// A SessionDescription row on the request with this body.
fn line(kind: &[u8], content: Option<&[u8]>, body: &[u8]) -> (u32, [u32; 6]) {
    let request = invite(&[b"c: application/sdp\r\n\r\n", body].concat());
    show(&one_row(4, kind, content).bytes(), &request, 0)
}

fn placed(pattern: &[u8], text: &[u8]) -> Option<(usize, usize)> {
    let pattern = pattern::read(pattern).expect("a pattern");
    place(&pattern, text).map(|place| (place.start, place.length))
}

#[test]
fn p2_1_in_the_piece() {
    assert_eq!(header(b"^X$", Some(b"joe"), b"X: ann, big joe\r\n"), at(0, 1, 4, 3));
    assert_eq!(header(b"^X$", Some(b"^joe"), b"X:   ann ,\t joe\r\n"), at(0, 1, 0, 3));
    assert_eq!(header(b"^X$", Some(b"joe"), b"X:\t a  \t joe\r\n"), at(0, 0, 2, 3));
    assert_eq!(header(b"^X$", Some(b"b"), b"X: a\r\n \r\n\tb\r\n"), at(0, 0, 2, 1));
    assert_eq!(header(b"^X$", Some(b"joe"), b"X: \"a, joe\" <b,joe>, joe\r\n"), at(0, 0, 4, 3));
    // A line's value is not trimmed.
    assert_eq!(line(b"a", Some(b"b"), b"a=  b\r\n"), at(0, 0, 2, 1));
}

#[test]
fn p2_2_what_numbers_count() {
    let head = b"Via: a, b\r\nFrom: joe\r\nX: ,, joe ,\r\n";
    assert_eq!(header(b"^X$", Some(b"joe"), head), at(2, 2, 0, 3));
    assert_eq!(header(b"^From$", Some(b"joe"), head), at(1, 0, 0, 3));
    assert_eq!(header(b"^X$", Some(b"^$"), head), at(2, 0, 0, 0));
    let body = b"v=0\r\nno field\r\n\r\n=\r\nm=video\r\nm=audio\r\n";
    assert_eq!(line(b"m", Some(b"audio"), body), at(2, 0, 0, 5));
    assert_eq!(line(b"m", None, body), at(1, 0, 0, 0));
}

#[test]
fn p2_3_smallest_start_then_longest() {
    assert_eq!(placed(b"a*", b"baa"), Some((0, 0)));
    assert_eq!(placed(b"$", b"ab"), Some((2, 0)));
    assert_eq!(placed(b"^", b"ab"), Some((0, 0)));
    assert_eq!(placed(b"b*$", b"baa"), Some((3, 0)));
    assert_eq!(placed(b"^$", b""), Some((0, 0)));
    assert_eq!(placed(b"a*$", b"baa"), Some((1, 2)));
    assert_eq!(placed(b"aa*", b"baabaaa"), Some((1, 2)));
    assert_eq!(placed(b"a.*a", b"xabaay"), Some((1, 4)));
    assert_eq!(placed(b"a.*a", b"xay"), None);
    assert_eq!(placed(b"^a", b"ba"), None);
    assert_eq!(placed(b".", b"\0a"), Some((1, 1)));
    assert_eq!(header(b"^X$", Some(b"b*$"), b"X: baa\r\n"), at(0, 0, 3, 0));
    assert_eq!(line(b"x", Some(b"a*"), b"x=baa"), at(0, 0, 0, 0));
}

#[test]
fn p2_4_without_content() {
    assert_eq!(header(b"^X$", None, b"A: 1\r\nX: a long value, b\r\nX: 2\r\n"), at(1, 0, 0, 0));
    assert_eq!(line(b"m", None, b"v=0\r\nm=audio\r\nm=video\r\n"), at(1, 0, 0, 0));
    assert_eq!(header(b"^X$", None, b"A: 1\r\n"), NONE);
    assert_eq!(line(b"m", None, b"v=0\r\n"), NONE);
}

#[test]
fn p2_5_the_first_that_matched() {
    let head = b"From: ann\r\nTo: joe\r\nf: bob, joe, joe\r\nFrom: joe\r\n";
    assert_eq!(header(b"^From$", Some(b"joe"), head), at(2, 1, 0, 3));
    assert_eq!(header(b"^From$", Some(b"eve"), head), NONE);
    assert_eq!(line(b"m", Some(b"audio"), b"m=video\r\na=audio\r\nm=audio\r\n"), at(2, 0, 0, 5));
}

#[test]
fn p2_6_before_negation() {
    let mut draft = Draft::new();
    let joe = draft.text_row(2, b"^From$", Some(b"joe"));
    let eve = draft.text_row(2, b"^From$", Some(b"eve"));
    draft.single(1, negated(joe));
    draft.single(2, negated(eve));
    let request = invite(b"From: joe\r\n\r\n");
    assert_eq!(show(&draft.bytes(), &request, 0), at(0, 0, 0, 3));
    assert_eq!(show(&draft.bytes(), &request, 1), NONE);
}

#[test]
fn p2_7_not_the_place_in_the_name() {
    assert_eq!(header(b"om", Some(b"o*e"), b"From: joe\r\n"), at(0, 0, 1, 2));
}

#[test]
fn p2_8_refusals() {
    let draft = one_row(2, b"^From$", Some(b"joe"));
    let image = draft.bytes();
    let unreadable = b"INVITE sip:b SIP/2.0\n\n";
    let register = b"REGISTER sip:b SIP/2.0\r\nFrom: joe\r\n\r\n";
    assert_eq!(show(&image, register, 0), at(0, 0, 0, 3));
    assert_eq!(show(&image, register, 1), refused(13));
    assert_eq!(show(&image, unreadable, 0), refused(7));
    assert_eq!(show(&image, unreadable, 1), refused(7));
    let mut faulty = draft.clone();
    faulty.rows[0].set = 7;
    let place = draft.row_place(0) as u32 + 6;
    for row in [0, 1] {
        assert_eq!(show(&faulty.bytes(), unreadable, row), (4, [place, 0, 0, 0, 0, 0]));
    }
    assert_eq!(show(&[0; 32_769], unreadable, 9), refused(1));
    assert_eq!(show(b"", unreadable, 9), refused(2));
}

#[test]
fn p2_9_another_kind() {
    let mut draft = Draft::new();
    let uri = draft.text_row(0, b"sip:b", None);
    let method = draft.text_row(1, b"INVITE", None);
    for row in [uri, method, case_row(0), case_row(3)] {
        draft.add_row(row, &[0]);
        draft.add_row(negated(row), &[0]);
    }
    for row in 0..8 {
        assert_eq!(show(&draft.bytes(), &invite(b"\r\n"), row), NONE);
    }
}

#[test]
fn p2_11_the_row_number() {
    let mut draft = one_row(2, b"^From$", Some(b"joe"));
    let row = draft.text_row(2, b"^From$", Some(b"e"));
    // No criterion uses this one.
    draft.add_row(row, &[0]);
    let request = invite(b"From: joe\r\n\r\n");
    assert_eq!(show(&draft.bytes(), &request, 1), at(0, 0, 2, 1));
    for row in [2, 3, 256, 257, 65_536, 65_537, 0x8000_0001, u32::MAX] {
        assert_eq!(show(&draft.bytes(), &request, row), refused(13), "{row}");
    }
    assert_eq!(show(&Draft::new().bytes(), &request, 0), refused(13));
}

#[test]
fn p2_12_content_is_not_folded() {
    assert_eq!(header(b"^x$", Some(b"joe"), b"X: JOE, Joe, joe\r\n"), at(0, 2, 0, 3));
    assert_eq!(line(b"m", Some(b"Audio"), b"M=Audio\r\nm=audio\r\n"), NONE);
}

/// The rules of the requests before it: never cut, short names.
#[test]
fn as_values_are_read() {
    assert_eq!(header(b"^Subject$", Some(b"joe"), b"s: ann,   joe\r\n"), at(0, 0, 5, 3));
    assert_eq!(header(b"^Authorization$", Some(b"c"), b"authorization: a, b ,c\r\n"), at(0, 0, 6, 1));
    assert_eq!(header(b"^From$", Some(b"joe"), b"F : ann, joe\r\n"), at(0, 1, 0, 3));
    assert_eq!(header(b"^f$", Some(b"joe"), b"f: joe\r\n"), NONE);
}

#[test]
fn p5_9_another_body() {
    let image = one_row(4, b"m", None).bytes();
    for (head, found) in [
        ("c: application/sdp\r\n", true),
        ("Content-Type: Application/SDP;x\r\n", true),
        ("c: application/sdp,\r\n", false),
        ("c: application/sdp\r\nc: application/sdp\r\n", false),
        ("c: text/plain\r\n", false),
        ("", false),
    ] {
        let shown = show(&image, &invite(format!("{head}\r\nv=0\r\nm=x\r\n").as_bytes()), 0);
        assert_eq!(shown, if found { at(1, 0, 0, 0) } else { NONE }, "{head}");
    }
}

/// Part by part, and all parts from one start at once, say the same; and there is a place exactly if the pattern matches.
#[test]
fn both_ways_agree() {
    let mut random = Random::new(22);
    let (mut places, mut compared) = (0, 0);
    while compared < 20_000 {
        let mut text: Vec<u8> = (0..random.below(9)).map(|_| *random.pick(b"aabc.*")).collect();
        let written = second::maker::lean::pattern(&mut random, &text);
        let Some(pattern) = pattern::read(&written) else { continue };
        if random.chance(1, 2) {
            text.extend(text.clone());
        }
        for start in 0..=text.len() {
            let tried = longest_tried(&pattern, &text, start);
            assert_eq!(tried, longest_reached(&pattern, &text, start), "{}", written.escape_ascii());
            compared += 1;
        }
        let found = place(&pattern, &text);
        assert_eq!(found.is_some(), matches(&pattern, &text, Letters::AsWritten));
        places += found.is_some() as u32;
        let Some(Place { start, length }) = found else { continue };
        let parts =
            (0..=text.len()).flat_map(|s| (0..=text.len() - s).map(move |l| Place { start: s, length: l }));
        for part in parts.filter(|&part| fits(&pattern, &text, part)) {
            assert!(part.start > start || part.start == start && part.length <= length);
        }
    }
    assert!(places > 1_000, "{places}");
}

/// A row is shown exactly if it matches before negation: if it fits and is not negated, or is negated and does not fit.
#[test]
fn shown_exactly_if_matched() {
    let mut random = Random::new(26);
    let mut seen = [0; 2];
    for _ in 0..600 {
        let request = second::maker::lean::request(&mut random, b"INVITE");
        let draft = second::maker::lean::image(&mut random, &request, 0);
        for row in draft.rows.iter().filter(|row| row.kind == 2 || row.kind == 4) {
            let mut single = Draft { strings: draft.strings.clone(), ..Draft::new() };
            single.single(1, *row);
            let (0, numbers) = show(&single.bytes(), &request, 0) else { continue };
            let matched = row_fits(&single, &request) != (row.negated == 1);
            assert_eq!(numbers[1] == 1, matched);
            seen[matched as usize] += 1;
        }
    }
    assert!(seen[0] > 300 && seen[1] > 300, "{seen:?}");
}
