//! Sentences of document 01 that no worked example and no reading covers.

mod common;
use common::*;
use second::maker::draft::{case_row, with_set, Draft, CNF, DNF};
use second::maker::lean;
use second::maker::random::Random;
use second::session::Session;

const BARE: &[u8] = b"INVITE sip:b SIP/2.0\r\n\r\n";
const REGISTER: &[u8] = b"REGISTER sip:b SIP/2.0\r\n\r\n";

fn one_row(kind: u8, first: &[u8], second: Option<&[u8]>) -> Draft {
    let mut draft = Draft::new();
    let row = draft.text_row(kind, first, second);
    draft.single(1, row);
    draft
}

/// "A first `-` may begin a range", no other; "an unclosed list" is refused.
#[test]
fn refused_lists() {
    for pattern in [b"[a-c--e]".as_slice(), b"[%----/]", b"[a", b"[a-z", b"x[^", b"[]"] {
        assert!(!accepted(pattern), "{}", pattern.escape_ascii());
    }
}

/// "On a name an element meets a byte if it meets its lower or its upper form. Line and
/// Content are matched as written."
#[test]
fn forms_of_letters() {
    assert!(row_fits(&one_row(2, b"^from$", None), &invite(b"FROM: a\r\n\r\n")));
    assert!(row_fits(&one_row(2, b"^FROM$", None), &invite(b"from: a\r\n\r\n")));
    assert!(!row_fits(&one_row(2, b"from", Some(b"joe")), &invite(b"From: JOE\r\n\r\n")));
    let body = |lines: &[u8]| invite(&[b"c: application/sdp\r\n\r\n", lines].concat());
    assert!(!row_fits(&one_row(4, b"m", None), &body(b"M=a\r\n")));
    assert!(row_fits(&one_row(4, b"M", None), &body(b"M=a\r\n")));
    assert!(!row_fits(&one_row(4, b"m", Some(b"A")), &body(b"m=a\r\n")));
    assert!(row_fits(&one_row(4, b"m", Some(b"a")), &body(b"m=a\r\n")));
    assert!(!row_fits(&one_row(0, b"sip:B", None), BARE));
    assert!(row_fits(&one_row(0, b"sip:b", None), BARE));
}

/// "A RequestURI and a server are nonempty": nothing else is asked of their bytes.
#[test]
fn strings_of_any_bytes() {
    assert_eq!(check_draft(&one_row(0, b"a b\x00\xFF", None)), (0, 0));
}

/// "Registration set ... 0..6"; "for REGISTER with a nonempty set the registration type must
/// also be in it".
#[test]
fn every_set() {
    for set in 0..7u8 {
        let mut draft = Draft::new();
        let row = draft.text_row(1, b"REGISTER", None);
        draft.single(1, with_set(row, set));
        let fitting: Vec<u32> =
            (0..3).filter(|&kind| list(&draft.bytes(), REGISTER, 0, kind, 1).2[1] == 1).collect();
        let expected: [&[u32]; 7] = [&[0, 1, 2], &[0], &[1], &[0, 1], &[2], &[0, 2], &[1, 2]];
        assert_eq!(fitting, expected[set as usize], "set {set}");
    }
}

/// "The head runs to the first CR LF CR LF; the body is all after it and never causes a
/// refusal."
#[test]
fn head_and_body() {
    let text = invite(b"c: application/sdp\r\n\r\n\r\n\r\nb=c\x00\x7F\r");
    let request = second::request::read(&text).expect("readable");
    assert_eq!(request.fields.len(), 1);
    let [line] = request.session_lines() else { panic!("one line") };
    assert_eq!((line.kind, &line.value[..]), (b'b', b"c\x00\x7F\r".as_slice()));
    for cut in [b"".as_slice(), b"X: a\r\n", b"X: a\r\n\r", b"X: a\n\n", b"X: a\r\n\n", b"X: a\nY: b\r\n\r\n"]
    {
        assert!(!readable(&invite(cut)), "{}", cut.escape_ascii());
    }
}

/// Folds, white space and cutting.
#[test]
fn values_as_they_are_matched() {
    assert_eq!(values(b"X: a\r\n\tb\r\n \t c  \r\n\r\n"), [b"a b c"]);
    assert_eq!(values(b"X:  a , \t b,c \r\n\r\n"), [b"a", b"b", b"c"]);
    assert_eq!(values(b"X: <a\\>,b>\r\n\r\n"), [b"<a\\>".as_slice(), b"b>"]);
    assert_eq!(values(b"X: \"a<b\",c>,d\r\n\r\n"), [b"\"a<b\"".as_slice(), b"c>", b"d"]);
    assert_eq!(values(b"X: <a,b>, \"c,d\"\r\n\r\n"), [b"<a,b>".as_slice(), b"\"c,d\""]);
    assert_eq!(values(b"X-Subject: a,b\r\n\r\n"), [b"a", b"b"]);
    assert_eq!(values(b"Subject-X: a,b\r\n\r\n"), [b"a", b"b"]);
}

/// Which bytes stand where in the head, byte by byte. "Token bytes are those of RFC 3261."
#[test]
fn every_byte_of_the_head() {
    const TOKEN: &[u8] = b"-.!%*_+`'~0123456789abcdefghijklmnopqrstuvwxyzABCDEFGHIJKLMNOPQRSTUVWXYZ";
    for byte in 0..=255u8 {
        let with = |before: &[u8], after: &[u8]| readable(&[before, &[byte], after].concat());
        let token = TOKEN.contains(&byte);
        assert_eq!(with(b"A", b"A sip:b SIP/2.0\r\n\r\n"), token, "method {byte}");
        let colon = byte == b':';
        assert_eq!(with(b"A sip:b SIP/2.0\r\nX", b"Y: a\r\n\r\n"), token || colon, "name {byte}");
        assert_eq!(with(b"A sip", b"b SIP/2.0\r\n\r\n"), (33..=126).contains(&byte), "URI {byte}");
        let value = byte == b'\t' || byte >= 32 && byte != 127;
        assert_eq!(with(b"A sip:b SIP/2.0\r\nX: a", b"b\r\n\r\n"), value, "value {byte}");
        assert_eq!(with(b"A sip:b SIP/2.0\r\nX: a\r\n b", b"\r\n\r\n"), value, "folded {byte}");
        assert!(with(b"A sip:b SIP/2.0\r\n\r\n", b""), "body {byte}");
    }
}

/// "In every group of the trigger's rows at least one row fits"; "groups belong to one trigger
/// only".
#[test]
fn groups() {
    let fits = |rows: &[(u16, &[u16])], count: usize, form: u8| {
        let mut draft = Draft::new();
        rows.iter().for_each(|&(case, groups)| draft.add_row(case_row(case), groups));
        draft.criterion(1, form, count).first_row = 0;
        row_fits(&draft, BARE)
    };
    let (yes, no) = (0, 1);
    assert!(fits(&[(yes, &[0]), (no, &[1])], 1, CNF), "another trigger's group");
    assert!(!fits(&[(yes, &[0]), (no, &[1])], 2, CNF));
    assert!(fits(&[(yes, &[0]), (no, &[1])], 2, DNF));
    assert!(!fits(&[(yes, &[0]), (no, &[0, 1])], 2, CNF), "a row in two groups");
    assert!(fits(&[(yes, &[0, 1]), (no, &[0])], 2, DNF), "a row in two groups");
    assert!(fits(&[(yes, &[0, 1]), (no, &[0]), (no, &[1])], 3, CNF));
    assert!(!fits(&[(yes, &[0, 1]), (no, &[0]), (no, &[1])], 3, DNF));
}

/// "Every row once with no skipping."
#[test]
fn trials_do_not_stop() {
    for form in [DNF, CNF] {
        for case in [0, 1] {
            let mut draft = Draft::new();
            (0..5).for_each(|_| draft.add_row(case_row(case), &[0]));
            draft.criterion(1, form, 5);
            assert_eq!(advance(&draft.bytes(), BARE, READY).trials, 5);
        }
    }
}

/// "Criteria with priority above the last one forwarded (all, if none), smallest first."
#[test]
fn priorities() {
    let mut draft = Draft::new();
    for priority in [0x8000_0000, 0, 1] {
        draft.criterion(priority, DNF, 0);
    }
    let image = draft.bytes();
    let next = |session| {
        let answer = advance(&image, BARE, session);
        (answer.outcome, answer.criterion, answer.priority, answer.examined)
    };
    let after = |last| Session { forwarded: 1, last, ..READY };
    assert_eq!(next(READY), (1, 1, 0, 1));
    assert_eq!(next(after(0)), (1, 2, 1, 1));
    assert_eq!(next(after(1)), (1, 0, 0x8000_0000, 1));
    assert_eq!(next(after(0x8000_0000)), (2, 0, 0, 0));
    let (number, list, _) = list(&image, REGISTER, 0, 0, 3);
    assert_eq!((number, list), (0, vec![1, 2, 0]));
}

/// "Over one image of n criteria a session forwards at most n times", here every one of them.
#[test]
fn a_walk_over_64_criteria() {
    let mut draft = Draft::new();
    for number in 0..64 {
        draft.criterion(number * 37 % 64, DNF, 0);
    }
    let image = draft.bytes();
    let mut session = READY;
    for priority in 0..64 {
        let forwarded = advance(&image, BARE, session);
        assert_eq!((forwarded.outcome, forwarded.priority), (1, priority));
        assert_eq!(forwarded.criterion * 37 % 64, priority);
        assert_eq!(report(forwarded.session, 0), (0, 0));
        session = Session { state: 0, ..forwarded.session };
    }
    assert_eq!(advance(&image, BARE, session).outcome, 2);
}

/// The request with each SP of its values written as another run.
fn rewritten(random: &mut Random, request: &[u8]) -> Vec<u8> {
    let end = request.windows(4).position(|four| four == b"\r\n\r\n").expect("a head");
    let lines = request[..end].split_inclusive(|&byte| byte == b'\n');
    let mut other = Vec::new();
    for (number, line) in lines.enumerate() {
        let folded = line.starts_with(b" ") || line.starts_with(b"\t");
        let colon = line.iter().position(|&byte| byte == b':');
        // A fold keeps its first byte: an empty line would end the head.
        let value = if folded { 1 } else { colon.map_or(line.len(), |colon| colon + 1) };
        for (place, byte) in line.iter().enumerate() {
            let run = *random.pick(&[b" ".as_slice(), b"\t", b"  \t", b" \r\n ", b"\r\n\t\r\n "]);
            let written = number > 0 && place >= value && *byte == b' ';
            other.extend(if written { run } else { std::slice::from_ref(byte) });
        }
    }
    other.extend(&request[end..]);
    other
}

/// "Each inner run of SP, HTAB and line folds becomes one SP": how a run is written changes no
/// answer.
#[test]
fn runs_are_equal() {
    let mut random = Random::new(21);
    let mut changed = 0;
    for _ in 0..2_000 {
        let request = lean::request(&mut random, b"INVITE");
        let image = lean::image(&mut random, &request, 0).bytes();
        let other = rewritten(&mut random, &request);
        let shown = other.escape_ascii();
        assert_eq!(advance(&image, &request, READY), advance(&image, &other, READY), "{shown}");
        changed += (request != other) as u32;
    }
    assert!(changed > 1_000, "{changed} requests are written otherwise");
}

/// "Criterion's number from 0 in the image."
#[test]
fn lookups_by_number() {
    let mut draft = Draft::new();
    let other = draft.string(b"sip:other");
    draft.criterion(9, DNF, 0).server = other;
    draft.criterion(3, DNF, 0);
    let image = draft.bytes();
    assert_eq!(server(&image, 0).1, [0, draft.string_place(1) as u32 + 2, 9]);
    assert_eq!(server(&image, 1).1, [0, draft.string_place(0) as u32 + 2, 5]);
}

/// A refusal leaves the session as it went in.
#[test]
fn refusals_keep_the_session() {
    for state in 0..6 {
        let session = Session { case: 2, state, forwarded: 1, last: 7, handling: 0 };
        if state != 1 {
            assert_eq!(report(session, 0), (10, state));
        }
        assert_eq!(advance(&[], BARE, session).session, session);
    }
    let waiting = Session { case: 2, state: 1, forwarded: 1, last: 7, handling: 0 };
    assert_eq!(report(waiting, 3), (8, 1));
}

/// "Otherwise the count is 1..32 and the rows lie in the table."
#[test]
fn trigger_rows() {
    let mut draft = Draft::new();
    (0..40).for_each(|_| draft.add_row(case_row(0), &[0]));
    draft.criterion(1, DNF, 1).first_row = 0;
    for count in 0..41 {
        draft.criteria[0].row_count = count;
        let right = (1..=32).contains(&count);
        let expected = if right { (0, 0) } else { (4, draft.criterion_place(0) as u32 + 8) };
        assert_eq!(check_draft(&draft), expected, "{count} rows");
    }
}

/// 60 repeating elements on the longest text: no way of the matcher may be exponential.
#[test]
fn the_longest_match_ends() {
    let pattern = [b"^".to_vec(), b"a*".repeat(60), b"$".to_vec()].concat();
    let mut text = vec![b'a'; 65_535];
    assert!(fits(&pattern, &text));
    text[65_534] = b'b';
    assert!(!fits(&pattern, &text));
}
