//! The readings, point by point: each value here is written in the list of readings. Points 1.1 to 1.7 are those of change
//! request 1, points 5.1 to 5.8 those of change request 5.

mod common;
use common::*;
use second::maker::draft::{case_row, negated, with_set, Draft, CNF, DNF};
use second::session::Session;

const BARE: &[u8] = b"INVITE sip:b SIP/2.0\r\n\r\n";
const REGISTER: &[u8] = b"REGISTER sip:b SIP/2.0\r\n\r\n";

fn all_accepted(patterns: &[&[u8]]) {
    patterns.iter().for_each(|pattern| assert!(accepted(pattern), "{}", pattern.escape_ascii()));
}

fn all_refused(patterns: &[&[u8]]) {
    patterns.iter().for_each(|pattern| assert!(!accepted(pattern), "{}", pattern.escape_ascii()));
}

/// The bytes a one-element pattern meets.
fn met(list: &[u8]) -> Vec<u8> {
    let pattern = [b"^", list, b"$"].concat();
    (0..=255).filter(|&byte| fits(&pattern, &[byte])).collect()
}

#[test]
fn p1_anchors_alone() {
    all_accepted(&[b"^", b"$", b"^$"]);
    assert!(fits(b"^", b"a") && fits(b"$", b"a") && fits(b"^", b"") && fits(b"$", b""));
    assert!(fits(b"^$", b"") && !fits(b"^$", b"a"));
    assert!(!accepted(b""));
}

#[test]
fn p2_anchors_by_place() {
    assert!(fits(b"a\\$", b"a$b"));
    assert!(fits(b"$$", b"a$") && !fits(b"$$", b"$a"));
    assert!(fits(b"^^", b"^a") && !fits(b"^^", b"a^"));
    assert_eq!(met(b"[$]"), b"$");
}

#[test]
fn p3_sixty_elements() {
    let many = |part: &[u8], count: usize| part.repeat(count);
    let anchored = [b"^".to_vec(), many(b"a*", 60), b"$".to_vec()].concat();
    all_accepted(&[&anchored, &many(b"a", 60), &many(b"[a]", 60), &many(b"\\.", 60), &many(b".", 60)]);
    all_refused(&[&many(b"a*", 61), &many(b"a", 61), &many(b"[a]", 61), &many(b"\\.", 61), &many(b".", 61)]);
    let star = |count: usize| [b"*".to_vec(), many(b"a", count)].concat();
    assert!(accepted(&star(59)) && !accepted(&star(60)));
}

#[test]
fn p4_p5_ranges() {
    assert_eq!(met(b"[a-a]"), b"a");
    assert_eq!(met(b"[a-cc-e]"), b"abcde");
    assert_eq!(met(b"[a-cb-e]"), b"abcde");
}

#[test]
fn p6_dash_after_a_range() {
    all_refused(&[b"[a-c-e]", b"[a-c--]", b"[%---/]", b"[----a]"]);
    assert_eq!(met(b"[---a]"), b"-a");
    assert_eq!(met(b"[a-c-]"), b"-abc");
}

#[test]
fn p7_dashes_before_the_close() {
    assert_eq!(met(b"[%--]"), (b'%'..=b'-').collect::<Vec<u8>>());
    assert_eq!(met(b"[+--]"), b"+,-");
    assert!(!accepted(b"[a--]"));
    assert_eq!(met(b"[--]"), b"-");
    assert_eq!(met(b"[---]"), b"-");
    assert_eq!(met(b"[%---]"), (b'%'..=b'-').collect::<Vec<u8>>());
}

#[test]
fn p8_close_in_a_list() {
    assert_eq!(met(b"[]-a]"), (b']'..=b'a').collect::<Vec<u8>>());
    assert!(fits(b"^[]-]]$", b"]]") && fits(b"^[]-]]$", b"-]") && !fits(b"^[]-]]$", b"]"));
    assert!(!accepted(b"[]--]"));
}

#[test]
fn p9_named_classes() {
    all_refused(&[b"[[.]", b"[[=]", b"[[:]", b"[A-[.]", b"[a[:b]", b"[^[.]", b"[[:alpha:]]"]);
    all_accepted(&[b"[.]", b"[=]", b"[:a:]", b"[^.]"]);
    assert_eq!(met(b"[:a:]"), b":a");
}

#[test]
fn p10_p11_ordinary_in_a_list() {
    assert_eq!(met(b"[\\]"), b"\\");
    assert!(fits(b"^[\\]]$", b"\\]"));
    assert_eq!(met(b"[\\-a]"), (b'\\'..=b'a').collect::<Vec<u8>>());
    assert_eq!(met(b"[A-\\]"), (b'A'..=b'\\').collect::<Vec<u8>>());
    assert!(!accepted(b"[a-\\]"));
    assert_eq!(met(b"[[-a]"), (b'['..=b'a').collect::<Vec<u8>>());
    assert!(!met(b"[^^]").contains(&b'^') && met(b"[^^]").contains(&b'a'));
    assert_eq!(met(b"[a^*.$[]"), b"$*.[^a");
}

#[test]
fn p12_stars() {
    assert!(fits(b"^*a", b"*a") && !fits(b"^*a", b"a"));
    assert!(fits(b"^**$", b"***") && fits(b"^**$", b""));
    all_refused(&[b"***", b"^***", b"a**", b"\\***"]);
    assert!(fits(b"^$*x", b"$$x") && fits(b"^a$*$", b"a$$") && fits(b"^a^*$", b"a^^"));
}

#[test]
fn p13_byte_zero() {
    assert_eq!(met(b"\x00"), [0]);
    assert_eq!(met(b"[\x00-\x02]"), [0, 1, 2]);
    assert!(!met(b".").contains(&0) && met(b".").len() == 255);
    assert!(!met(b"[^a]").contains(&0) && met(b"[^a]").len() == 254);
}

#[test]
fn p14_forms_after_negation() {
    assert!(fits_name(b"[^f]", b"f") && fits_name(b"[^a-z]", b"f") && !fits_name(b"[^Ff]", b"f"));
    assert!(!fits_name(b"@", b"`"), "only letters have two forms");
}

#[test]
fn p15_p16_pairs_and_ordinary_bytes() {
    all_accepted(&[b"\\.", b"\\[", b"\\\\", b"\\*", b"\\^", b"\\$"]);
    all_refused(&[b"\\]", b"\\/", b"\\-", b"\\n", b"\\)", b"\\}", b"\\(", b"\\{", b"\\1", b"\\\x80", b"a\\"]);
    for byte in *b"(){}+?|]\x01\x80\xFF" {
        assert_eq!(met(&[byte]), [byte]);
    }
}

/// Rows 0 and 1, criteria 0 (both rows) and 1 (no trigger).
fn small() -> Draft {
    let mut draft = Draft::new();
    draft.add_row(case_row(0), &[0]);
    draft.add_row(case_row(1), &[0]);
    draft.criterion(7, DNF, 2);
    draft.criterion(4, DNF, 0);
    draft
}

fn place(place: usize) -> u32 {
    place as u32
}

#[test]
fn i1_judged_as_soon_as_whole() {
    let mut draft = small();
    draft.rows[0].negated = 9;
    let row = draft.row_place(0);
    assert_eq!(check(&draft.bytes()[..row + 1]), (4, place(row)));
    assert_eq!(check(&draft.bytes()[..row]), (2, place(row)));
}

#[test]
fn i2_order_at_the_group_row_at_the_row() {
    let mut falls = small();
    falls.memberships = vec![(1, 0), (0, 0)];
    let second = falls.membership_place(1);
    assert_eq!(check(&falls.bytes()[..second + 2]), (2, place(second + 2)));
    assert_eq!(check(&falls.bytes()[..second + 4]), (4, place(second)));
    let mut outside = small();
    outside.memberships[1].0 = 2;
    assert_eq!(check(&outside.bytes()[..second + 2]), (4, place(second)));
}

#[test]
fn i3_rows_after_section_three() {
    let mut lacking = small();
    lacking.memberships = vec![(1, 0), (1, 1)];
    let end = lacking.criterion_count_place();
    let row = place(lacking.row_place(0));
    assert_eq!(check(&lacking.bytes()[..end]), (4, row));
    assert_eq!(check(&lacking.bytes()[..end - 1]), (2, place(end - 1)));
    lacking.memberships[1].1 = 0;
    assert_eq!(check_draft(&lacking), (4, place(lacking.membership_place(1))));
    let mut mixed = small();
    mixed.memberships = (0..9).map(|group| (0, group)).collect();
    assert_eq!(check_draft(&mixed), (4, place(mixed.row_place(0))));
    mixed.memberships = (0..9).map(|group| (1, group)).collect();
    assert_eq!(check_draft(&mixed), (4, place(mixed.row_place(0))));
    mixed.memberships.insert(0, (0, 0));
    assert_eq!(check_draft(&mixed), (4, place(mixed.row_place(1))));
}

#[test]
fn i4_counts_before_cuts() {
    assert_eq!(check(&[1, 4, 1]), (4, 1));
    assert_eq!(check(&[1, 0, 0, 8, 1]), (4, 3));
    assert_eq!(check(&[1, 0, 0, 0, 0, 64, 1]), (4, 5));
    assert_eq!(check(&[1, 0, 0, 0, 0, 0, 0, 0, 65]), (4, 7));
}

#[test]
fn i5_rows_outside_at_the_row_count() {
    let mut draft = small();
    draft.criteria[0].first_row = 2;
    let count = draft.criterion_place(0) + 8;
    assert_eq!(check_draft(&draft), (4, place(count)));
    assert_eq!(check(&draft.bytes()[..count + 1]), (2, place(count + 1)));
    draft.criteria[0].first_row = 0;
    for rows in [0, 3, 33] {
        draft.criteria[0].row_count = rows;
        assert_eq!(check_draft(&draft), (4, place(count)));
    }
}

#[test]
fn i6_the_later_of_a_pair() {
    let mut draft = small();
    draft.criteria[1].priority = 7;
    draft.criteria[1].part = 3;
    assert_eq!(check_draft(&draft), (6, place(draft.criterion_place(1))));
    draft.criteria[0].handling = 3;
    assert_eq!(check_draft(&draft), (4, place(draft.criterion_place(0) + 12)));
}

#[test]
fn i7_i8_fields_in_order() {
    let mut draft = small();
    draft.criteria[1].row_count = 1;
    assert_eq!(check_draft(&draft), (4, place(draft.criterion_place(1) + 8)));
    draft.criteria[1].first_row = 1;
    assert_eq!(check_draft(&draft), (4, place(draft.criterion_place(1) + 6)));
    assert_eq!(check(&[1, 0, 1, 4, 1]), (4, 3));
    assert_eq!(check(&[1, 0, 1, 0, 2, 7]), (2, 6));
}

#[test]
fn i9_wrong_string_at_its_field() {
    let mut draft = small();
    let row = draft.text_row(2, b"a**", None);
    draft.add_row(row, &[0]);
    draft.rows[2].second = 99;
    draft.rows[2].set = 7;
    let first = place(draft.row_place(2) + 2);
    assert_eq!(check_draft(&draft), (5, first));
    draft.memberships.reverse();
    assert_eq!(check_draft(&draft), (5, first));
    assert_eq!(check(&draft.bytes()[..first as usize + 2]), (5, first));
    draft.rows[2].first = 99;
    assert_eq!(check_draft(&draft), (4, first));
}

#[test]
fn i10_to_i22() {
    let mut draft = small();
    draft.strings.extend([b"[unused".to_vec(), Vec::new(), b"\x00\x80 ".to_vec()]);
    draft.criteria[0].information = 2;
    draft.criteria[1].information = 1;
    draft.criteria[0].server = 3;
    draft.criteria[0].handling = 2;
    assert_eq!(check_draft(&draft), (0, 0));
    draft.tail = vec![0; 5];
    assert_eq!(check_draft(&draft), (3, place(draft.end())));
    assert_eq!(check(&[]), (2, 0));
    let mut wrapping = small();
    wrapping.criteria[0].first_row = 65_535;
    wrapping.criteria[0].row_count = 1;
    assert_eq!(check_draft(&wrapping), (4, place(wrapping.criterion_place(0) + 8)));
    let mut equal = small();
    equal.memberships = vec![(0, 0), (0, 0), (1, 0)];
    assert_eq!(check_draft(&equal), (4, place(equal.membership_place(1))));
    let cut = small().criterion_place(1) + 3;
    let mut priority = small();
    priority.criteria[1].priority = 7;
    assert_eq!(check(&priority.bytes()[..cut]), (2, place(cut)));
    let mut set = small();
    set.rows[0].set = 7;
    assert_eq!(check_draft(&set), (4, place(set.row_place(0) + 6)));
}

#[test]
fn r1_the_limit_is_on_the_request() {
    let sized = |size: usize| {
        let mut request = BARE.to_vec();
        request.resize(size, b'\n');
        request
    };
    assert!(readable(&sized(65_535)));
    assert!(!readable(&sized(65_536)));
}

#[test]
fn r2_to_r6_lines_of_the_head() {
    assert!(!readable(&[b"\r\n", BARE].concat()));
    assert!(!readable(&invite(b"X: a\r\r\n\r\n")) && !readable(&invite(b"X: a\n\r\n\r\n")));
    assert_eq!(values(b"X: a\r\n \t\r\n b\r\n\r\n"), [b"a b"]);
    assert_eq!(values(b"X:\r\n \r\n\r\n"), [b""]);
    assert!(!readable(&invite(b" \r\n\r\n")) && !readable(&invite(b" X: a\r\n\r\n")));
    assert!(readable(&invite(b"X \t: a\r\n\r\n")));
    for wrong in
        [b"X\r\n : a\r\n\r\n".as_slice(), b": a\r\n\r\n", b" : a\r\n\r\n", b"X Y: a\r\n\r\n", b"X\r\n\r\n"]
    {
        assert!(!readable(&invite(wrong)), "{}", wrong.escape_ascii());
    }
}

#[test]
fn r7_to_r11_cutting() {
    assert_eq!(values(b"X: \"a   b\"\r\n\r\n"), [b"\"a b\""]);
    assert_eq!(values(b"X: a\\,b\r\n\r\n"), [b"a\\".as_slice(), b"b"]);
    assert_eq!(values(b"X: \\\"a,b\r\n\r\n"), [b"\\\"a,b"]);
    assert_eq!(values(b"X: <a\"b>,c\"d\r\n\r\n"), [b"<a\"b>".as_slice(), b"c\"d"]);
    assert_eq!(values(b"X: <a<b>,c>\r\n\r\n"), [b"<a<b>".as_slice(), b"c>"]);
    assert_eq!(values(b"X: (a,b)\r\n\r\n"), [b"(a".as_slice(), b"b)"]);
    assert_eq!(values(b"X: a,\"b,c\r\n\r\n"), [b"a".as_slice(), b"\"b,c"]);
    assert_eq!(values(b"X: a,<b,c\r\n\r\n"), [b"a".as_slice(), b"<b,c"]);
    assert_eq!(values(b"X: \"a\\\",b\",c\r\n\r\n"), [b"\"a\\\",b\"".as_slice(), b"c"]);
    assert_eq!(values(b"X:\r\n\r\n"), [b""]);
    assert_eq!(values(b"X: a,\r\n\r\n"), [b"a".as_slice(), b""]);
    assert_eq!(values(b"X: ,\r\n\r\n"), [b"", b""]);
}

#[test]
fn r12_never_cut() {
    for name in
        ["Authorization", "PROXY-authorization", "www-authenticate", "Proxy-Authenticate", "date", "SUBJECT"]
    {
        assert_eq!(values(format!("{name}: a ,\t b\r\n\r\n").as_bytes()), [b"a , b"], "{name}");
    }
}

/// A name as it is matched.
fn long(written: &str) -> String {
    let request =
        second::request::read(&invite(format!("{written}: a\r\n\r\n").as_bytes())).expect("readable");
    String::from_utf8(request.fields[0].name.clone()).expect("a token")
}

/// Whether a row of this Header pattern fits, and its trials.
fn header(pattern: &[u8], content: Option<&[u8]>, rest: &[u8]) -> (bool, u32) {
    let mut draft = Draft::new();
    let row = draft.text_row(2, pattern, content);
    draft.single(1, row);
    let answer = advance(&draft.bytes(), &invite(rest), READY);
    (answer.outcome == 1, answer.trials)
}

#[test]
fn cr1_1_the_written_name_is_not_tried() {
    for name in ["f", "F", "From"] {
        let rest = format!("{name}: joe\r\n\r\n");
        for (pattern, met) in
            [(b"^From$".as_slice(), true), (b"^F", true), (b"om$", true), (b"^f$", false), (b"^.$", false)]
        {
            let shown = pattern.escape_ascii();
            assert_eq!(header(pattern, None, rest.as_bytes()), (met, 1), "{shown} on {name}");
        }
    }
    let mut draft = Draft::new();
    let row = draft.text_row(2, b"^f$", Some(b"joe"));
    draft.single(1, negated(row));
    assert!(row_fits(&draft, &invite(b"f: joe\r\n\r\n")));
}

#[test]
fn cr1_2_which_names() {
    let listed = [
        ("i", "Call-ID"),
        ("m", "Contact"),
        ("e", "Content-Encoding"),
        ("l", "Content-Length"),
        ("c", "Content-Type"),
        ("f", "From"),
        ("s", "Subject"),
        ("k", "Supported"),
        ("t", "To"),
        ("v", "Via"),
    ];
    for (short, name) in listed {
        assert_eq!(long(short), name);
        assert_eq!(long(&short.to_uppercase()), name);
    }
    for byte in (33..127u8).filter(|&byte| second::token::is_token_byte(byte)) {
        let name = char::from(byte).to_string();
        let short = listed.iter().any(|(short, _)| *short == name.to_lowercase());
        assert_eq!(long(&name) == name, !short, "{name}");
    }
    for stays in ["o", "u", "r", "x", "j", "O", "ff", "f-", "-f", "fF", "from", "Subjec"] {
        assert_eq!(long(stays), stays);
    }
}

#[test]
fn cr1_3_short_subject_is_never_cut() {
    for name in ["s", "S", "s ", "S\t"] {
        assert_eq!(values(format!("{name}:  a ,\t b\r\n\r\n").as_bytes()), [b"a , b"], "{name}");
    }
    for name in ["i", "m", "e", "l", "c", "f", "k", "t", "v", "F", "d", "a", "ss", "s-"] {
        assert_eq!(values(format!("{name}: a ,\t b\r\n\r\n").as_bytes()), [b"a", b"b"], "{name}");
    }
    assert_eq!(header(b"^Subject$", Some(b"^a, b$"), b"s: a,  b\r\n\r\n"), (true, 2));
    assert_eq!(header(b"^To$", Some(b"^b$"), b"t: a,  b\r\n\r\n"), (true, 3));
}

#[test]
fn cr1_5_short_and_long_are_two_fields() {
    let both = b"f: joe, ann\r\nX: a\r\nFrom: bob\r\n\r\n";
    assert_eq!(header(b"^From$", None, both), (true, 3));
    assert_eq!(header(b"^From$", Some(b"bob"), both), (true, 3 + 2 + 1));
    assert_eq!(header(b"^From$", Some(b"joe.*bob"), both), (false, 3 + 2 + 1));
    assert_eq!(header(b"^f$", Some(b"joe"), both), (false, 3));
}

#[test]
fn cr1_7_blanks_before_the_colon() {
    for name in ["f ", "F\t", "f \t "] {
        assert_eq!(long(name), "From", "{name}");
    }
    assert!(!readable(&invite(b"f\r\n : a\r\n\r\n")));
}

fn lines(body: &[u8]) -> Vec<(u8, Vec<u8>)> {
    let request = [b"INVITE sip:b SIP/2.0\r\nContent-Type: application/sdp\r\n\r\n", body].concat();
    let request = second::request::read(&request).expect("readable");
    request.session_lines().iter().map(|line| (line.kind, line.value.clone())).collect()
}

#[test]
fn r13_last_line_without_lf() {
    assert_eq!(lines(b"a=b\r"), [(b'a', b"b\r".to_vec())]);
    assert_eq!(lines(b"a=b\r\n"), [(b'a', b"b".to_vec())]);
    assert_eq!(lines(b"a=b"), [(b'a', b"b".to_vec())]);
}

#[test]
fn r14_to_r16_body_lines() {
    assert_eq!(lines(b"a=b\r\r\n"), [(b'a', b"b\r".to_vec())]);
    assert_eq!(lines(b"a=b\rc=d\n"), [(b'a', b"b\rc=d".to_vec())]);
    assert_eq!(
        lines(b"==x\n\r=y\n\x00=\n\xFF=z"),
        [(b'=', b"x".to_vec()), (b'\r', b"y".to_vec()), (0, Vec::new()), (255, b"z".to_vec()),]
    );
    assert_eq!(lines(b"=\n=\r\nab=c\n\n"), []);
}

/// Whether the body has session lines under these fields.
fn described(fields: &[u8]) -> bool {
    let request = second::request::read(&invite(&[fields, b"\r\nm=x\r\n"].concat())).expect("readable");
    assert!([0, 1].contains(&request.session_lines().len()));
    request.session_lines().len() == 1
}

fn described_as(value: &str) -> bool {
    let both = ["Content-Type", "c"].map(|name| described(format!("{name}:{value}\r\n").as_bytes()));
    assert_eq!(both[0], both[1], "{value}");
    both[0]
}

#[test]
fn cr5_1_which_field() {
    for name in
        ["Content-Type", "CONTENT-TYPE", "content-type", "cOnTeNt-TyPe", "c", "C", "c ", "Content-Type\t"]
    {
        assert!(described(format!("{name}: application/sdp\r\n").as_bytes()), "{name}");
    }
    for name in ["X-Content-Type", "Content-Types", "Content-Typ", "cc", "c-", "e", "m", "Accept"] {
        assert!(!described(format!("{name}: application/sdp\r\n").as_bytes()), "{name}");
        let both = format!("{name}: text/plain\r\nc: application/sdp\r\n");
        assert!(described(both.as_bytes()), "{name} beside c");
    }
}

#[test]
fn cr5_2_one_value() {
    for value in
        ["application/sdp,", ",application/sdp", "application/sdp;a,b", "application/sdp,application/sdp"]
    {
        assert!(!described_as(value), "{value}");
    }
    assert!(described_as("application/sdp;a=\"x,y\""));
    assert!(described_as("application/sdp;a=<x,y>"));
    assert!(!described_as(""));
    assert_eq!(values(b"Content-Type:\r\n\r\n"), [b""]);
}

#[test]
fn cr5_3_two_fields() {
    let right = b"Content-Type: application/sdp\r\n".as_slice();
    for other in [right, b"c: application/sdp\r\n", b"c: text/plain\r\n", b"C:\r\n"] {
        assert!(!described(&[right, other].concat()), "{}", other.escape_ascii());
        assert!(!described(&[other, right].concat()), "{}", other.escape_ascii());
    }
    assert!(!described(&right.repeat(3)));
}

#[test]
fn cr5_4_none() {
    assert!(!described(b""));
    assert!(!described(b"To: application/sdp\r\n"));
}

#[test]
fn cr5_5_up_to_the_first_semicolon() {
    for value in [
        "application/sdp",
        "Application/SDP",
        "application/sdp;charset=utf-8",
        "application/sdp ;x",
        " \tapplication/sdp\t;x;y",
        "application/sdp;",
        "\r\n application/sdp\r\n ;x",
    ] {
        assert!(described_as(value), "{value}");
    }
    for value in [
        "application / sdp",
        "application/sdpx",
        "application/sdp x",
        "\"application/sdp\"",
        "<application/sdp>",
        "\"application/sdp;\"",
        "application/sdp\";x\"",
        ";application/sdp",
        "application/sd",
        "application/\r\n sdp",
        "text/sdp",
    ] {
        assert!(!described_as(value), "{value}");
    }
}

/// Whether a line row fits, and its trials.
fn line_row(content: Option<&[u8]>, turned: bool, fields: &[u8]) -> (bool, u32) {
    let mut draft = Draft::new();
    let row = draft.text_row(4, b"m", content);
    draft.single(1, if turned { negated(row) } else { row });
    let request = invite(&[fields, b"\r\nv=0\r\nm=x\r\nno field\r\nm=y\r\n"].concat());
    let answer = advance(&draft.bytes(), &request, READY);
    (answer.outcome == 1, answer.trials)
}

#[test]
fn cr5_6_no_lines_no_trials() {
    let right = b"c: application/sdp\r\n".as_slice();
    assert_eq!(line_row(None, false, right), (true, 3));
    assert_eq!(line_row(Some(b"x"), false, right), (true, 3 + 2));
    assert_eq!(line_row(Some(b"x"), true, right), (false, 3 + 2));
    for other in [b"".as_slice(), b"c: text/plain\r\n", b"c: application/sdp\r\nc: application/sdp\r\n"] {
        for content in [None, Some(b"x".as_slice())] {
            assert_eq!(line_row(content, false, other), (false, 0), "{}", other.escape_ascii());
            assert_eq!(line_row(content, true, other), (true, 0), "{}", other.escape_ascii());
        }
    }
}

#[test]
fn cr5_7_never_a_refusal() {
    assert!(readable(&invite(b"c: text/plain\r\n\r\n\x00\xFF\r=\n")));
    assert!(readable(&invite(b"c: a\r\nc: b\r\n\r\nm=x")));
}

#[test]
fn r17_to_r19_bytes() {
    for line in ["INVITE \"<> SIP/2.0", "INVITE sip:b sip/2.0"] {
        assert!(readable(format!("{line}\r\n\r\n").as_bytes()), "{line}");
    }
    for line in [
        "INVITE  b SIP/2.0",
        "INVITE b SIP/2.0 ",
        " INVITE b SIP/2.0",
        "INVITE\tb SIP/2.0",
        "INVITE  SIP/2.0",
    ] {
        assert!(!readable(format!("{line}\r\n\r\n").as_bytes()), "{line}");
    }
    assert_eq!(values(b"X: \xA0a\r\n \x80\r\n\r\n"), [b"\xA0a \x80"]);
    assert!(!readable(&invite(b"X: a\x7F\r\n\r\n")) && !readable(&invite(b"X\x80: a\r\n\r\n")));
    assert!(!readable(b"INVITE sip:\x80 SIP/2.0\r\n\r\n"));
}

#[test]
fn f1_no_trigger_no_trial() {
    let mut none = Draft::new();
    none.criterion(1, DNF, 0);
    assert_eq!(advance(&none.bytes(), BARE, READY).trials, 0);
}

#[test]
fn f2_examined_whatever_the_part() {
    let mut draft = Draft::new();
    draft.add_row(case_row(0), &[0]);
    for (priority, part) in [(1, 1), (2, 1), (3, 0)] {
        draft.criterion(priority, DNF, 1).part = part;
    }
    let first = advance(&draft.bytes(), BARE, READY);
    assert_eq!((first.criterion, first.examined, first.trials), (2, 3, 1));
    let unregistered = advance(&draft.bytes(), BARE, Session { case: 3, ..READY });
    assert_eq!((unregistered.outcome, unregistered.examined, unregistered.trials), (2, 3, 2));
}

#[test]
fn f3_f4_every_row_once() {
    let mut draft = Draft::new();
    let row = draft.text_row(2, b"X", Some(b"a"));
    draft.add_row(row, &[0, 1, 2]);
    draft.criterion(1, DNF, 1);
    draft.criterion(2, CNF, 1);
    let image = draft.bytes();
    let request = b"REGISTER sip:b SIP/2.0\r\nX: a, b, c\r\nX: a\r\n\r\n";
    let (number, _, [_, count, examined, trials]) = list(&image, request, 0, 0, 2);
    assert_eq!((number, count, examined, trials), (0, 2, 2, 2 * (2 + 4)));
}

#[test]
fn f5_f6_nothing_to_try_and_groups() {
    let mut draft = Draft::new();
    let row = draft.text_row(2, b"X", Some(b"a"));
    draft.single(1, row);
    let none = advance(&draft.bytes(), BARE, READY);
    assert_eq!((none.outcome, none.trials), (2, 0));
    let mut groups = Draft::new();
    groups.add_row(case_row(1), &[0]);
    groups.add_row(case_row(0), &[0]);
    groups.criterion(1, DNF, 1);
    assert!(row_fits(&groups, BARE));
}

#[test]
fn f7_register_by_its_bytes() {
    let mut draft = Draft::new();
    let row = draft.text_row(1, b"register", None);
    draft.single(1, with_set(row, 2));
    let image = draft.bytes();
    let lower = b"register sip:b SIP/2.0\r\n\r\n";
    assert_eq!(advance(&image, lower, READY).outcome, 1);
    assert_eq!(list(&image, lower, 0, 0, 1).0, 11);
    assert_eq!(advance(&image, REGISTER, READY).number, 11);
    assert_eq!(list(&image, REGISTER, 0, 0, 1).2[1], 0);
}

#[test]
fn f8_set_then_negation() {
    let mut draft = Draft::new();
    let row = draft.text_row(1, b"REGISTER", None);
    draft.single(1, negated(with_set(row, 1)));
    let image = draft.bytes();
    assert_eq!(list(&image, REGISTER, 0, 0, 1).2[1], 0);
    assert_eq!(list(&image, REGISTER, 0, 1, 1).2[1], 1);
}

#[test]
fn f10_parts_by_case() {
    for part in 0..3 {
        let mut draft = Draft::new();
        draft.criterion(1, DNF, 0).part = part;
        let fitting: Vec<u32> = (0..4)
            .filter(|&case| advance(&draft.bytes(), BARE, Session { case, ..READY }).outcome == 1)
            .collect();
        let expected: &[u32] = [&[0, 1][..], &[2, 3], &[0, 1, 2, 3]][part as usize];
        assert_eq!(fitting, expected);
    }
}

const FORWARDED: Session = Session { case: 0, state: 0, forwarded: 1, last: 5, handling: 1 };

#[test]
fn s1_records() {
    let image = Draft::new().bytes();
    let advanced = |session| advance(&image, BARE, session).number;
    assert_eq!(advanced(READY), 0);
    assert_eq!(advanced(FORWARDED), 0);
    assert_eq!(advanced(Session { forwarded: 2, ..FORWARDED }), 10);
    assert_eq!(report(Session { state: 1, ..READY }, 0).0, 10);
    assert_eq!(report(Session { state: 1, ..FORWARDED }, 0), (0, 0));
    for state in 1..6 {
        assert_eq!(advanced(Session { state, ..FORWARDED }), 10);
    }
}

#[test]
fn s2_a_route_keeps_the_rest() {
    let routed = advance(&Draft::new().bytes(), BARE, FORWARDED);
    assert_eq!(routed.session, Session { state: 2, ..FORWARDED });
}

#[test]
fn s3_absent_default_handling() {
    let mut draft = Draft::new();
    draft.criterion(5, DNF, 0).handling = 2;
    let forwarded = advance(&draft.bytes(), BARE, READY).session;
    assert_eq!(forwarded.handling, 0);
    assert_eq!(report(forwarded, 1), (0, 0));
    assert_eq!(advance(&draft.bytes(), BARE, Session { handling: 2, ..FORWARDED }).number, 10);
    assert_eq!(report(Session { state: 1, handling: 2, ..FORWARDED }, 0).0, 10);
}

/// The record is refused with 10 and stays as it went in, all other answers 0.
fn refused_record(session: Session) {
    let refused = advance(&Draft::new().bytes(), BARE, session);
    assert_eq!((refused.number, refused.session), (10, session));
    assert_eq!((refused.place, refused.outcome, refused.criterion), (0, 0, 0));
    assert_eq!((refused.priority, refused.examined, refused.trials), (0, 0, 0));
}

#[test]
fn s4_nothing_forwarded() {
    refused_record(Session { last: 1, ..READY });
    refused_record(Session { handling: 1, ..READY });
}

#[test]
fn s5_a_record_of_case_4() {
    refused_record(Session { case: 4, ..READY });
    refused_record(Session { case: 4, ..FORWARDED });
    assert_eq!(report(Session { case: 4, state: 1, ..FORWARDED }, 0).0, 10);
}

#[test]
fn s7_report_above_2_when_not_waiting() {
    assert_eq!(report(READY, 3).0, 10);
}

#[test]
fn s9_the_highest_priority_leaves_none() {
    let mut draft = Draft::new();
    draft.criterion(u32::MAX, DNF, 0);
    let image = draft.bytes();
    assert_eq!(advance(&image, BARE, Session { last: u32::MAX - 1, ..FORWARDED }).outcome, 1);
    assert_eq!(advance(&image, BARE, Session { last: u32::MAX, ..FORWARDED }).outcome, 2);
}

#[test]
fn s12_refused_opening() {
    use second::{case, maker::build};
    let opened = |case| case::answer(&build::open("", case));
    assert_eq!((opened(4).number, opened(4).numbers[1..].to_vec()), (8, vec![0, 2, 0, 0, 0]));
    assert_eq!((opened(3).number, opened(3).numbers[1..].to_vec()), (0, vec![3, 0, 0, 0, 0]));
}

#[test]
fn l1_l2_l3_places_and_types() {
    let empty = Draft::new().bytes();
    assert_eq!(list(&empty, REGISTER, 0, 0, 0), (0, Vec::new(), [0; 4]));
    assert_eq!(list(&empty, REGISTER, 0, 3, 0).0, 9);
    let mut draft = Draft::new();
    draft.criterion(1, DNF, 0);
    let (number, after, numbers) = list(&draft.bytes(), REGISTER, 0, 0, 200);
    assert_eq!((number, numbers), (0, [0, 1, 1, 0]));
    assert_eq!((after[0], &after[1..]), (0, &places_before(200)[1..]));
}

#[test]
fn l5_empty_information_is_present() {
    let mut draft = Draft::new();
    draft.strings.push(Vec::new());
    draft.criterion(1, DNF, 0).information = 1;
    draft.criterion(2, DNF, 0);
    let image = draft.bytes();
    assert_eq!(information(&image, 0), (0, [0, 1, place(draft.string_place(1) + 2), 0]));
    assert_eq!(information(&image, 1), (0, [0, 0, 0, 0]));
}

#[test]
fn l4_l7_lookups() {
    let mut draft = Draft::new();
    draft.criterion(1, DNF, 0).part = 3;
    let fault = place(draft.criterion_place(0) + 4);
    assert_eq!(server(&draft.bytes(), 9), (4, [fault, 0, 0]));
    assert_eq!(information(&draft.bytes(), 9), (4, [fault, 0, 0, 0]));
    draft.criteria[0].part = 2;
    assert_eq!(server(&draft.bytes(), 1), (13, [0, 0, 0]));
    assert_eq!(server(&draft.bytes(), 256), (13, [0, 0, 0]));
}
