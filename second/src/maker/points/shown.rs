//! The readings about showing: which field, value and part set off a row, and what is refused.

use crate::case::Case;
use crate::maker::build::{show, INVITE, REGISTER};
use crate::maker::draft::{case_row, negated, with_set, Draft, CNF, DNF};
use crate::maker::types::{OTHER_NAMES, RIGHT, WRONG};

pub fn cases() -> Vec<Case> {
    let mut cases = every_kind();
    cases.extend(every_place());
    cases.extend(fields_and_values());
    cases.extend(body_lines());
    cases.extend(other_bodies());
    cases.extend(row_numbers());
    cases.extend(refusals());
    cases.extend(large_numbers());
    cases.extend(a_recorder());
    cases
}

fn invite(head: &[u8], body: &[u8]) -> Vec<u8> {
    [b"INVITE sip:b SIP/2.0\r\n", head, b"\r\n", body].concat()
}

fn described(body: &[u8]) -> Vec<u8> {
    invite(b"c: application/sdp\r\n", body)
}

type Asked<'a> = (u8, &'a [u8], Option<&'a [u8]>);

/// A row of each, plain and negated, that no criterion uses.
fn asking(rows: &[Asked]) -> Draft {
    let mut draft = Draft::new();
    for &(kind, first, second) in rows {
        let row = draft.text_row(kind, first, second);
        draft.add_row(row, &[0]);
        draft.add_row(negated(row), &[1]);
    }
    draft
}

/// Every row of the image, on this request.
fn all_rows(label: &str, draft: &Draft, request: &[u8]) -> Vec<Case> {
    let image = draft.bytes();
    (0..draft.rows.len() as u32).map(|row| show(label, &image, request, row)).collect()
}

/// "For a SIPHeader or SessionDescription row"; "another kind: none". Each negated too, used and unused.
fn every_kind() -> Vec<Case> {
    let mut draft = asking(&[
        (0, b"sip:b", None),
        (0, b"sip:", None),
        (1, b"INVITE", None),
        (1, b"REGISTER", None),
        (2, b"^From$", None),
        (2, b"^From$", Some(b"o")),
        (2, b"^From$", Some(b"ann")),
        (2, b"^Nobody$", None),
        (4, b"^m$", None),
        (4, b"^m$", Some(b"d.*")),
        (4, b"^m$", Some(b"video")),
        (4, b"^z$", None),
    ]);
    for case in 0..4 {
        draft.add_row(case_row(case), &[0]);
        draft.add_row(negated(case_row(case)), &[0]);
    }
    let method = draft.text_row(1, b"REGISTER", None);
    draft.add_row(with_set(method, 5), &[0]);
    let header = draft.text_row(2, b"^From$", Some(b"o"));
    draft.add_row(with_set(header, 3), &[0]);
    let mut used = draft.clone();
    used.criterion(5, DNF, 8).part = 1;
    used.criterion(6, CNF, 30);
    let bare: &[u8] = b"INVITE sip:b SIP/2.0\r\n\r\n";
    let mut cases = Vec::new();
    for request in [INVITE, REGISTER, bare] {
        cases.extend(all_rows("2.9: every kind", &draft, request));
        cases.extend(all_rows("2.9: every kind, used rows", &used, request));
    }
    cases
}

const PATTERNS: &[&[u8]] = &[
    b"a*",
    b"$",
    b"^",
    b"b*$",
    b"^$",
    b"a",
    b"aa*",
    b"a.*a",
    b"[ab]*c",
    b".*",
    b".",
    b"^a*",
    b"a*$",
    b"ab*",
    b"b*",
    b"a*b*",
    b"^.",
    b".$",
    b"^b*",
    b"^.*$",
    b"..",
    b"a*a",
    b"a*ab",
    b"[^a]",
    b"[^a]*",
    b"c*b",
    b"b.*",
    b"a.b",
    b"joe",
    b"o*e",
    b"^a*b*$",
    b"\xC3",
    b"[\x80-\xFF]*",
    b"a*\\.",
    b"aaaaa",
    b"x*y*z*",
    b"ab*c*a",
];

const TEXTS: &[&[u8]] = &[
    b"",
    b"a",
    b"b",
    b"ab",
    b"ba",
    b"baa",
    b"aab",
    b"abab",
    b"xabaay",
    b"bbaacc",
    b"abcabc",
    b"aaaa",
    b"ccba",
    b"a.b.a",
    b"xjoe joejoe",
    b"sip:joe@home",
    b"b aa b aaa",
    b"\xC3\xA4a\xC3\xA4",
    b"acacab",
    b"bcaabbaaab",
];

/// "The smallest start, and of those the longest length": each pattern on each text, as a value and as a line.
fn every_place() -> Vec<Case> {
    let rows = |kind: u8, first: &'static [u8]| -> Draft {
        let rows: Vec<Asked> = PATTERNS.iter().map(|&pattern| (kind, first, Some(pattern))).collect();
        asking(&rows)
    };
    let (headers, lines) = (rows(2, b"^X$"), rows(4, b"^x$"));
    let mut cases = Vec::new();
    for text in TEXTS {
        let label = format!("2.3: on {}", text.escape_ascii());
        let head = [b"X: ", *text, b"\r\n"].concat();
        let on_header = all_rows(&label, &headers, &invite(&head, b""));
        let on_line = all_rows(&label, &lines, &described(&[b"x=", *text].concat()));
        cases.extend(on_header.into_iter().step_by(2));
        cases.extend(on_line.into_iter().step_by(2));
    }
    for text in [b"\x00a\x00aa".as_slice(), b"a\rb", b" a b ", b"\ta", b"a=b", b",a, a", b"\"a,b\"a"] {
        let label = format!("2.3: on {}", text.escape_ascii());
        let on_line = all_rows(&label, &lines, &described(&[b"x=", text, b"\n"].concat()));
        cases.extend(on_line.into_iter().step_by(2));
    }
    cases
}

/// Several fields and values: which is first, how they are counted, and where in a value the place stands.
fn fields_and_values() -> Vec<Case> {
    let draft = asking(&[
        (2, b"^From$", Some(b"joe")),
        (2, b"^From$", None),
        (2, b"^f$", Some(b"joe")),
        (2, b"From", Some(b"joe")),
        (2, b"^To$", Some(b"joe")),
        (2, b"^X$", Some(b"joe")),
        (2, b"^X$", Some(b"^joe$")),
        (2, b"^X$", Some(b"^$")),
        (2, b"^X$", Some(b"b.*")),
        (2, b"^X$", Some(b",")),
        (2, b"^X$", Some(b" ")),
        (2, b"^X$", Some(b"JOE")),
        (2, b"^X$", None),
        (2, b"^Subject$", Some(b"joe")),
        (2, b"^Subject$", Some(b", *[a-z]*")),
        (2, b"^authorization$", Some(b"c.*")),
        (2, b".", Some(b"joe")),
        (2, b".", Some(b"o*$")),
        (2, b"[ft]", Some(b"^j")),
    ]);
    let points: [(&str, &[&[u8]]); 4] = [
        (
            "2.5",
            &[
                b"From: ann\r\nTo: joe\r\nFrom: joe\r\n",
                b"From: ann, bob\r\nf: x, joe, joe\r\nFrom: joe\r\n",
                b"X: 1\r\nX: joe\r\nX: joe\r\n",
                b"To: joe\r\nX-From-Id: joe\r\nfrom: joe\r\n",
                b"X: ann\r\nX: bob\r\n",
                b"T: ann\r\nF: joe joe\r\nt: joejoe\r\n",
            ],
        ),
        (
            "2.2",
            &[
                b"X: ,, joe ,\r\n",
                b"X: ,\r\n",
                b"X:\r\n",
                b"A: 1\r\nB: 2, 3\r\nX: b, , joe\r\n",
                b"X: \"a, joe\" <b,joe>, joe\r\n",
                b"X: \"joe\\\", x\", <\",joe>, joe\r\n",
                b"X: a \"joe, b\r\n",
                b"Via: a, b, c\r\nVia: d\r\nX: a, joe\r\n",
            ],
        ),
        (
            "2.1",
            &[
                b"X: ann, bob,   big joe , joe\r\n",
                b"X:   joe\r\n",
                b"X:\t a  \t joe\r\n",
                b"X: a\r\n \r\n\tb   joe\r\n b,joe\r\n",
                b"X :joe\r\n",
                b"X: ann ,joe\r\n",
                b"X: \"  joe\"\r\n",
                b"X: <a ,\t joe>\r\n",
            ],
        ),
        (
            "2.4",
            &[
                b"Subject: a ,  joe, b\r\n",
                b"s: ann,joe\r\n",
                b"S :  ,\t joe\r\n",
                b"AUTHORIZATION: a, b ,  c, joe\r\n",
                b"X: JOE\r\n",
                b"x: Joe, JOE, joe\r\n",
                b"f:\r\nX: a long value that is not shown, b\r\n",
                b"",
            ],
        ),
    ];
    let mut cases = Vec::new();
    for (point, heads) in points {
        for head in heads {
            cases.extend(all_rows(&format!("{point}: fields and values"), &draft, &invite(head, b"")));
        }
    }
    cases
}

fn asking_lines() -> Draft {
    asking(&[
        (4, b"^m$", None),
        (4, b"^m$", Some(b"audio")),
        (4, b"^a$", Some(b"^$")),
        (4, b"^a$", Some(b"x*")),
        (4, b"^a$", Some(b"\r$")),
        (4, b"^[am]$", Some(b"o.*")),
        (4, b".", None),
        (4, b".", Some(b"$")),
        (4, b"=", None),
        (4, b"^M$", Some(b".")),
        (4, b"a", Some(b" b")),
    ])
}

/// "Line that is a field", "counted from 0": others are not counted.
fn body_lines() -> Vec<Case> {
    let draft = asking_lines();
    let bodies: [&[u8]; 12] = [
        b"v=0\r\nm=audio 1\r\na=x\r\n",
        b"v=0\r\nno field\r\n\r\nm\r\n=\r\nm=audio\r\n",
        b"x\r\n\r\nm=video\r\ny\r\nm=audio\r\nz\r\nm=audio audio\r\n",
        b"==a\r\n=x\r\na=\r\n",
        b"a=b\r\r\na=\r\nm=",
        b"a=yxx\nm=audio",
        b"a=xx\r",
        b"m=audio, b\r\na=a, b\r\n",
        b"\n\n\nM=audio\n",
        b"a= b \na=\x00o\xFF\n",
        b"",
        b"no field at all",
    ];
    bodies.iter().flat_map(|body| all_rows("2.2: lines", &draft, &described(body))).collect()
}

/// Where the body is no session description, no line is shown.
fn other_bodies() -> Vec<Case> {
    let draft = asking_lines();
    let image = draft.bytes();
    let body = b"no field\r\nm=audio 1\r\na=\r\n";
    let mut heads: Vec<Vec<u8>> = Vec::new();
    for (_, behind) in RIGHT.iter().chain(WRONG) {
        heads.push([b"Content-Type", *behind, b"\r\n"].concat());
    }
    for name in OTHER_NAMES {
        heads.push(format!("{name}: application/sdp\r\n").into_bytes());
    }
    heads.push(b"c: application/sdp\r\nContent-Type: application/sdp\r\n".to_vec());
    heads.push(Vec::new());
    let mut cases = Vec::new();
    for head in heads {
        for row in [0, 1, 3, 4] {
            cases.push(show("5.9: another body", &image, &invite(&head, body), row));
        }
    }
    cases
}

/// "13 for a row number outside the table": at its end, beyond, and where fewer bits would be inside.
fn row_numbers() -> Vec<Case> {
    let few = asking(&[(2, b"^From$", Some(b"o")), (4, b"m", None), (1, b"INVITE", None)]);
    let mut many = Draft::new();
    let row = many.text_row(2, b"^From$", Some(b"o"));
    let other = many.text_row(2, b"^From$", Some(b"e"));
    for number in 0..2_048 {
        many.add_row(if number % 256 == 255 { other } else { row }, &[0]);
    }
    many.criterion(1, DNF, 3).first_row = 300;
    let numbers =
        [0, 1, 2, 3, 4, 5, 6, 7, 8, 254, 255, 256, 257, 300, 302, 303, 511, 2_046, 2_047, 2_048, 2_049];
    let large = [65_534, 65_535, 65_536, 65_537, 65_541, 0x7FFF_FFFF, 0x8000_0000, u32::MAX - 1, u32::MAX];
    let mut cases = Vec::new();
    for draft in [few, many, Draft::new()] {
        let image = draft.bytes();
        for row in numbers.into_iter().chain(large) {
            cases.push(show("2.11: row numbers", &image, INVITE, row));
        }
    }
    cases
}

/// "After the image and request checks"; a REGISTER may be asked, and neither case nor type is given.
fn refusals() -> Vec<Case> {
    let right = asking(&[(2, b"^From$", Some(b"o")), (1, b"REGISTER", None)]);
    let mut faulty = right.clone();
    faulty.tail.push(0);
    let mut wrong = right.clone();
    wrong.rows[3].set = 7;
    let unreadable: &[u8] = b"INVITE sip:b SIP/2.0\n\n";
    let long = {
        let mut request = INVITE.to_vec();
        request.resize(65_536, b'y');
        request
    };
    let mut cases = Vec::new();
    for draft in [&right, &faulty, &wrong] {
        for request in [INVITE, REGISTER, unreadable, b"", &long] {
            for row in [0, 1, 3, 4, u32::MAX] {
                cases.push(show("2.8: refusals", &draft.bytes(), request, row));
            }
        }
    }
    for image in [vec![0; 32_769], Vec::new()] {
        for request in [INVITE, unreadable] {
            cases.push(show("2.8: refusals", &image, request, 0));
        }
    }
    cases
}

/// Numbers that do not fit in a byte, and almost as large as they can be.
fn large_numbers() -> Vec<Case> {
    let draft = asking(&[
        (2, b"^X$", Some(b"joe*")),
        (2, b"^X$", Some(b"jo*")),
        (2, b"^X$", None),
        (4, b"^m$", Some(b"joe*")),
        (4, b"^m$", None),
    ]);
    let image = draft.bytes();
    let mut cases = Vec::new();
    for count in [0, 1, 79, 80, 81, 255, 256, 257, 300, 9_000] {
        let requests = [
            invite(&[b"Y:\r\n".repeat(count), b"X: joe\r\n".to_vec()].concat(), b""),
            invite(&[b"X: ".to_vec(), b"a,".repeat(count), b"joe\r\n".to_vec()].concat(), b""),
            invite(&[b"X: ".to_vec(), b"a".repeat(count), b"joe\r\n".to_vec()].concat(), b""),
            invite(&[b"X: jo".to_vec(), b"o".repeat(count), b"x, joe\r\n".to_vec()].concat(), b""),
            invite(&[b"X: jo".to_vec(), b"e".repeat(count), b"x, joe\r\n".to_vec()].concat(), b""),
            described(&[b"a=\n".repeat(count), b"m=joe".to_vec()].concat()),
            described(&[b"m=".to_vec(), b"a".repeat(count), b"joee".to_vec()].concat()),
        ];
        for request in requests {
            for row in (0..draft.rows.len() as u32).step_by(2) {
                cases.push(show(&format!("2.3: {count} before"), &image, &request, row));
            }
        }
    }
    cases
}

/// What the request was made for: why the recorder was asked, and why not where its trigger has a negated row.
fn a_recorder() -> Vec<Case> {
    let mut draft = Draft::new();
    let rows = [
        draft.text_row(1, b"INVITE", None),
        draft.text_row(4, b"^m$", Some(b"^audio ")),
        draft.text_row(2, b"^From$", Some(b"sip:desk[0-9]*@")),
    ];
    for (group, row) in rows.into_iter().enumerate() {
        draft.add_row(row, &[group as u16]);
    }
    let test = draft.text_row(2, b"^X-Test-Call$", None);
    draft.add_row(negated(test), &[3]);
    draft.criterion(10, CNF, 4).handling = 1;
    let heads: [&[u8]; 5] = [
        b"From: \"Desk 14\" <sip:desk14@desk.example>;tag=1\r\n",
        b"f: <sip:joe@bank.example>, <sip:desk7@desk.example>\r\n",
        b"X-Test-Call: 1\r\nFrom: <sip:desk14@desk.example>\r\n",
        b"From: <sip:joe@bank.example>\r\nTo: <sip:desk14@desk.example>\r\n",
        b"",
    ];
    let mut cases = Vec::new();
    for head in heads {
        for kind in ["application/sdp", "application/pidf+xml"] {
            let head = [b"Content-Type: ", kind.as_bytes(), b"\r\n", head].concat();
            let request = invite(&head, b"v=0\r\nm=video 2\r\nm=audio 1 RTP/AVP 8\r\n");
            cases.extend(all_rows("2.6: a recorder", &draft, &request));
        }
    }
    cases
}
