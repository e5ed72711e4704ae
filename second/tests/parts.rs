//! The parts of requests and the ends of their heads, counted by hand.

use second::parts::{counts, requests, PLACES};

#[test]
fn parts_of_a_request() {
    let fields = "Via: a, b\r\nSubject: a, b\r\nX:\r\n \"c, d\", <e,f>,\r\n";
    let request =
        |kind: &str| format!("INVITE sip:b SIP/2.0\r\n{fields}{kind}\r\nv=0\r\nno\nm=").into_bytes();
    // Via 2, Subject 1 (never cut), X 3 (the last is empty), Content-Type 1; v and m.
    assert_eq!(counts(&request("Content-Type: application/sdp\r\n")), [0, 4, 7, 2, 98]);
    // The body is no session description.
    assert_eq!(counts(&request("Content-Type: text/plain\r\n")), [0, 4, 7, 0, 93]);
    assert_eq!(counts(&request("c: application/sdp,\r\n")), [0, 4, 8, 0, 88]);
    assert_eq!(counts(&request("")), [0, 3, 6, 0, 67]);
    // s is Subject and never cut; f and From are two fields.
    assert_eq!(counts(b"INVITE sip:b SIP/2.0\r\ns: a, b\r\nf: a, b\r\nFrom: c\r\n\r\n"), [0, 3, 4, 0, 47]);
    assert_eq!(counts(b"INVITE sip:b SIP/2.0\r\n\r\n"), [0, 0, 0, 0, 20]);
    assert_eq!(counts(b"INVITE sip:b SIP/2.0\r\nX: a\r\n"), [7, 0, 0, 0, 28]);
}

/// Texts and where their first CR LF CR LF stands, or their length.
#[rustfmt::skip]
const ENDS: &[(&[u8], u32)] = &[
    (b"", 0), (b"\r", 1), (b"\r\n", 2), (b"\r\n\r", 3), (b"\r\n\r\n", 0), (b"a\r\n\r\n", 1), (b"aa\r\n\r\n", 2),
    (b"\r\r\n\r\n", 1), (b"a\r\r\n\r\n", 2), (b"\n\r\n\r\n", 1), (b"\r\n\r\r\n\r\n", 3), (b"a\r\n\r\r\n\r\n", 4),
    (b"aa\r\n\r", 5), (b"aaa\r\n\r", 6), (b"\r\n\r\n\r\n", 0), (b"a\r\n\r\na\r\n\r\n", 1), (b"\n\r\n\r", 4), (b"\r\na\r\n\r\n", 3),
];

#[test]
fn ends_of_heads() {
    let made = requests(1, 0);
    for &(text, end) in ENDS {
        assert_eq!(counts(text), [7, 0, 0, 0, end], "{}", text.escape_ascii());
        assert!(text.len() > 7 || made.iter().any(|request| request == text), "{}", text.escape_ascii());
    }
}

#[test]
fn heads_of_made_requests_end_at_every_place() {
    let mut read = vec![false; PLACES];
    let mut found = vec![false; PLACES];
    for request in requests(1, 0) {
        let [refusal, .., head] = counts(&request);
        if (head as usize) < PLACES && request.len() > head as usize {
            found[head as usize] = true;
            read[head as usize] |= refusal == 0;
        }
    }
    assert!(found.iter().all(|&found| found));
    // The shortest start line has 11 bytes.
    assert!(read[11..].iter().all(|&read| read));
}

#[test]
fn made_requests_are_of_both_kinds() {
    let made = requests(1, 2_000);
    let random = &made[made.len() - 2_000..];
    let readable = random.iter().filter(|request| counts(request)[0] == 0).count();
    assert!((500..1_800).contains(&readable), "{readable} of 2,000");
    assert!(made.iter().any(|request| counts(request)[0] == 0 && request.len() == 65_535));
    let with_lines = random.iter().filter(|request| counts(request)[3] > 0).count();
    assert!(with_lines * 3 >= readable, "{with_lines} of {readable}");
}
