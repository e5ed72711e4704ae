//! Requests written for each sentence about them, readable and not.

use super::build;
use super::draft::{Draft, ABSENT};
use crate::case::Case;
use crate::request;

/// What stands after the start line's CR LF, up to the end of the request.
#[rustfmt::skip]
pub const WRITTEN: &[&[u8]] = &[
    // Lines of the head: names, colons, folds, bytes, the end (R2 to R6, R18, R19).
    b"\r\n", b"From: joe\r\n\r\n", b"From:joe\r\n\r\n", b"From : joe\r\n\r\n", b"From \t : joe\r\n\r\n",
    b"From\r\n : joe\r\n\r\n", b"From: joe\r\n\tann\r\n  bob\r\n\r\n", b"From:\r\n joe\r\n\r\n",
    b"From: joe\r\n \r\n\r\n", b"From: joe\r\n \t \r\n ann\r\n\r\n", b"From:\r\n \r\n\t\r\n\r\n",
    b"From:\r\n\r\n", b"From: \r\n\r\n", b"X:a\r\nX:b\r\n\r\n", b" X: a\r\n\r\n", b"\tX: a\r\n\r\n",
    b" \r\n\r\n", b": a\r\n\r\n", b" : a\r\n\r\n", b"X\r\n\r\n", b"X Y: a\r\n\r\n", b"X\tY: a\r\n\r\n",
    b"X: a\r\nY\r\n\r\n", b"X: a:b\r\n\r\n", b"X:: a\r\n\r\n", b"X@: a\r\n\r\n", b"X/Y: a\r\n\r\n",
    b"X\"Y\": a\r\n\r\n", b"X(: a\r\n\r\n", b"-.!%*_+`'~09azAZ: a\r\n\r\n", b"X\x80: a\r\n\r\n",
    b"X: \x80\xFF\xA0\r\n\r\n", b"X: a\r\n \xC3\xA4\r\n\r\n", b"X: a\x7F\r\n\r\n", b"X: a\x00b\r\n\r\n",
    b"X: \x1F\r\n\r\n", b"X: a\x0Bb\r\n\r\n", b"X: a\rb\r\n\r\n", b"X: a\nb\r\n\r\n",
    b"X: a\n b\r\n\r\n", b"X: a\r\r\n\r\n", b"X: a\n\r\n\r\n", b"X: a\r\n\r\r\n\r\n",
    b"X: a\r\n\n\r\n\r\n", b"X: a\n\n", b"X: a\r\n", b"X: a\r\n\r", b"X: a\r\n\n", b"", b"\r", b"\n",
    b"\n\r\n", b"\r\n\r\n", b"\r\nX: a\r\n\r\n", b"X: a\r\n\r\n\r\n\r\nb=c",
    b"X: a\r\nc: application/sdp\r\n\r\nb=c\r\n\r\nd=e", b"X:  a  b \t c  \r\n\r\n", b"X: a\t\tb\r\n\r\n",
    b"X: \xA0a\xA0\r\n\r\n", b"Content-Length: 0\r\nc: application/sdp\r\n\r\nv=0\r\n",
    b"X: a\r\nc: application/sdp\r\n\r\nv=0\r\no=-\r\ns= \r\n",
    b"From: joe\r\nFrom: ann\r\nTo: joe\r\n\r\n", b"From: ann, joe\r\n\r\n",
    // Values and where they are cut (R7 to R11).
    b"X: a", b"X: a,b\r\n\r\n", b"X: a , b\r\n\r\n", b"X: a,\r\n\r\n", b"X: ,a\r\n\r\n",
    b"X: ,\r\n\r\n", b"X: ,,\r\n\r\n", b"X: a,,b\r\n\r\n", b"X: a, ,b\r\n\r\n", b"X: a,\r\n b\r\n\r\n",
    b"X: a\r\n ,b\r\n\r\n", b"X: \"a,b\",c\r\n\r\n", b"X: \"a,b\r\n\r\n", b"X: a,\"b,c\r\n\r\n",
    b"X: \"a\\\",b\",c\r\n\r\n", b"X: \"a\\\\\",b\r\n\r\n", b"X: \"a\\,b\",c\r\n\r\n",
    b"X: a\\,b\r\n\r\n", b"X: \\\"a,b\\\"\r\n\r\n", b"X: \\\"a,b\r\n\r\n", b"X: \"a\\\r\n\r\n",
    b"X: \"a\\  \",b\"\r\n\r\n", b"X: \"a   b\",\"c\td\"\r\n\r\n", b"X: \"a\r\n b\"\r\n\r\n",
    b"X: \" a \"\r\n\r\n", b"X: \"a<b\",c>,d\r\n\r\n", b"X: <a,b>,c\r\n\r\n", b"X: <a,b\r\n\r\n",
    b"X: a,<b,c\r\n\r\n", b"X: <a\"b>,c\"d\r\n\r\n", b"X: <a<b>,c>\r\n\r\n", b"X: <a\\>,b>\r\n\r\n",
    b"X: a>b,c\r\n\r\n", b"X: <>,a\r\n\r\n", b"X: \"\",a\r\n\r\n", b"X: (a,b),c\r\n\r\n",
    b"X: (a\\),b\r\n\r\n", b"X: < a ,  b >\r\n\r\n", b"X: \"a\"\"b,c\"\r\n\r\n",
    b"X: a\"b,c\"d,e\r\n\r\n", b"X: \"Joe, A\" <sip:joe@a;b=\"c,d\">;tag=1, <sip:b,c>\r\n\r\n",
    b"X: \"<\",\">\"\r\n\r\n", b"X: '<',b\r\n\r\n", b"X: \\<a,b>\r\n\r\n", b"X: <\"a,b\">,c\r\n\r\n",
    // Names never cut (R12, 1.3).
    b"Authorization: a,b\r\n\r\n", b"Proxy-Authorization: a,b\r\n\r\n",
    b"WWW-Authenticate: a,b\r\n\r\n", b"Proxy-Authenticate: a,b\r\n\r\n", b"Date: a,b\r\n\r\n",
    b"Subject: a,b\r\n\r\n", b"AUTHORIZATION: a,b\r\n\r\n", b"proxy-authorization: a,b\r\n\r\n",
    b"www-AUTHENTICATE: a,b\r\n\r\n", b"pROXY-aUTHENTICATE: a,b\r\n\r\n", b"DATE: a,b\r\n\r\n",
    b"subject : a , \"b\r\n\r\n", b"Subject:  a \t , \r\n b  \r\n\r\n", b"Subject:\r\n\r\n",
    b"s: a,b\r\n\r\n", b"S: a,b\r\n\r\n", b"s :  a \t , \r\n b  \r\n\r\n", b"ss: a,b\r\n\r\n",
    b"X-Subject: a,b\r\n\r\n", b"Subject-X: a,b\r\n\r\n",
    b"Up-Date: a,b\r\n\r\n", b"Authentication-Info: a,b\r\n\r\n", b"Dat: a,b\r\n\r\n",
    b"Date: Sat, 13 Nov 2010\r\nSubject: a, b\r\nX: a, b\r\nContent-Type: application/sdp\r\n\r\nv=0\r\n",
    // Short names (1.1 to 1.7).
    b"f: a,b\r\n\r\n", b"F : a\r\nFrom: b\r\n\r\n", b"v: a\r\nv: b\r\nVia: c\r\n\r\n", b"o: a,b\r\n\r\n",
    b"f\r\n : a\r\n\r\n", b"s@: a,b\r\n\r\n", b"f g: a\r\n\r\n",
    b"i:a\r\nm:a\r\ne:a\r\nl:a\r\nc:a\r\nf:a\r\ns:a\r\nk:a\r\nt:a\r\nv:a\r\n\r\ns=a\r\n",
];

/// Bodies (R13 to R16), each behind every head of `TYPES`.
#[rustfmt::skip]
pub const BODIES: &[&[u8]] = &[
    b"v=0\no=1\n", b"v=0\ro=1\r", b"v=0\r\r\no=1\r\r", b"v=0\r", b"=x\r\n==y\r\n=\r\n", b"a=\r\na=",
    b"a\r\n=\r\nab=c\r\n\r\n\n", b"\r=a\n\x00=b\n\xFF=c\n =d\n", b"a=b=c\r\n", b"a= b \t\r\n", b"v=0\r\n\r\nv=1",
    b"x=\x00\xFF\r\n", b"=", b"==", b"M=a\r\nm=b\r\n", b" a=b\r\n", b"a=b\n\r", b"a=b\n\r\r=c", b"",
];

/// The body is a session description, is none, has no Content-Type.
const TYPES: &[&[u8]] = &[b"c: application/sdp\r\n", b"c: text/plain\r\n", b""];

/// Whole requests: the start line in every shape.
#[rustfmt::skip]
pub const START_LINES: &[&[u8]] = &[
    b"@ sip:b SIP/2.0", b"@  sip:b SIP/2.0", b"@ sip:b  SIP/2.0", b"@ sip:b SIP/2.0 ",
    b" @ sip:b SIP/2.0", b"@\tsip:b SIP/2.0", b"@ sip:b\tSIP/2.0", b"@ sip:b sip/2.0",
    b"@ sip:b sIp/2.0", b"@ sip:b SIP/2.1", b"@ sip:b SIP/2.00", b"@ sip:b SIP", b"@ sip:b", b"@",
    b"@ SIP/2.0", b"@  SIP/2.0", b"@ \"<>\\{}|^ SIP/2.0", b"@ ! SIP/2.0", b"@ ~ SIP/2.0",
    b"@ sip:\x80 SIP/2.0", b"@ sip:\x7F SIP/2.0", b"@ sip:\x1F SIP/2.0", b"@ a b SIP/2.0",
    b"@/ sip:b SIP/2.0", b"@\x80 sip:b SIP/2.0", b"-.!%*_+`'~ sip:b SIP/2.0", b"( sip:b SIP/2.0",
    b" sip:b SIP/2.0", b"@ sip:b SIP/2.0\r", b"@ sip:b SIP/2.0\n", b"\r\n@ sip:b SIP/2.0",
    b"\r\n\r\n@ sip:b SIP/2.0", b"@ sip:b SIP/2.0\t", b"", b"a@ sip:b SIP/2.0", b"@: sip:b SIP/2.0",
    b"@ sip:b SIP/2.0\x00", b"@ SIP:B SIP/2.0", b"@ sip:b \xD3IP/2.0",
];

pub fn cases() -> Vec<Case> {
    let mut cases = Vec::new();
    for method in ["INVITE", "REGISTER"] {
        let start = format!("{method} sip:b SIP/2.0\r\n");
        for rest in WRITTEN {
            cases.extend(probed(&[start.as_bytes(), rest].concat()));
        }
        for body in BODIES {
            for kind in TYPES {
                cases.extend(probed(&[start.as_bytes(), kind, b"\r\n", body].concat()));
            }
        }
        for line in START_LINES {
            let line = replaced(line, method.as_bytes());
            cases.extend(probed(&[&line, b"\r\nX: a\r\n\r\n".as_slice()].concat()));
            cases.extend(probed(&[&line, b"\r\n\r\n".as_slice()].concat()));
        }
    }
    cases.extend(every_byte());
    cases
}

fn replaced(line: &[u8], method: &[u8]) -> Vec<u8> {
    line.iter().flat_map(|&byte| if byte == b'@' { method.to_vec() } else { vec![byte] }).collect()
}

/// Each byte at each place of a head where it is judged.
fn every_byte() -> Vec<Case> {
    let mut cases = Vec::new();
    for byte in 0..=255u8 {
        let byte = [byte];
        let places: [(&[u8], &[u8]); 5] = [
            (b"REGISTER", b" sip:b SIP/2.0\r\nX: a\r\n\r\n"),
            (b"REGISTER sip:", b" SIP/2.0\r\nX: a\r\n\r\n"),
            (b"REGISTER sip:b SIP/2.0\r\nX", b"Y: a\r\n\r\n"),
            (b"REGISTER sip:b SIP/2.0\r\nX: a", b"b\r\n\r\n"),
            (b"REGISTER sip:b SIP/2.0\r\nc: application/sdp\r\n\r\nx", b"=a\n"),
        ];
        for (before, after) in places {
            let request = [before, &byte, after].concat();
            let label = format!("request with byte {} in {}", byte[0], before.escape_ascii());
            cases.push(build::list(&label, &probing_image(&request), &request, 0, 0, 64));
        }
    }
    cases
}

/// Listed and advanced over an image that asks for each of its values.
fn probed(request: &[u8]) -> [Case; 2] {
    let label = format!("request {}", request.escape_ascii());
    let image = probing_image(request);
    [build::list(&label, &image, request, 0, 1, 64), build::advance(&label, &image, request, build::READY)]
}

/// A pattern for exactly this text, or its first 60 bytes.
pub fn exactly(text: &[u8]) -> Vec<u8> {
    let mut pattern = b"^".to_vec();
    for &byte in &text[..text.len().min(60)] {
        if b".[\\*^$".contains(&byte) {
            pattern.push(b'\\');
        }
        pattern.push(byte);
    }
    if text.len() <= 60 {
        pattern.push(b'$');
    }
    pattern
}

/// One criterion for each value of each field and line, so that a listing shows all of them.
fn probing_image(request: &[u8]) -> Vec<u8> {
    let mut draft = Draft::new();
    let mut rows = vec![
        draft.text_row(2, b".", Some(b"[ \t]")),
        draft.text_row(2, b".", Some(b",")),
        draft.text_row(2, b".", Some(b"^a$")),
        draft.text_row(4, b".", Some(b".")),
        draft.text_row(4, b".", Some(b"\r$")),
        draft.text_row(2, b".", None),
        draft.text_row(0, b"sip:b", None),
    ];
    if let Some(request) = request::read(request) {
        for field in &request.fields {
            for value in &field.values {
                rows.push(draft.text_row(2, &exactly(&field.name), Some(&exactly(value))));
            }
        }
        for line in &request.body_lines {
            rows.push(draft.text_row(4, &exactly(&[line.kind]), Some(&exactly(&line.value))));
        }
    }
    rows.truncate(60);
    for (place, row) in rows.into_iter().enumerate() {
        draft.single(100 - place as u32, row);
        draft.criteria[place].information = ABSENT;
    }
    draft.bytes()
}
