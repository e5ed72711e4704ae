//! Content-Type fields: what stands behind the name, and names that are one or only look so.

use super::random::Random;

/// One value that names a session description; each with the point that says so.
pub const RIGHT: &[(&str, &[u8])] = &[
    ("5.5", b": application/sdp"),
    ("5.5", b":application/sdp"),
    ("5.5", b":\t application/sdp \t"),
    ("5.5", b": Application/SDP"),
    ("5.5", b": APPLICATION/sdp;x"),
    ("5.5", b": application/sdp;charset=utf-8"),
    ("5.5", b": application/sdp ;x"),
    ("5.5", b": application/sdp\t; x"),
    ("5.5", b": application/sdp;"),
    ("5.5", b": application/sdp;;"),
    ("5.5", b": application/sdp;a;b=c"),
    ("5.5", b": application/sdp ;application/sdp"),
    ("5.5", b": application/sdp;text/plain"),
    ("5.2", b": application/sdp;a=\"x,y\""),
    ("5.2", b": application/sdp;a=\"x\\\",y\""),
    ("5.2", b": application/sdp;a=<x,y>;b"),
    ("5.2", b": application/sdp;a=\"x,"),
    ("5.5", b":\r\n application/sdp"),
    ("5.5", b": application/sdp\r\n ;x"),
    ("5.5", b":\r\n\tapplication/sdp \r\n \r\n\t ; x\r\n y"),
    ("5.5", b": application/sdp;\xC3\xA4"),
];

/// No such value, or more than one.
pub const WRONG: &[(&str, &[u8])] = &[
    ("5.2", b":"),
    ("5.2", b": \r\n "),
    ("5.5", b": ;"),
    ("5.5", b": ;application/sdp"),
    ("5.2", b": application/sdp,"),
    ("5.2", b": application/sdp ,"),
    ("5.2", b": ,application/sdp"),
    ("5.2", b": application/sdp,application/sdp"),
    ("5.2", b": application/sdp, text/plain"),
    ("5.2", b": text/plain, application/sdp"),
    ("5.2", b": application/sdp;a,b"),
    ("5.2", b": application/sdp;a=\"x\",b"),
    ("5.2", b": application/sdp;a=\"x\\\\\",y\""),
    ("5.2", b": application/sdp;,"),
    ("5.2", b": ,"),
    ("5.5", b": application/sdpx"),
    ("5.5", b": application/sdp+xml;x"),
    ("5.5", b": application/sd"),
    ("5.5", b": application/sdp/"),
    ("5.5", b": xapplication/sdp"),
    ("5.5", b": application/x-application/sdp"),
    ("5.5", b": application / sdp"),
    ("5.5", b": application/ sdp"),
    ("5.5", b": application\r\n /sdp;x"),
    ("5.5", b": appli cation/sdp"),
    ("5.5", b": \"application/sdp\""),
    ("5.5", b": \"application/sdp\";x"),
    ("5.5", b": <application/sdp>"),
    ("5.5", b": \"application/sdp;\""),
    ("5.5", b": application/sdp\";x\""),
    ("5.5", b": application/sdp x"),
    ("5.5", b": application/sdp\r\n x;y"),
    ("5.5", b": x application/sdp"),
    ("5.5", b": application/sdp(c)"),
    ("5.5", b": application:sdp"),
    ("5.5", b": application"),
    ("5.5", b": sdp"),
    ("5.5", b": text/sdp"),
    ("5.5", b": text/plain"),
    ("5.5", b": application/pidf+xml"),
    ("5.5", b": application/cpim-pidf+xml;charset=utf-8"),
    ("5.5", b": multipart/mixed;boundary=application/sdp"),
    ("5.5", b": application/sdp\xA0"),
    ("5.5", b": \xC1pplication/sdp"),
];

/// "Content-Type field": the name in any case, and the short one.
pub const NAMES: &[&str] =
    &["Content-Type", "content-type", "CONTENT-TYPE", "cONTENT-tYPE", "c", "C", "Content-Type ", "c\t "];

/// Others that only look so.
pub const OTHER_NAMES: &[&str] = &[
    "Content-Types",
    "Content-Typ",
    "X-Content-Type",
    "Content_Type",
    "ContentType",
    "Content-Type-",
    "Content-Length",
    "Content-Encoding",
    "Content-Disposition",
    "Accept",
    "Type",
    "cc",
    "c-",
    "-c",
    "e",
    "l",
    "m",
    "s",
    "%43",
];

/// A field of this name, with what stands behind it.
pub fn field(name: &str, behind: &[u8]) -> Vec<u8> {
    [name.as_bytes(), behind, b"\r\n"].concat()
}

/// A right field.
pub fn right(random: &mut Random) -> Vec<u8> {
    let name = *random.pick(NAMES);
    field(name, random.pick(RIGHT).1)
}

/// None, a wrong one, or several of any kind.
pub fn other(random: &mut Random) -> Vec<Vec<u8>> {
    let any = |random: &mut Random| {
        let behind = if random.chance(2, 3) { random.pick(RIGHT).1 } else { random.pick(WRONG).1 };
        let name = if random.chance(5, 6) { *random.pick(NAMES) } else { *random.pick(OTHER_NAMES) };
        field(name, behind)
    };
    match random.below(4) {
        0 => Vec::new(),
        1 => {
            let name = *random.pick(NAMES);
            vec![field(name, random.pick(WRONG).1)]
        }
        2 => {
            let name = *random.pick(OTHER_NAMES);
            vec![field(name, random.pick(RIGHT).1)]
        }
        _ => (0..random.between(2, 3)).map(|_| any(random)).collect(),
    }
}
