//! Demand 3: two readable requests that agree in what a profile asks for get the same answers.

mod common;
use common::*;
use second::image;
use second::maker::{lean, random::Random};
use second::matching::{matches, Letters};
use second::profile::{Profile, Test};
use second::request;
use second::session::Session;

fn asks_for_body(profile: &Profile) -> bool {
    profile.rows.iter().any(|row| matches!(row.test, Test::SessionDescription { .. }))
}

fn asked_by_header(profile: &Profile, name: &[u8]) -> bool {
    profile.rows.iter().any(|row| match &row.test {
        Test::SipHeader { name: pattern, .. } => matches(pattern, name, Letters::EitherForm),
        _ => false,
    })
}

/// "The values of fields whose name some Header pattern of the profile meets"; "the Content-Type value joins the
/// agreed parts when the profile has any session description row", used or not (5.8).
fn asked(profile: &Profile, name: &[u8]) -> bool {
    asked_by_header(profile, name) || asks_for_body(profile) && name.eq_ignore_ascii_case(b"Content-Type")
}

/// The lines of the head, folds joined to theirs, and the body.
fn taken_apart(text: &[u8]) -> (Vec<Vec<u8>>, Vec<u8>) {
    let end = text.windows(4).position(|four| four == b"\r\n\r\n").expect("a head");
    let mut lines: Vec<Vec<u8>> = Vec::new();
    for line in text[..end + 2].split_inclusive(|&byte| byte == b'\n') {
        match line[0] {
            b' ' | b'\t' => lines.last_mut().expect("a line before a fold").extend(line),
            _ => lines.push(line.to_vec()),
        }
    }
    (lines, text[end + 4..].to_vec())
}

const VALUES: &[&str] =
    &["", " joe", " application/sdp", " text/plain", " a, b", ":\"q", " Application/SDP;x", " ,"];
const BODIES: &[&str] = &["", "m=audio 49170 RTP/AVP 0\r\n", "v=0\r\nm=x\r\na=z", "no field", "\r\n\r\n"];

/// The request with every value that `keeps` does not keep written anew, and the body too if it may change.
fn changed(random: &mut Random, text: &[u8], keeps: impl Fn(&[u8]) -> bool, keeps_body: bool) -> Vec<u8> {
    let request = request::read(text).expect("readable");
    let (mut lines, body) = taken_apart(text);
    assert_eq!(lines.len(), request.fields.len() + 1);
    for (line, field) in lines[1..].iter_mut().zip(&request.fields) {
        if keeps(&field.name) {
            continue;
        }
        let colon = line.iter().position(|&byte| byte == b':').expect("a colon");
        line.truncate(colon + 1);
        line.extend(random.pick(VALUES).bytes());
        line.extend(b"\r\n");
    }
    let body = if keeps_body { body } else { random.pick(BODIES).as_bytes().to_vec() };
    [lines.concat(), b"\r\n".to_vec(), body].concat()
}

type Answers = (Advance, Advance, (u32, Vec<u8>, [u32; 4]), Vec<(u32, [u32; 6])>);

/// Every call that takes a request: the advance before and after a forward, a listing, and what each row shows ("demand 3 covers
/// this answer too").
fn answers(image: &[u8], request: &[u8]) -> Answers {
    let after = Session { forwarded: 1, last: 40, ..READY };
    let rows = image::read(image).map_or(0, |profile| profile.rows.len() as u32);
    let shown = (0..=rows).map(|row| show(image, request, row)).collect();
    (advance(image, request, READY), advance(image, request, after), list(image, request, 0, 1, 64), shown)
}

fn drawn(random: &mut Random) -> (Vec<u8>, Vec<u8>, Option<Profile>) {
    let method: &[u8] = if random.chance(1, 3) { b"REGISTER" } else { b"INVITE" };
    let request = lean::request(random, method);
    let mut draft = lean::image(random, &request, 0);
    if random.chance(1, 4) {
        // No criterion uses this row.
        let row = draft.text_row(4, b"m", None);
        draft.add_row(row, &[0]);
    }
    let image = draft.bytes();
    let profile = image::read(&image).ok();
    (image, request, profile)
}

#[test]
fn nothing_else_was_read() {
    let mut random = Random::new(58);
    let mut other_values = 0;
    let mut other_bodies = 0;
    for _ in 0..4_000 {
        let (image, first, Some(profile)) = drawn(&mut random) else { continue };
        let second = changed(&mut random, &first, |name| asked(&profile, name), asks_for_body(&profile));
        let shown = second.escape_ascii();
        assert_eq!(answers(&image, &first), answers(&image, &second), "{}\n{shown}", first.escape_ascii());
        let (lines, body) = taken_apart(&first);
        other_values += (lines != taken_apart(&second).0) as u32;
        other_bodies += (body != taken_apart(&second).1) as u32;
    }
    assert!(other_values > 1_000 && other_bodies > 500, "{other_values} values, {other_bodies} bodies");
}

/// The Content-Type value is asked for indeed: with only that changed, answers differ where a row asks for the body.
#[test]
fn content_type_is_read() {
    let mut random = Random::new(59);
    let mut differ = [0; 2];
    for _ in 0..4_000 {
        let (image, first, Some(profile)) = drawn(&mut random) else { continue };
        let body = asks_for_body(&profile);
        if !body && asked_by_header(&profile, b"Content-Type") {
            continue;
        }
        let keeps = |name: &[u8]| !name.eq_ignore_ascii_case(b"Content-Type");
        let second = changed(&mut random, &first, keeps, true);
        differ[body as usize] += (answers(&image, &first) != answers(&image, &second)) as u32;
    }
    assert_eq!(differ[0], 0);
    assert!(differ[1] > 200, "{}", differ[1]);
}
