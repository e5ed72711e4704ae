//! The readings about short names: which become long ones, what meets them, when they are cut.

use crate::case::Case;
use crate::maker::build::{advance, after, list, READY};
use crate::maker::draft::{negated, Draft, CNF, DNF};
use crate::maker::requests::exactly;
use crate::request::name::{LATER, SHORT};
use crate::token::is_token_byte;

pub fn cases() -> Vec<Case> {
    let mut cases = every_short_name();
    cases.extend(every_one_byte_name());
    cases.extend(names_that_stay());
    cases.extend(cutting());
    cases.extend(all_in_one_request());
    cases.extend(a_recorder());
    cases
}

/// The letter, small and large, and its long name.
fn short_names() -> impl Iterator<Item = (char, &'static str)> {
    let both = |letter: u8| [letter, letter.to_ascii_uppercase()].map(char::from);
    SHORT.into_iter().flat_map(move |(letter, long, _)| both(letter).map(|letter| (letter, long)))
}

fn invite(head: &str) -> Vec<u8> {
    format!("INVITE sip:b SIP/2.0\r\n{head}\r\n").into_bytes()
}

fn register(head: &str) -> Vec<u8> {
    format!("REGISTER sip:b SIP/2.0\r\n{head}\r\n").into_bytes()
}

/// One criterion for each of these Header patterns, with Content or without.
fn asking(rows: &[(&[u8], Option<&[u8]>)]) -> Vec<u8> {
    let mut draft = Draft::new();
    for (place, (name, content)) in rows.iter().enumerate() {
        let row = draft.text_row(2, name, *content);
        draft.single(place as u32, row);
    }
    draft.bytes()
}

/// The written name first, which no longer meets, then the long one, anchored and not: alone, with Content, negated,
/// negated with Content.
fn asking_both(letter: char, long: &str) -> Vec<u8> {
    let letter = letter.to_ascii_lowercase();
    let (first, tail) = (&long[..1], &long[long.len() - 2..]);
    let patterns = [
        format!("^{letter}$"),
        "^.$".to_string(),
        format!("^{letter}"),
        format!("^{first}"),
        format!("{tail}$"),
        format!("^{long}$"),
    ];
    let mut draft = Draft::new();
    let mut priority = 0;
    for turned in [false, true] {
        for content in [None, Some(b"joe".as_slice())] {
            for pattern in &patterns {
                let row = draft.text_row(2, pattern.as_bytes(), content);
                draft.single(priority, if turned { negated(row) } else { row });
                priority += 1;
            }
        }
    }
    draft.bytes()
}

fn every_short_name() -> Vec<Case> {
    let mut cases = Vec::new();
    for (letter, long) in short_names() {
        let image = asking_both(letter, long);
        let heads = [
            ("1.1: short", format!("{letter}: joe, ann\r\n")),
            ("1.7: blank before the colon", format!("{letter} : ann\r\n")),
            ("1.7: blanks before the colon", format!("{letter}\t :joe\r\n")),
            ("1.5: beside the long one", format!("X: joe\r\n{letter}: ann\r\n{long}: joe, bob\r\n")),
            ("1.5: behind the long one", format!("{long}: ann\r\n{letter}: joe\r\n")),
        ];
        for (point, head) in heads {
            let label = format!("{point}, {letter} for {long}");
            cases.push(list(&label, &image, &register(&head), 0, 0, 64));
            for session in [READY, after(3), after(11), after(17)] {
                cases.push(advance(&label, &image, &invite(&head), session));
            }
        }
    }
    cases
}

/// Every name of one byte, against every long name.
fn every_one_byte_name() -> Vec<Case> {
    let longs: Vec<Vec<u8>> = SHORT.iter().map(|(_, long, _)| exactly(long.as_bytes())).collect();
    let mut rows: Vec<(&[u8], Option<&[u8]>)> = longs.iter().map(|long| (long.as_slice(), None)).collect();
    rows.push((b"^.$", None));
    let image = asking(&rows);
    let mut cases = Vec::new();
    for byte in (0..=127u8).filter(|&byte| is_token_byte(byte)) {
        let label = format!("1.2: name {}", char::from(byte));
        cases.push(list(&label, &image, &register(&format!("{}: a\r\n", char::from(byte))), 0, 0, 64));
    }
    cases
}

/// One byte that is not listed, and names that have a listed one in them.
fn names_that_stay() -> Vec<Case> {
    let others = [
        "O", "U", "ff", "FF", "f-", "F.", "-f", "1f", "fr", "ss", "s-", "S1", "tt", "v_", "fro", "f-f",
        "rom", "1", "_",
    ];
    let mut names: Vec<String> = LATER.iter().map(|&(letter, _)| char::from(letter).to_string()).collect();
    names.extend(others.map(String::from));
    let mut cases = Vec::new();
    for name in names {
        let mut rows: Vec<(Vec<u8>, Option<&[u8]>)> = vec![
            (b"^From$".to_vec(), None),
            (b"^Subject$".to_vec(), None),
            (exactly(name.as_bytes()), None),
            (exactly(name.as_bytes()), Some(b"^a$")),
            (b"^.$".to_vec(), None),
            (b"^.$".to_vec(), Some(b"^b$")),
            (b"...".to_vec(), None),
        ];
        let first = name.as_bytes()[0].to_ascii_lowercase();
        let later = LATER.iter().filter(|&&(letter, _)| letter == first);
        rows.extend(later.map(|(_, long)| (exactly(long.as_bytes()), None)));
        let rows: Vec<(&[u8], Option<&[u8]>)> =
            rows.iter().map(|(pattern, content)| (pattern.as_slice(), *content)).collect();
        let image = asking(&rows);
        let label = format!("1.2: {name} stays");
        let head = format!("{name}: a, b\r\n");
        cases.push(list(&label, &image, &register(&head), 0, 0, 64));
        cases.push(advance(&label, &image, &invite(&head), READY));
    }
    cases
}

/// "The rule on fields never cut uses long names too": `s` alone of the ten, and it is still trimmed and reduced.
fn cutting() -> Vec<Case> {
    let image = asking(&[
        (b".", Some(b"^a , b$")),
        (b"^Subject$", Some(b"^a , b$")),
        (b".", Some(b"^a$")),
        (b".", Some(b"^b$")),
        (b".", Some(b"^$")),
        (b".", Some(b",")),
        (b".", Some(b"\t")),
        (b"^Subject$", Some(b"^ *a.*b *$")),
    ]);
    let mut names: Vec<String> = short_names().map(|(letter, _)| letter.to_string()).collect();
    names.extend(["Subject", "subject", "ss", "s-", "d", "a", "w", "p"].map(String::from));
    let mut cases = Vec::new();
    for name in names {
        for value in
            [":  a \t ,\r\n b \r\n", " : a,b\r\n", ":a\t ,\tb\r\n", ":,\r\n", ":\r\n", ": \"a , b\r\n"]
        {
            let label = format!("1.3: cut under {name}");
            let head = format!("{name}{value}");
            cases.push(list(&label, &image, &register(&head), 0, 0, 64));
            cases.push(advance(&label, &image, &invite(&head), READY));
        }
    }
    cases
}

/// All ten names, in small letters, in capitals and long, each with values of its own, in three orders.
fn all_in_one_request() -> Vec<Case> {
    let field = |name: &str, place: usize| format!("{name}: {}{place}, z\r\n", "y,".repeat(place % 4));
    let mut fields: Vec<String> =
        short_names().enumerate().map(|(place, (letter, _))| field(&letter.to_string(), place)).collect();
    fields.extend(SHORT.iter().enumerate().map(|(place, (_, long, _))| field(long, 20 + place)));
    let turned: Vec<String> = fields.iter().rev().cloned().collect();
    let stepped: Vec<String> = (0..30).map(|place| fields[place * 7 % 30].clone()).collect();
    let longs: Vec<Vec<u8>> = SHORT.iter().map(|(_, long, _)| exactly(long.as_bytes())).collect();
    let mut rows: Vec<(&[u8], Option<&[u8]>)> = vec![(b"^.$", None), (b"^[a-z]$", Some(b"z"))];
    rows.extend(longs.iter().map(|long| (long.as_slice(), Some(b"^1[0-9]$".as_slice()))));
    rows.extend(longs.iter().map(|long| (long.as_slice(), Some(b"^y$".as_slice()))));
    rows.push((b"^C", Some(b"z")));
    rows.push((b"T", Some(b"^2")));
    let image = asking(&rows);
    let mut cases = Vec::new();
    for fields in [fields, turned, stepped] {
        let head = fields.concat();
        cases.push(list("1.5: all short and long names", &image, &register(&head), 0, 0, 64));
        for last in 0..rows.len() as u32 {
            cases.push(advance("1.5: all short and long names", &image, &invite(&head), after(last)));
        }
    }
    cases
}

/// What the request was made for: a trigger on From that missed `f`, in both forms, and its like negated.
fn a_recorder() -> Vec<Case> {
    let mut draft = Draft::new();
    let method = draft.text_row(1, b"INVITE", None);
    let from = draft.text_row(2, b"^From$", Some(b"sip:desk[0-9]*@"));
    for (priority, form, turned) in [(10, CNF, false), (20, DNF, false), (30, CNF, true), (40, DNF, true)] {
        let group = u16::from(form == CNF);
        draft.add_row(method, &[0]);
        draft.add_row(if turned { negated(from) } else { from }, &[group]);
        draft.criterion(priority, form, 2);
    }
    let image = draft.bytes();
    let desk = "\"Desk 14\" <sip:desk14@a>;tag=1";
    let heads = [
        format!("From: {desk}\r\n"),
        format!("f: {desk}\r\n"),
        format!("F: {desk}\r\n"),
        format!("f : {desk}\r\n"),
        format!("ff: {desk}\r\n"),
        format!("t: {desk}\r\n"),
        format!("f: <sip:joe@a>\r\nt: {desk}\r\n"),
        format!("f: <sip:joe@a>\r\nFrom: {desk}\r\n"),
        format!("From: <sip:joe@a>\r\nf: <sip:joe@a>, {desk}\r\n"),
    ];
    let mut cases = Vec::new();
    for head in heads {
        for last in [0, 10, 20, 30] {
            cases.push(advance("1.1: a recorder", &image, &invite(&head), after(last)));
        }
        cases.push(list("1.1: a recorder", &image, &register(&head), 0, 0, 4));
    }
    cases
}
