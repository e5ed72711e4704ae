//! The head: start line and fields, line by line.

use super::name;
use super::value;
use super::Field;
use crate::token::{is_token, is_token_byte};
use crate::twist::{twisted, Twist};

pub struct Head {
    pub method: Vec<u8>,
    pub uri: Vec<u8>,
    pub fields: Vec<Field>,
}

pub fn read(head: &[u8]) -> Option<Head> {
    let lines = split_lines(head)?;
    let (start, rest) = lines.split_first()?;
    let (method, uri) = start_line(start)?;
    let mut fields = join_folds(rest)?.iter().map(|text| field(text)).collect::<Option<Vec<Field>>>()?;
    if twisted(Twist::EqualNamesJoined) {
        fields = joined(fields);
    }
    if twisted(Twist::FieldsNeeded) && fields.is_empty() {
        return None;
    }
    Some(Head { method, uri, fields })
}

/// "In the head, CR and LF stand only as pairs; other bytes below 32 except HTAB, and 127,
/// are refused."
fn split_lines(head: &[u8]) -> Option<Vec<&[u8]>> {
    let mut lines = Vec::new();
    let mut start = 0;
    let mut place = 0;
    while place < head.len() {
        let pair = head[place] == b'\r' && head.get(place + 1) == Some(&b'\n');
        let lone_lf_ends = twisted(Twist::LoneLfEndsLine) && head[place] == b'\n';
        if pair || lone_lf_ends {
            lines.push(&head[start..place]);
            place += if pair { 2 } else { 1 };
            start = place;
            continue;
        }
        if !stands_in_head(head[place]) {
            return None;
        }
        place += 1;
    }
    lines.push(&head[start..]);
    Some(lines)
}

fn stands_in_head(byte: u8) -> bool {
    match byte {
        b'\t' => true,
        b'\r' => twisted(Twist::LoneCrAccepted),
        b'\n' => twisted(Twist::LoneLfAccepted),
        0 => twisted(Twist::ZeroByteAccepted),
        1..=31 => twisted(Twist::ControlsAccepted),
        127 => twisted(Twist::DeleteAccepted),
        _ => true,
    }
}

/// "Method token, one SP, URI of one or more bytes 33..126, one SP, `SIP/2.0` in any case."
fn start_line(line: &[u8]) -> Option<(Vec<u8>, Vec<u8>)> {
    let tabs = twisted(Twist::StartLineTakesTabs);
    let blank = |byte: &u8| *byte == b' ' || tabs && *byte == b'\t';
    let mut parts: Vec<&[u8]> = line.split(blank).collect();
    if twisted(Twist::StartLineTakesSeveralBlanks) {
        parts.retain(|part| !part.is_empty());
    }
    if twisted(Twist::StartLineMayEndInBlank) && parts.len() == 4 && parts[3].is_empty() {
        parts.pop();
    }
    let [method, uri, version] = parts[..] else { return None };
    let version_right = match twisted(Twist::VersionAsWritten) {
        true => version == b"SIP/2.0",
        false => version.eq_ignore_ascii_case(b"SIP/2.0"),
    };
    let uri_right =
        uri.iter().all(|&byte| uri_byte(byte)) && (!uri.is_empty() || twisted(Twist::UriMayBeEmpty));
    let method_right = is_token(method) || twisted(Twist::MethodNotToken) && !method.is_empty();
    (method_right && uri_right && version_right).then(|| (method.to_vec(), uri.to_vec()))
}

fn uri_byte(byte: u8) -> bool {
    let high = byte >= 128 && twisted(Twist::HighByteInUri);
    let quote = byte == b'"' && twisted(Twist::QuoteNotInUri);
    (33..=126).contains(&byte) && !quote || high
}

fn is_blank(byte: u8) -> bool {
    byte == b' ' || byte == b'\t'
}

/// "A line that starts with SP or HTAB continues a field; none may follow the start line
/// directly."
fn join_folds(lines: &[&[u8]]) -> Option<Vec<Vec<u8>>> {
    let mut fields: Vec<Vec<u8>> = Vec::new();
    for line in lines {
        let folds = line.first().is_some_and(|&byte| is_blank(byte));
        if folds && twisted(Twist::TabFoldRefused) && line[0] == b'\t' {
            return None;
        }
        if !folds {
            fields.push(line.to_vec());
            continue;
        }
        let blank = line.iter().all(|&byte| is_blank(byte));
        if blank && twisted(Twist::BlankFoldRefused) {
            return None;
        }
        match fields.last_mut() {
            Some(field) => {
                // Keeps a fold apart from the name: the colon must stand on the first line.
                if !field.contains(&b':') && !twisted(Twist::FoldBeforeColonAccepted) {
                    return None;
                }
                field.extend_from_slice(if twisted(Twist::FoldAddsNothing) {
                    line.trim_ascii_start()
                } else {
                    line
                });
            }
            None if twisted(Twist::FoldAfterStartLineSkipped) => {}
            None => return None,
        }
    }
    Some(fields)
}

/// "Name token, any SP or HTAB, colon, value." The blanks are no part of the name.
fn field(text: &[u8]) -> Option<Field> {
    let colon = text.iter().position(|&byte| byte == b':')?;
    let before = &text[..colon];
    let written: &[u8] = match twisted(Twist::NameKeepsBlanks) {
        true => before,
        false => trim_end(before),
    };
    let blanks = written.len() < before.len();
    if twisted(Twist::BlankBeforeColonRefused) && blanks {
        return None;
    }
    let token = |byte: &u8| {
        is_token_byte(*byte)
            || twisted(Twist::HighByteInName) && *byte >= 128
            || twisted(Twist::BlankInNameAccepted) && is_blank(*byte)
            || twisted(Twist::NameKeepsBlanks) && is_blank(*byte)
    };
    if written.is_empty() && !twisted(Twist::NameMayBeEmpty) || !written.iter().all(token) {
        return None;
    }
    let raw = &text[colon + 1..];
    if twisted(Twist::HighByteNotInValue) && raw.iter().any(|&byte| byte >= 128) {
        return None;
    }
    let long = match twisted(Twist::ShortBeforeBlanksStays) && blanks {
        true => written.to_vec(),
        false => name::long(written),
    };
    let values = match twisted(Twist::NeverCutByWrittenName) {
        true => value::values(written, raw),
        false => value::values(&long, raw),
    };
    let blanks = raw.iter().take_while(|&&byte| is_blank(byte)).count();
    Some(Field { name: long, written: written.to_vec(), values, reduced: value::reduce(raw), blanks })
}

/// Another way to read two fields of one name: as one field with the values of both.
fn joined(fields: Vec<Field>) -> Vec<Field> {
    let mut out: Vec<Field> = Vec::new();
    for field in fields {
        match out.iter_mut().find(|other| other.name.eq_ignore_ascii_case(&field.name)) {
            Some(other) => other.values.extend(field.values),
            None => out.push(field),
        }
    }
    out
}

fn trim_end(text: &[u8]) -> &[u8] {
    let end = text.iter().rposition(|&byte| !is_blank(byte)).map_or(0, |last| last + 1);
    &text[..end]
}
