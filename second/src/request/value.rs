//! A field's values: white space reduced, then cut at commas, each piece trimmed.

use crate::twist::{twisted, Twist};

/// Names whose value is never cut, "in any case": "the rule on fields never cut uses long names too".
const NEVER_CUT: [(&str, Twist); 6] = [
    ("Authorization", Twist::AuthorizationCut),
    ("Proxy-Authorization", Twist::ProxyAuthorizationCut),
    ("WWW-Authenticate", Twist::WwwAuthenticateCut),
    ("Proxy-Authenticate", Twist::ProxyAuthenticateCut),
    ("Date", Twist::DateCut),
    ("Subject", Twist::SubjectCut),
];

pub fn values(name: &[u8], raw: &[u8]) -> Vec<Vec<u8>> {
    if never_cut(name) {
        return match twisted(Twist::NeverCutNotReduced) {
            true => vec![raw.to_vec()],
            false => vec![reduce(raw)],
        };
    }
    let mut pieces = match twisted(Twist::CutBeforeReduced) {
        true => cut(raw).iter().map(|piece| reduce(piece)).collect(),
        false => cut(&reduce(raw)),
    };
    if twisted(Twist::EmptyPieceDropped) {
        pieces.retain(|piece| !piece.is_empty());
    }
    if twisted(Twist::EmptyLastPieceDropped) && pieces.len() > 1 && pieces.last().is_some_and(Vec::is_empty) {
        pieces.pop();
    }
    pieces
}

fn never_cut(name: &[u8]) -> bool {
    NEVER_CUT.iter().any(|&(listed, cut)| {
        let listed = listed.as_bytes();
        let same = match () {
            _ if twisted(Twist::NeverCutAsWritten) => name == listed,
            _ if twisted(Twist::NeverCutByEnding) => {
                name.len() >= listed.len() && name[name.len() - listed.len()..].eq_ignore_ascii_case(listed)
            }
            _ => name.eq_ignore_ascii_case(listed),
        };
        same && !twisted(cut)
    })
}

fn is_space(byte: u8) -> bool {
    byte == b' ' || byte == b'\t' || twisted(Twist::HardSpaceTrimmed) && byte == 160
}

/// "A value loses white space at both ends, and each inner run of SP, HTAB and line folds
/// becomes one SP." Folds are already joined and begin with SP or HTAB.
pub fn reduce(raw: &[u8]) -> Vec<u8> {
    if twisted(Twist::InnerRunsKept) {
        return trimmed(raw);
    }
    let mut reduced = Vec::new();
    let mut quoted = false;
    let mut run = false;
    for &byte in raw {
        if byte == b'"' {
            quoted = !quoted && twisted(Twist::QuotesKeepBlanks);
        }
        if is_space(byte) && !quoted {
            run = true;
            continue;
        }
        if run && !reduced.is_empty() {
            reduced.push(if twisted(Twist::RunBecomesTab) { b'\t' } else { b' ' });
        }
        run = false;
        reduced.push(byte);
    }
    reduced
}

fn trimmed(text: &[u8]) -> Vec<u8> {
    let start = text.iter().position(|&byte| !is_space(byte)).unwrap_or(text.len());
    let end = text.iter().rposition(|&byte| !is_space(byte)).map_or(start, |last| last + 1);
    text[start..end].to_vec()
}

#[derive(Clone, Copy, PartialEq, Eq)]
enum Inside {
    Nothing,
    Quotes,
    Angle,
    Parentheses,
}

fn cut(value: &[u8]) -> Vec<Vec<u8>> {
    let mut pieces = Vec::new();
    let mut start = 0;
    let mut place = 0;
    let mut inside = Inside::Nothing;
    while place < value.len() {
        let byte = value[place];
        if byte == b',' && inside == Inside::Nothing && !twisted(Twist::CommasNeverCut) {
            pieces.push(&value[start..place]);
            start = place + 1;
        }
        if byte == b'\\' && takes_next(inside) {
            place += 1;
        }
        inside = after(inside, byte, value.get(place + 1..).unwrap_or_default());
        place += 1;
    }
    pieces.push(&value[start..]);
    match twisted(Twist::PiecesNotTrimmed) {
        true => pieces.iter().map(|piece| piece.to_vec()).collect(),
        false => pieces.iter().map(|piece| trimmed(piece)).collect(),
    }
}

/// "Inside quotes `\` takes the next byte with it."
fn takes_next(inside: Inside) -> bool {
    match inside {
        Inside::Quotes => !twisted(Twist::QuotedBackslashOrdinary),
        Inside::Nothing => twisted(Twist::BackslashProtectsOutside),
        Inside::Angle => twisted(Twist::BackslashProtectsInAngle),
        Inside::Parentheses => false,
    }
}

/// "Inside quotes ... `<` is ordinary; inside `<>` a quote is ordinary; an unclosed one runs
/// to the end."
fn after(inside: Inside, byte: u8, rest: &[u8]) -> Inside {
    let closes = |close: u8| !twisted(Twist::UnclosedOrdinary) || rest.contains(&close);
    match (inside, byte) {
        (Inside::Nothing, b'"') if closes(b'"') && !twisted(Twist::QuotesProtectNothing) => Inside::Quotes,
        (Inside::Nothing, b'<') if closes(b'>') && !twisted(Twist::AngleProtectsNothing) => Inside::Angle,
        (Inside::Nothing, b'(') if twisted(Twist::ParenthesesProtect) => Inside::Parentheses,
        (Inside::Parentheses, b')') => Inside::Nothing,
        (Inside::Quotes, b'"') => Inside::Nothing,
        (Inside::Quotes, b'<') if twisted(Twist::AngleOpensInQuotes) => Inside::Angle,
        (Inside::Angle, b'>') => Inside::Nothing,
        (Inside::Angle, b'"') if twisted(Twist::QuoteOpensInAngle) => Inside::Quotes,
        _ => inside,
    }
}
