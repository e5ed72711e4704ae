//! Body lines that are fields.

use super::Line;
use crate::twist::{twisted, Twist};

/// "Body lines end at LF, one CR before it dropped; the last may lack its end."
pub fn lines(body: &[u8]) -> Vec<Line> {
    let mut rest = body;
    let mut lines = Vec::new();
    let mut number = 0;
    while let Some(end) = rest.iter().position(|&byte| ends_line(byte)) {
        lines.extend(field(drop_cr(&rest[..end]), number));
        rest = &rest[end + 1..];
        number += 1;
    }
    if twisted(Twist::LastLineNeedsEnd) {
        return lines;
    }
    if twisted(Twist::LastCrDropped) {
        rest = drop_cr(rest);
    }
    lines.extend(field(rest, number));
    lines
}

fn ends_line(byte: u8) -> bool {
    byte == b'\n' || byte == b'\r' && twisted(Twist::LoneCrEndsBodyLine)
}

fn drop_cr(line: &[u8]) -> &[u8] {
    if twisted(Twist::LineCrKept) {
        return line;
    }
    if twisted(Twist::AllLineCrsDropped) {
        let end = line.iter().rposition(|&byte| byte != b'\r').map_or(0, |last| last + 1);
        return &line[..end];
    }
    line.strip_suffix(b"\r").unwrap_or(line)
}

/// "A line is a field if its second byte is `=`."
fn field(line: &[u8], number: usize) -> Option<Line> {
    let (&kind, rest) = line.split_first()?;
    let value = rest.strip_prefix(b"=")?;
    let refused = twisted(Twist::TypeLettersOnly) && !kind.is_ascii_alphabetic()
        || twisted(Twist::EmptyLineValueNone) && value.is_empty();
    if refused {
        return None;
    }
    let value = if twisted(Twist::LineValueTrimmed) { value.trim_ascii() } else { value };
    Some(Line { kind, value: value.to_vec(), number })
}
