//! A readable request, taken apart into what rows ask for.

mod body;
mod description;
mod head;
pub mod name;
mod value;

use crate::twist::{twisted, Twist};

#[derive(Debug, PartialEq, Eq)]
pub struct Request {
    pub method: Vec<u8>,
    pub uri: Vec<u8>,
    pub fields: Vec<Field>,
    /// Every body line that is a field, whatever the body is.
    pub body_lines: Vec<Line>,
    /// Whether the body is a session description.
    pub described: bool,
}

/// A field of the head, with its values as they are matched.
#[derive(Debug, PartialEq, Eq)]
pub struct Field {
    /// As it is matched.
    pub name: Vec<u8>,
    /// No row sees this.
    pub written: Vec<u8>,
    pub values: Vec<Vec<u8>>,
    /// Before the cut; only a twist asks.
    pub reduced: Vec<u8>,
    /// How many blanks stood before the value; only a twist asks.
    pub blanks: usize,
}

/// A body line that is a field.
#[derive(Debug, PartialEq, Eq)]
pub struct Line {
    pub kind: u8,
    pub value: Vec<u8>,
    /// Which line of the body it is, those that are no field counted too; only a twist asks.
    pub number: usize,
}

impl Request {
    pub fn is_register(&self) -> bool {
        if twisted(Twist::RegisterInAnyCase) {
            return self.method.eq_ignore_ascii_case(b"REGISTER");
        }
        self.method == b"REGISTER"
    }

    /// "The body now has session lines only if" it is a session description.
    pub fn session_lines(&self) -> &[Line] {
        if self.described {
            &self.body_lines
        } else {
            &[]
        }
    }
}

fn most_bytes() -> usize {
    match () {
        _ if twisted(Twist::RequestAtMost65534) => 65_534,
        _ if twisted(Twist::RequestAtMost65536) => 65_536,
        _ => 65_535,
    }
}

/// `None` is "request unreadable".
pub fn read(text: &[u8]) -> Option<Request> {
    let text = match twisted(Twist::LeadingCrLfSkipped) {
        true => text.strip_prefix(b"\r\n").unwrap_or(text),
        false => text,
    };
    let end = end_of_head(text)?;
    let bounded = if twisted(Twist::BodyNotInLimit) { end + 4 } else { text.len() };
    if bounded > most_bytes() {
        return None;
    }
    let head = head::read(&text[..end])?;
    let described = description::described(&head.fields);
    if twisted(Twist::OtherBodyUnreadable) && !described && text.len() > end + 4 {
        return None;
    }
    let body_lines = body::lines(&text[end + 4..]);
    Some(Request { method: head.method, uri: head.uri, fields: head.fields, body_lines, described })
}

/// "The head runs to the first CR LF CR LF."
pub fn end_of_head(text: &[u8]) -> Option<usize> {
    let mut ends = text.windows(4);
    if twisted(Twist::HeadRunsToLastEnd) {
        return ends.rposition(|four| four == b"\r\n\r\n");
    }
    ends.position(|four| four == b"\r\n\r\n")
}
