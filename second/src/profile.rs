//! What a profile image holds once it has been judged.

use crate::pattern::Pattern;
use std::ops::Range;

/// A refusal with its place; place 0 unless it is an image fault.
#[derive(Clone, Copy, PartialEq, Eq, Debug)]
pub struct Fault {
    pub number: u32,
    pub place: usize,
}

impl Fault {
    pub fn plain(number: u32) -> Fault {
        Fault { number, place: 0 }
    }
}

#[derive(Default, Debug)]
pub struct Profile {
    /// Where each string's bytes stand in the image.
    pub strings: Vec<Range<usize>>,
    pub rows: Vec<Row>,
    pub criteria: Vec<Criterion>,
}

#[derive(Debug)]
pub struct Row {
    pub negated: bool,
    pub test: Test,
    /// Bit 0 initial, 1 re-registration, 2 de-registration.
    pub registration_set: u32,
    pub groups: Vec<u32>,
    /// The row's first byte in the image.
    pub place: usize,
}

#[derive(Debug)]
pub enum Test {
    RequestUri(Vec<u8>),
    Method(Vec<u8>),
    SipHeader { name: Pattern, content: Option<Pattern> },
    SessionCase(u32),
    SessionDescription { line: Pattern, content: Option<Pattern> },
}

#[derive(Clone, Copy, PartialEq, Eq, Debug)]
pub enum Form {
    Dnf,
    Cnf,
    NoTrigger,
}

#[derive(Debug)]
pub struct Criterion {
    pub priority: u32,
    /// 0 registered, 1 unregistered, 2 absent.
    pub part: u32,
    pub form: Form,
    pub rows: Range<usize>,
    pub server: Range<usize>,
    /// 0 continued, 1 terminated, 2 absent.
    pub default_handling: u32,
    pub information: Option<Range<usize>>,
}
