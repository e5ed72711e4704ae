//! Section one, and what each use asks of a string.

use super::judge::{range, Judge, Use};
use super::layout::Field;
use crate::pattern;
use crate::profile::Fault;
use crate::token::is_token;
use crate::twist::{twisted, Twist};

fn most_strings() -> u32 {
    match () {
        _ if twisted(Twist::StringsAtMost1023) => 1_023,
        _ if twisted(Twist::StringsAtMost1025) => 1_025,
        _ => 1_024,
    }
}

fn longest_string() -> u32 {
    match () {
        _ if twisted(Twist::StringAtMost1023Bytes) => 1_023,
        _ if twisted(Twist::StringAtMost1025Bytes) => 1_025,
        _ => 1_024,
    }
}

impl Judge<'_> {
    pub fn string_field(&mut self, field: Field, place: usize, value: u32) -> Result<(), Fault> {
        match field {
            Field::StringCount => range(value <= most_strings(), place),
            Field::StringLength => {
                let late = twisted(Twist::StringLengthJudgedAfterBytes);
                range(value <= longest_string() || late, place)
            }
            _ => {
                range(value <= longest_string(), self.record_place)?;
                let bytes = place..place + value as usize;
                if twisted(Twist::UnusedStringsNonempty) && bytes.is_empty() {
                    return Err(Fault { number: 5, place });
                }
                self.profile.strings.push(bytes);
                Ok(())
            }
        }
    }
}

/// "Strings used by kinds 2 and 4 are patterns; a Method is a nonempty token; a RequestURI
/// and a server are nonempty."
pub fn right_for(text: &[u8], purpose: Use) -> bool {
    match purpose {
        Use::RequestUri if twisted(Twist::RequestUriVisibleOnly) => {
            !text.is_empty() && text.iter().all(|byte| (33..=126).contains(byte))
        }
        Use::RequestUri => !text.is_empty() || twisted(Twist::RequestUriMayBeEmpty),
        Use::Method if twisted(Twist::MethodAnyBytes) => !text.is_empty(),
        Use::Method => is_token(text) || twisted(Twist::MethodMayBeEmpty) && text.is_empty(),
        Use::Pattern => pattern::read(text).is_some(),
        Use::Server if twisted(Twist::ServerVisibleOnly) => {
            !text.is_empty() && text.iter().all(|byte| (33..=126).contains(byte))
        }
        Use::Server => !text.is_empty() || twisted(Twist::ServerMayBeEmpty),
        Use::Information => !text.is_empty() || !twisted(Twist::InformationNonempty),
    }
}
