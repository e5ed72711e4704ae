//! A case and its answer, decoded for a person.

use crate::case::{Answer, Call, Case};
use crate::image;
use crate::profile::Profile;

const LONGEST_SHOWN: usize = 600;
const MOST_SHOWN: usize = 40;

fn text(bytes: &[u8]) -> String {
    let shown = &bytes[..bytes.len().min(LONGEST_SHOWN)];
    let more = if shown.len() < bytes.len() { " ..." } else { "" };
    format!("\"{}\"{more} ({} bytes)", shown.escape_ascii(), bytes.len())
}

fn hex(bytes: &[u8]) -> String {
    let shown = &bytes[..bytes.len().min(LONGEST_SHOWN)];
    let digits: String = shown.iter().map(|byte| format!("{byte:02X}")).collect();
    let more = if shown.len() < bytes.len() { " ..." } else { "" };
    format!("{digits}{more} ({} bytes)", bytes.len())
}

pub fn case(number: usize, case: &Case) -> String {
    let mut out = format!("case {number}: {:?}: {}\n", case.call, case.label);
    if case.call == Call::Plain {
        out += &format!("pattern {}\ntext {}\n", text(&case.image), text(&case.request));
    } else if !matches!(case.call, Call::Open | Call::Report | Call::Reports) {
        out += &format!("image {}\n", hex(&case.image));
        out += &match image::read(&case.image) {
            Ok(profile) => contents(&case.image, &profile),
            Err(fault) => format!("  refused with {} at {}\n", fault.number, fault.place),
        };
    }
    if matches!(case.call, Call::Advance | Call::List | Call::Show) {
        out += &format!("request {}\n", text(&case.request));
    }
    if case.call == Call::Reports {
        out += &format!("reports {}\n", hex(&case.request));
    }
    if matches!(case.call, Call::List | Call::Reports) {
        out += &format!("list before {}\n", hex(&case.list));
    }
    out += &format!("numbers before{}\n", named(case, &case.numbers));
    out
}

/// The first strings and rows, and all criteria.
fn contents(image: &[u8], profile: &Profile) -> String {
    let mut out = String::new();
    for (number, string) in profile.strings.iter().enumerate().take(MOST_SHOWN) {
        out += &format!("  string {number}: {}\n", text(&image[string.clone()]));
    }
    for (number, row) in profile.rows.iter().enumerate().take(MOST_SHOWN) {
        let [negated, kind, first, first_low, second, second_low, set] = image[row.place..row.place + 7]
        else {
            unreachable!("a row has seven bytes")
        };
        let first = u16::from_be_bytes([first, first_low]);
        let second = u16::from_be_bytes([second, second_low]);
        out += &format!("  row {number}: negated {negated} kind {kind} first {first} second {second} ");
        out += &format!("set {set} groups {:?}\n", row.groups);
    }
    for (number, criterion) in profile.criteria.iter().enumerate() {
        out += &format!("  criterion {number}: priority {} part {} ", criterion.priority, criterion.part);
        out += &format!("{:?} rows {:?} ", criterion.form, criterion.rows);
        out += &format!("default handling {}\n", criterion.default_handling);
    }
    out
}

fn named(case: &Case, numbers: &[u32]) -> String {
    let names = case.call.numbers().iter();
    names.zip(numbers).map(|(name, number)| format!(" {}={number}", name.trim_start_matches('*'))).collect()
}

pub fn answer(case: &Case, answer: &Answer) -> String {
    let list = if answer.list.is_empty() { String::new() } else { format!(", list {}", hex(&answer.list)) };
    format!("refusal {}, numbers after{}{list}\n", answer.number, named(case, &answer.numbers))
}

/// What two answers to one case do not have in common, by name.
pub fn difference(case: &Case, one: &Answer, other: &Answer) -> String {
    let mut out = Vec::new();
    if one.number != other.number {
        out.push(format!("refusal {} and {}", one.number, other.number));
    }
    if one.numbers.len() != other.numbers.len() {
        out.push(format!("{} and {} numbers", one.numbers.len(), other.numbers.len()));
    }
    for (name, (one, other)) in case.call.numbers().iter().zip(one.numbers.iter().zip(&other.numbers)) {
        if one != other {
            out.push(format!("{} {one} and {other}", name.trim_start_matches('*')));
        }
    }
    if one.list != other.list {
        out.push("the list".to_string());
    }
    out.join("; ")
}
