//! The criteria that a text writes, with every value as it is written.

use super::element::Element;
use super::reader::Leaf;
use crate::twist::{twisted, Twist};

#[derive(Clone, PartialEq, Eq, Debug, Default)]
pub struct Criterion {
    pub priority: u64,
    /// ConditionTypeCNF; absent if there is no TriggerPoint.
    pub cnf: Option<u64>,
    pub rows: Vec<Row>,
    pub server: Vec<u8>,
    pub handling: Option<u64>,
    pub information: Option<Vec<u8>>,
    pub part: Option<u64>,
}

#[derive(Clone, PartialEq, Eq, Debug, Default)]
pub struct Row {
    pub negated: Option<u64>,
    pub groups: Vec<u64>,
    /// As in the image.
    pub kind: u8,
    /// RequestURI, Method, Header or Line; empty for a SessionCase.
    pub string: Vec<u8>,
    pub case: u64,
    pub content: Option<Vec<u8>>,
    pub types: Vec<u64>,
}

/// The value of decimal digits; any that 64 bits do not hold is the largest of these, which no field takes.
pub fn number(digits: &[u8]) -> u64 {
    let digits = digits.iter().filter(|byte| byte.is_ascii_digit());
    digits.fold(0, |number: u64, digit| match () {
        _ if twisted(Twist::XmlNumberWraps64) => {
            number.wrapping_mul(10).wrapping_add(u64::from(digit - b'0'))
        }
        _ => number.saturating_mul(10).saturating_add(u64::from(digit - b'0')),
    })
}

fn string(value: &[u8]) -> Vec<u8> {
    match () {
        _ if twisted(Twist::XmlTextTrimmed) => value.trim_ascii().to_vec(),
        _ if twisted(Twist::XmlLineEndsChanged) => {
            let line_end = |place: usize| value[place..].starts_with(b"\r\n");
            (0..value.len()).filter(|&place| !line_end(place)).map(|place| value[place]).collect()
        }
        _ if twisted(Twist::XmlEntitiesTwice) => once_more(value),
        _ => value.to_vec(),
    }
}

/// The wrong way: `&amp;lt;` is `<`.
fn once_more(value: &[u8]) -> Vec<u8> {
    let mut left = Vec::new();
    let mut place = 0;
    while place < value.len() {
        let entity =
            super::subset::ENTITIES.iter().find(|(name, _)| value[place..].starts_with(name.as_bytes()));
        left.push(entity.map_or(value[place], |&(_, stands)| stands));
        place += entity.map_or(1, |(name, _)| name.len());
    }
    left
}

pub fn criteria(leaves: &[Leaf]) -> Vec<Criterion> {
    let mut criteria: Vec<Criterion> = Vec::new();
    for leaf in leaves {
        if leaf.element == Element::InitialFilterCriteria {
            criteria.push(Criterion::default());
        }
        of_criterion(criteria.last_mut().expect("all is inside a criterion"), leaf);
    }
    criteria
}

fn of_criterion(criterion: &mut Criterion, leaf: &Leaf) {
    let value = &leaf.value;
    match leaf.element {
        Element::Priority => criterion.priority = number(value),
        Element::ConditionTypeCnf => criterion.cnf = Some(number(value)),
        Element::Spt => criterion.rows.push(Row::default()),
        Element::ServerName => criterion.server = string(value),
        Element::DefaultHandling => criterion.handling = Some(number(value)),
        Element::ServiceInfo => criterion.information = Some(string(value)),
        Element::ProfilePartIndicator => criterion.part = Some(number(value)),
        Element::InitialFilterCriteria | Element::TriggerPoint | Element::ApplicationServer => {}
        _ => of_row(criterion.rows.last_mut().expect("the rest is inside a row"), leaf),
    }
}

fn of_row(row: &mut Row, leaf: &Leaf) {
    let value = &leaf.value;
    match leaf.element {
        Element::ConditionNegated => row.negated = Some(number(value)),
        Element::Group => row.groups.push(number(value)),
        Element::RegistrationType => row.types.push(number(value)),
        Element::Content => row.content = Some(string(value)),
        Element::SessionCase => (row.kind, row.case) = (3, number(value)),
        Element::RequestUri => (row.kind, row.string) = (0, string(value)),
        Element::Method => (row.kind, row.string) = (1, string(value)),
        Element::Header => (row.kind, row.string) = (2, string(value)),
        Element::Line => (row.kind, row.string) = (4, string(value)),
        _ => {}
    }
}
