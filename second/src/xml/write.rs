//! The edition 1 image of criteria. It may be one that document 01 refuses; that is judged afterwards.

use super::criteria::{Criterion, Row};
use crate::twist::{twisted, Twist};
use std::collections::HashMap;

const ABSENT: u64 = 65_535;

#[derive(Default)]
pub struct Written {
    pub image: Vec<u8>,
    /// Where the first field stands that holds 0 in place of "a value that table E.1 lacks, a Priority above 4,294,967,295 or a
    /// Group above 65,535".
    pub lacking: Option<usize>,
}

pub fn written(criteria: &[Criterion]) -> Written {
    let mut written = Written::default();
    let strings = strings(criteria);
    let indexes: HashMap<&[u8], u64> = strings.iter().copied().zip(0..).collect();
    written.put(1, 1);
    written.strings(&strings);
    written.rows(criteria, &indexes);
    written.memberships(criteria);
    written.criteria(criteria, &indexes);
    written
}

/// "Equal strings are stored once, in order of first use": the order in which the text has them.
fn strings(criteria: &[Criterion]) -> Vec<&[u8]> {
    let mut known = HashMap::new();
    let mut strings: Vec<&[u8]> = Vec::new();
    for string in uses(criteria) {
        if known.insert(string, ()).is_none() || twisted(Twist::XmlEqualStringsKept) {
            strings.push(string);
        }
    }
    strings
}

fn uses(criteria: &[Criterion]) -> Vec<&[u8]> {
    let of_rows = |criterion| rows_of(criterion).iter().flat_map(of_row).collect::<Vec<_>>();
    if twisted(Twist::XmlStringsByField) {
        return criteria.iter().flat_map(of_rows).chain(criteria.iter().flat_map(of_server)).collect();
    }
    let of_criterion = |criterion| match twisted(Twist::XmlServerStringFirst) {
        true => [of_server(criterion), of_rows(criterion)].concat(),
        false => [of_rows(criterion), of_server(criterion)].concat(),
    };
    criteria.iter().flat_map(of_criterion).collect()
}

fn rows_of(criterion: &Criterion) -> &[Row] {
    &criterion.rows
}

fn of_row(row: &Row) -> Vec<&[u8]> {
    let first = (row.kind != 3).then_some(&row.string[..]);
    let mut strings: Vec<&[u8]> = first.into_iter().chain(row.content.as_deref()).collect();
    if twisted(Twist::XmlContentStringFirst) {
        strings.reverse();
    }
    strings
}

fn of_server(criterion: &Criterion) -> Vec<&[u8]> {
    [&criterion.server[..]].into_iter().chain(criterion.information.as_deref()).collect()
}

/// The groups of a row, rising as document 01 has memberships; "a Group repeated in a row is stored once".
fn groups(row: &Row) -> Vec<u64> {
    let mut groups = row.groups.clone();
    if !twisted(Twist::XmlGroupsUnsorted) {
        groups.sort_unstable();
    }
    if !twisted(Twist::XmlRepeatedGroupKept) {
        groups.dedup();
    }
    groups
}

impl Written {
    fn put(&mut self, value: u64, width: usize) {
        self.image.extend(&value.to_be_bytes()[8 - width..]);
    }

    /// A value of the text, which a field takes up to `most`.
    fn field(&mut self, value: u64, most: u64, width: usize) {
        let all = u64::MAX >> (64 - 8 * width);
        let value = if twisted(Twist::XmlValueCutToField) { value & all } else { value };
        if value > most {
            self.lacks(self.image.len());
        }
        self.put(if value > most { 0 } else { value }, width);
    }

    fn lacks(&mut self, place: usize) {
        self.lacking.get_or_insert(place);
    }

    /// A value that may be absent: the image says so by `absent`.
    fn optional(&mut self, value: Option<u64>, most: u64, absent: u64) {
        let most = if twisted(Twist::XmlTwoIsAbsent) { 2 } else { most };
        match value {
            Some(value) => self.field(value, most, 1),
            None => self.put(absent, 1),
        }
    }

    fn strings(&mut self, strings: &[&[u8]]) {
        self.put(strings.len() as u64, 2);
        for string in strings {
            self.put(string.len() as u64, 2);
            self.image.extend(*string);
        }
    }

    fn rows(&mut self, criteria: &[Criterion], indexes: &HashMap<&[u8], u64>) {
        let rows: Vec<&Row> = criteria.iter().flat_map(rows_of).collect();
        self.put(rows.len() as u64, 2);
        for row in rows {
            self.row(row, indexes);
        }
    }

    fn row(&mut self, row: &Row, indexes: &HashMap<&[u8], u64>) {
        let lacking_type = row.types.iter().any(|&kind| kind > 2);
        if lacking_type && twisted(Twist::XmlTypeJudgedAtRow) || self.group_at_row(row) {
            self.lacks(self.image.len());
        }
        self.field(row.negated.unwrap_or(0), 1, 1);
        self.put(u64::from(row.kind), 1);
        match row.kind {
            3 => self.field(row.case, 3, 2),
            _ => self.put(indexes[&row.string[..]], 2),
        }
        let content = row.content.as_deref();
        let content =
            content.filter(|content| !(content.is_empty() && twisted(Twist::XmlEmptyContentAbsent)));
        self.put(content.map_or(ABSENT, |content| indexes[content]), 2);
        if lacking_type {
            self.lacks(self.image.len());
        }
        self.registration_set(row);
    }

    fn group_at_row(&self, row: &Row) -> bool {
        twisted(Twist::XmlGroupJudgedAtRow) && row.groups.iter().any(|&group| group > 65_535)
    }

    fn registration_set(&mut self, row: &Row) {
        if twisted(Twist::XmlEqualTypesRefused) && row.types.len() == 2 && row.types[0] == row.types[1] {
            self.lacks(self.image.len());
        }
        let dropped = twisted(Twist::XmlTypesOfRegisterOnly) && row.string != b"REGISTER";
        let types = row.types.iter().filter(|&&kind| kind <= 2 && !dropped);
        self.put(types.fold(0, |set, kind| set | 1 << kind), 1);
    }

    fn memberships(&mut self, criteria: &[Criterion]) {
        let rows = criteria.iter().flat_map(rows_of);
        let pairs: Vec<(u64, u64)> = rows
            .zip(0..)
            .flat_map(|(row, number)| groups(row).into_iter().map(move |group| (number, group)))
            .collect();
        self.put(pairs.len() as u64, 2);
        for (row, group) in pairs {
            self.put(row, 2);
            self.field(group, 65_535, 2);
        }
    }

    fn criteria(&mut self, criteria: &[Criterion], indexes: &HashMap<&[u8], u64>) {
        let mut in_order: Vec<(&Criterion, u64)> = Vec::new();
        let mut rows = 0;
        for criterion in criteria {
            in_order.push((criterion, rows));
            rows += criterion.rows.len() as u64;
        }
        if twisted(Twist::XmlCriteriaByPriority) {
            in_order.sort_by_key(|(criterion, _)| criterion.priority);
        }
        self.put(criteria.len() as u64, 2);
        for (criterion, first_row) in in_order {
            self.criterion(criterion, first_row, indexes);
        }
    }

    fn criterion(&mut self, criterion: &Criterion, first_row: u64, indexes: &HashMap<&[u8], u64>) {
        if twisted(Twist::XmlHandlingJudgedFirst) && criterion.handling.is_some_and(|handling| handling > 1) {
            self.lacks(self.image.len());
        }
        self.field(criterion.priority, u64::from(u32::MAX), 4);
        self.optional(criterion.part, 1, if twisted(Twist::XmlPartAbsentAsZero) { 0 } else { 2 });
        self.optional(criterion.cnf, 1, 2);
        let trigger = criterion.cnf.is_some() || twisted(Twist::XmlNoTriggerKeepsRow);
        self.put(if trigger { first_row } else { 0 }, 2);
        self.put(criterion.rows.len() as u64, 2);
        self.put(indexes[&criterion.server[..]], 2);
        self.optional(criterion.handling, 1, if twisted(Twist::XmlHandlingAbsentAsZero) { 0 } else { 2 });
        let information = criterion.information.as_deref();
        let empty_absent = twisted(Twist::XmlEmptyInformationAbsent);
        let information = information.filter(|information| !(information.is_empty() && empty_absent));
        self.put(information.map_or(ABSENT, |information| indexes[information]), 2);
    }
}
