//! Random operators' texts: criteria, texts that write them, and damages.

use super::random::Random;
use crate::xml::criteria::{Criterion, Row};
use crate::xml::subset::ENTITIES;

const STRINGS: &[&[u8]] = &[
    b"INVITE", b"From", b"joe", b"m", b"audio", b"sip:a", b"a", b"[^<&>]*", b"\"<'>&", b" a ", b"\r\n",
    b"\0\xFF", b"",
];

/// Now and then a value that is refused.
fn value(random: &mut Random, most: u64, beyond: &[u64]) -> u64 {
    match random.chance(1, 60) {
        true => *random.pick(beyond),
        false => random.below(most as usize + 1) as u64,
    }
}

fn string(random: &mut Random, most: usize) -> Vec<u8> {
    match random.chance(1, 40) {
        true => random.pick(STRINGS).to_vec(),
        false => STRINGS[random.below(most)].to_vec(),
    }
}

pub fn criteria(random: &mut Random) -> Vec<Criterion> {
    let count = random.below(5);
    (0..count).map(|number| criterion(random, number as u64)).collect()
}

fn criterion(random: &mut Random, number: u64) -> Criterion {
    let rows = if random.chance(1, 100) { 33 } else { random.below(4) };
    let priority = if random.chance(1, 30) { 0 } else { number + 10 * random.below(3) as u64 };
    Criterion {
        priority: if random.chance(1, 60) { 1 << 32 } else { priority },
        cnf: (rows > 0).then(|| value(random, 1, &[2, 256])),
        rows: (0..rows).map(|_| row(random)).collect(),
        server: string(random, 9),
        handling: random.chance(1, 2).then(|| value(random, 1, &[2, 257])),
        information: random.chance(1, 2).then(|| random.pick(STRINGS).to_vec()),
        part: random.chance(1, 2).then(|| value(random, 1, &[2, u64::MAX])),
    }
}

fn row(random: &mut Random) -> Row {
    let kind = random.below(5) as u8;
    let content = matches!(kind, 2 | 4) && random.chance(1, 2);
    let groups = if random.chance(1, 60) { 20 } else { random.between(1, 4) };
    let types = random.below(3);
    Row {
        negated: random.chance(1, 2).then(|| value(random, 1, &[2, 65_536])),
        groups: (0..groups).map(|_| value(random, 12, &[65_535, 65_536])).collect(),
        kind,
        string: if kind == 3 { Vec::new() } else { string(random, if kind == 1 { 5 } else { 8 }) },
        case: if kind == 3 { value(random, 3, &[4, 65_536]) } else { 0 },
        content: content.then(|| string(random, 8)),
        types: (0..types).map(|_| value(random, 2, &[3])).collect(),
    }
}

/// A text of these criteria, with blanks, comments, entities and zeros wherever they may stand.
pub fn text(random: &mut Random, criteria: &[Criterion]) -> Vec<u8> {
    let mut text = Text { random, bytes: Vec::new() };
    if text.random.chance(1, 3) {
        text.bytes.extend(b"<?xml version='1.0'? ??>");
    }
    text.between();
    for criterion in criteria {
        text.criterion(criterion);
    }
    text.bytes
}

struct Text<'a> {
    random: &'a mut Random,
    bytes: Vec<u8>,
}

impl Text<'_> {
    fn between(&mut self) {
        while self.random.chance(1, 5) {
            let kinds: [&[u8]; 8] = [
                b" ",
                b"\t",
                b"\r",
                b"\n",
                b"<!---->",
                b"<!-- <SPT> & -->",
                b"<!-->--->",
                b"<!--a--b- ->\0-->",
            ];
            self.bytes.extend(*self.random.pick(&kinds));
        }
    }

    fn compound(&mut self, tag: &str, inside: impl FnOnce(&mut Self)) {
        self.bytes.extend(format!("<{tag}>").bytes());
        self.between();
        inside(self);
        self.bytes.extend(format!("</{tag}>").bytes());
        self.between();
    }

    fn number(&mut self, tag: &str, value: u64) {
        let zeros = if self.random.chance(1, 6) { self.random.below(30) } else { 0 };
        self.bytes.extend(format!("<{tag}>{}{value}</{tag}>", "0".repeat(zeros)).bytes());
        self.between();
    }

    fn string(&mut self, tag: &str, value: &[u8]) {
        self.bytes.extend(format!("<{tag}>").bytes());
        for &byte in value {
            let entity = ENTITIES.iter().find(|&&(_, stands)| stands == byte);
            match entity {
                Some((name, _)) if b"<&".contains(&byte) || self.random.chance(1, 2) => {
                    self.bytes.extend(name.bytes());
                }
                _ => self.bytes.push(byte),
            }
        }
        self.bytes.extend(format!("</{tag}>").bytes());
        self.between();
    }

    fn criterion(&mut self, criterion: &Criterion) {
        self.compound("InitialFilterCriteria", |text| {
            text.number("Priority", criterion.priority);
            if let Some(cnf) = criterion.cnf {
                text.compound("TriggerPoint", |text| {
                    text.number("ConditionTypeCNF", cnf);
                    criterion.rows.iter().for_each(|row| text.row(row));
                });
            }
            text.compound("ApplicationServer", |text| {
                text.string("ServerName", &criterion.server);
                criterion.handling.iter().for_each(|&handling| text.number("DefaultHandling", handling));
                criterion.information.iter().for_each(|information| text.string("ServiceInfo", information));
            });
            criterion.part.iter().for_each(|&part| text.number("ProfilePartIndicator", part));
        });
    }

    fn row(&mut self, row: &Row) {
        self.compound("SPT", |text| {
            row.negated.iter().for_each(|&negated| text.number("ConditionNegated", negated));
            row.groups.iter().for_each(|&group| text.number("Group", group));
            match row.kind {
                0 => text.string("RequestURI", &row.string),
                1 => text.string("Method", &row.string),
                2 => text.compound("SIPHeader", |text| text.with_content("Header", row)),
                3 => text.number("SessionCase", row.case),
                _ => text.compound("SessionDescription", |text| text.with_content("Line", row)),
            }
            row.types.iter().for_each(|&kind| text.number("RegistrationType", kind));
        });
    }

    fn with_content(&mut self, tag: &str, row: &Row) {
        self.string(tag, &row.string);
        row.content.iter().for_each(|content| self.string("Content", content));
    }
}

/// A byte changed, lost or put in, a part lost, doubled or put elsewhere, or the end lost.
pub fn damaged(random: &mut Random, text: &[u8]) -> Vec<u8> {
    let mut text = text.to_vec();
    let place = random.below(text.len() + 1);
    let end = (place + random.below(60)).min(text.len());
    let byte = if random.chance(1, 2) { *random.pick(b"<>/&;!-? 0aS") } else { random.byte() };
    match random.below(6) {
        0 if place < text.len() => text[place] = byte,
        1 => text.insert(place, byte),
        2 => drop(text.drain(place..end)),
        3 => {
            let part = text[place..end].to_vec();
            text.splice(end..end, part);
        }
        4 => {
            let part: Vec<u8> = text.drain(place..end).collect();
            let place = random.below(text.len() + 1);
            text.splice(place..place, part);
        }
        _ => text.truncate(place),
    }
    text
}
