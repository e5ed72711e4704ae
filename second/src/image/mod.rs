//! The image, walked field by field: the layout says which field comes next, the judge
//! judges it as soon as it is whole.

mod criteria;
mod judge;
mod layout;
mod memberships;
mod rows;
mod strings;

use crate::profile::{Fault, Profile};
use crate::twist::{twisted, Twist};
use judge::Judge;
use layout::{Field, Section, Width, SECTIONS};

fn most_bytes() -> usize {
    match () {
        _ if twisted(Twist::ImageAtMost32767) => 32_767,
        _ if twisted(Twist::ImageAtMost32769) => 32_769,
        _ => 32_768,
    }
}

pub fn read(image: &[u8]) -> Result<Profile, Fault> {
    if image.len() > most_bytes() {
        let place = if twisted(Twist::OverlongPlacedAtLimit) { most_bytes() } else { 0 };
        return Err(Fault { number: 1, place });
    }
    judged(image)
}

/// The faults 2 to 6 of an image of any length.
pub fn judged(image: &[u8]) -> Result<Profile, Fault> {
    let mut walk = Walk { image, place: 0, judge: Judge::new(image) };
    walk.field(Field::Edition, 1)?;
    for section in &SECTIONS {
        walk.section(section)?;
    }
    walk.judge.postponed()?;
    if walk.place < image.len() && !twisted(Twist::BytesAfterAccepted) {
        let place = if twisted(Twist::BytesAfterPlacedAtLength) { image.len() } else { walk.place };
        return Err(Fault { number: 3, place });
    }
    Ok(walk.judge.profile)
}

struct Walk<'a> {
    image: &'a [u8],
    place: usize,
    judge: Judge<'a>,
}

impl Walk<'_> {
    /// "Number 2 is placed at the image's length and met at the field that is cut."
    fn cut(&self) -> Fault {
        let place = if twisted(Twist::CutPlacedAtField) { self.place } else { self.image.len() };
        Fault { number: 2, place }
    }

    fn left(&self) -> usize {
        self.image.len() - self.place
    }

    fn field(&mut self, field: Field, width: usize) -> Result<u32, Fault> {
        if self.left() < width {
            return Err(self.cut());
        }
        let bytes = &self.image[self.place..self.place + width];
        let value = match field {
            Field::StringBytes => width as u32,
            _ => bytes.iter().fold(0, |number, &byte| number << 8 | u32::from(byte)),
        };
        self.judge.judge(field, self.place, value)?;
        self.place += width;
        Ok(value)
    }

    fn section(&mut self, section: &Section) -> Result<(), Fault> {
        if twisted(Twist::CountJudgedAfterCut) {
            self.count_after_cut(section)?;
        }
        let count = self.field(section.count, 2)?;
        self.judge.section_begins();
        for _ in 0..count {
            self.record(section)?;
        }
        self.judge.section_ends(section.count, self.place)
    }

    fn record(&mut self, section: &Section) -> Result<(), Fault> {
        let whole_first = section.count == Field::RowCount && twisted(Twist::RowWholeFirst)
            || section.count == Field::CriterionCount && twisted(Twist::CriterionWholeFirst);
        if whole_first && self.left() < section.width() {
            return Err(self.cut());
        }
        self.judge.record_begins(self.place);
        let mut value = 0;
        for &(field, width) in section.record {
            let width = match width {
                Width::Bytes(width) => width,
                Width::AsJustRead => value as usize,
            };
            value = self.field(field, width)?;
        }
        self.judge.record_ends()
    }

    /// The wrong order: a count is held against the bytes behind it before its bound.
    fn count_after_cut(&self, section: &Section) -> Result<(), Fault> {
        let rest = &self.image[self.place..];
        let [high, low, behind @ ..] = rest else { return Ok(()) };
        let count = usize::from(*high) << 8 | usize::from(*low);
        if behind.len() < count * section.width() {
            return Err(self.cut());
        }
        Ok(())
    }
}
