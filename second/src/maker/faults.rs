//! Every image fault at every field it can have, alone, in pairs and with a cut.

use super::build;
use super::draft::{case_row, Draft, ABSENT, CNF, DNF};
use crate::case::Case;

/// A fault that shifts nothing: number and place, and the end of the field it is met at.
pub struct ImageFault {
    pub label: String,
    pub number: u32,
    pub place: usize,
    pub met: usize,
    pub apply: Box<dyn Fn(&mut Draft)>,
}

const EMPTY: u16 = 5;
const NO_TOKEN: u16 = 6;
const BAD_PATTERN: u16 = 4;
const OUTSIDE: u16 = 8;

/// A whole image with two or more of everything.
pub fn base() -> Draft {
    let mut draft = Draft::new();
    for string in ["INVITE", "From", "joe", "[z-a]", "", "a b", "m"] {
        draft.strings.push(string.as_bytes().to_vec());
    }
    let uri = draft.text_row(0, b"sip:a", None);
    draft.add_row(uri, &[0, 1, 2, 3, 4, 5, 6, 7]);
    let method = draft.text_row(1, b"INVITE", None);
    draft.add_row(method, &[0, 1]);
    draft.criterion(5, DNF, 2).handling = 1;
    let header = draft.text_row(2, b"From", Some(b"joe"));
    draft.add_row(header, &[0, 5]);
    draft.add_row(case_row(3), &[1]);
    let line = draft.text_row(4, b"m", Some(b"joe"));
    draft.add_row(line, &[0]);
    draft.criterion(3, CNF, 3);
    draft.criterion(9, DNF, 0).handling = 2;
    draft.criteria[0].information = EMPTY;
    draft.criteria[2].information = 3;
    draft.criteria[0].part = 0;
    draft.criteria[2].part = 1;
    draft
}

struct List {
    base: Draft,
    faults: Vec<ImageFault>,
}

impl List {
    fn add(
        &mut self,
        label: &str,
        number: u32,
        place: usize,
        width: usize,
        apply: impl Fn(&mut Draft) + 'static,
    ) {
        let fault = ImageFault {
            label: label.to_string(),
            number,
            place,
            met: place + width,
            apply: Box::new(apply),
        };
        self.faults.push(fault);
    }

    fn counts(&mut self) {
        let base = &self.base;
        let counts = [
            ("strings", 0, 1, 1_025),
            ("rows", 1, base.row_count_place(), 2_049),
            ("memberships", 2, base.membership_count_place(), 16_385),
            ("criteria", 3, base.criterion_count_place(), 65),
        ];
        for (name, section, place, over) in counts {
            for count in [over, 65_535] {
                let label = format!("{count} {name}");
                self.add(&label, 4, place, 2, move |draft| draft.counts[section] = Some(count));
            }
        }
    }

    fn strings(&mut self) {
        self.add("edition 0", 4, 0, 1, |draft| draft.edition = 0);
        self.add("edition 2", 4, 0, 1, |draft| draft.edition = 2);
        for number in [0, 7] {
            let place = self.base.string_place(number);
            for length in [1_025, 65_535] {
                let label = format!("string {number} of {length} bytes");
                self.add(&label, 4, place, 2, move |draft| draft.lengths.push((number, length)));
            }
        }
    }

    fn row(&mut self, row: usize, field: &str, value: u16, number: u32) {
        let (offset, width) = match field {
            "negated" => (0, 1),
            "kind" => (1, 1),
            "first" => (2, 2),
            "second" => (4, 2),
            _ => (6, 1),
        };
        let place = self.base.row_place(row) + offset;
        let label = format!("row {row} {field} {value}");
        self.add(&label, number, place, width, move |draft| {
            let row = &mut draft.rows[row];
            match offset {
                0 => row.negated = value as u8,
                1 => row.kind = value as u8,
                2 => row.first = value,
                4 => row.second = value,
                _ => row.set = value as u8,
            }
        });
    }

    fn rows(&mut self) {
        for row in 0..5 {
            self.row(row, "negated", if row == 4 { 255 } else { 2 }, 4);
            self.row(row, "kind", if row == 1 { 255 } else { 5 }, 4);
            self.row(row, "set", if row == 3 { 255 } else { 7 }, 4);
            if row != 3 {
                self.row(row, "first", OUTSIDE, 4);
                self.row(row, "first", ABSENT, 4);
                self.row(row, "first", EMPTY, 5);
            }
        }
        self.row(1, "first", NO_TOKEN, 5);
        self.row(3, "first", 4, 4);
        self.row(3, "first", ABSENT, 4);
        for row in [0, 1, 3] {
            self.row(row, "second", 3, 4);
            self.row(row, "second", 65_534, 4);
        }
        for row in [2, 4] {
            self.row(row, "first", BAD_PATTERN, 5);
            self.row(row, "second", OUTSIDE, 4);
            self.row(row, "second", 65_534, 4);
            self.row(row, "second", EMPTY, 5);
            self.row(row, "second", BAD_PATTERN, 5);
        }
    }

    fn memberships(&mut self) {
        let place = |number| self.base.membership_place(number);
        let places = [place(0), place(9), place(11), place(13)];
        let end = self.base.criterion_count_place();
        let row_places = [self.base.row_place(0), self.base.row_place(3)];
        self.add("membership 0 of row 5", 4, places[0], 2, |draft| draft.memberships[0].0 = 5);
        self.add("membership 13 of row 65535", 4, places[3], 2, |draft| draft.memberships[13].0 = 65_535);
        self.add("membership 9 repeated", 4, places[1], 4, |draft| draft.memberships[9].1 = 0);
        self.add("membership 11 of a lower row", 4, places[2], 4, |draft| draft.memberships[11].0 = 1);
        self.add("membership 11 of a lower group", 4, places[2], 4, |draft| {
            draft.memberships[10].1 = 9;
        });
        self.add("row 0 with a ninth", 4, row_places[0], end - row_places[0], |draft| {
            draft.memberships[8] = (0, 8)
        });
        self.add("row 3 without", 4, row_places[1], end - row_places[1], |draft| {
            draft.memberships[12] = (2, 6)
        });
    }

    fn criterion(
        &mut self,
        which: usize,
        label: &str,
        number: u32,
        offset: usize,
        width: usize,
        apply: impl Fn(&mut super::draft::CriterionDraft) + 'static,
    ) {
        let place = self.base.criterion_place(which) + offset;
        let label = format!("criterion {which} {label}");
        self.add(&label, number, place, width, move |draft| apply(&mut draft.criteria[which]));
    }

    fn criteria(&mut self) {
        self.criterion(1, "priority 5 again", 6, 0, 4, |criterion| criterion.priority = 5);
        self.criterion(2, "priority 3 again", 6, 0, 4, |criterion| criterion.priority = 3);
        self.criterion(2, "priority 5 again", 6, 0, 4, |criterion| criterion.priority = 5);
        for which in 0..3 {
            self.criterion(which, "part 3", 4, 4, 1, |criterion| criterion.part = 3);
            self.criterion(which, "form 3", 4, 5, 1, |criterion| criterion.form = 3);
            self.criterion(which, "server outside", 4, 10, 2, |criterion| criterion.server = OUTSIDE);
            self.criterion(which, "server 65535", 4, 10, 2, |criterion| criterion.server = ABSENT);
            self.criterion(which, "server empty", 5, 10, 2, |criterion| criterion.server = EMPTY);
            self.criterion(which, "handling 3", 4, 12, 1, |criterion| criterion.handling = 3);
            self.criterion(which, "information outside", 4, 13, 2, |criterion| {
                criterion.information = OUTSIDE
            });
            self.criterion(which, "information 65534", 4, 13, 2, |criterion| criterion.information = 65_534);
        }
        for which in 0..2 {
            self.criterion(which, "no rows", 4, 8, 2, |criterion| criterion.row_count = 0);
            self.criterion(which, "33 rows", 4, 8, 2, |criterion| criterion.row_count = 33);
            self.criterion(which, "6 rows", 4, 8, 2, |criterion| criterion.row_count = 6);
            let place = self.base.criterion_place(which);
            for first in [5, 65_535] {
                let label = format!("criterion {which} first row {first}");
                self.add(&label, 4, place + 8, 2, move |draft| draft.criteria[which].first_row = first);
            }
        }
        self.criterion(2, "first row 1", 4, 6, 2, |criterion| criterion.first_row = 1);
        self.criterion(2, "row count 1", 4, 8, 2, |criterion| criterion.row_count = 1);
    }
}

/// All of them, in reading order.
pub fn faults() -> Vec<ImageFault> {
    let mut list = List { base: base(), faults: Vec::new() };
    list.counts();
    list.strings();
    list.rows();
    list.memberships();
    list.criteria();
    let end = list.base.end();
    list.add("a byte after", 3, end, 1, |draft| draft.tail.push(0));
    list.add("bytes after", 3, end, 1, |draft| draft.tail.extend([0; 9]));
    list.faults.sort_by_key(|fault| (fault.met, fault.place));
    list.faults
}

pub fn cases() -> Vec<Case> {
    let mut cases = singles();
    cases.extend(pairs());
    cases.extend(cuts());
    cases
}

fn with(faults: &[&ImageFault]) -> (String, Draft) {
    let mut draft = base();
    faults.iter().for_each(|fault| (fault.apply)(&mut draft));
    let labels: Vec<&str> = faults.iter().map(|fault| fault.label.as_str()).collect();
    (format!("fault: {}", labels.join(", ")), draft)
}

/// Each alone, in every call that takes an image.
fn singles() -> Vec<Case> {
    let mut cases = Vec::new();
    for fault in &faults() {
        let (label, draft) = with(&[fault]);
        let image = draft.bytes();
        cases.push(build::check(&label, &image));
        cases.push(build::advance(&label, &image, build::INVITE, build::FORWARDED));
        cases.push(build::list(&label, &image, build::REGISTER, 0, 0, 5));
        cases.push(build::server(&label, &image, 0));
        cases.push(build::information(&label, &image, 0));
        cases.push(build::show(&label, &image, build::INVITE, 2));
    }
    cases
}

fn pairs() -> Vec<Case> {
    let faults = faults();
    let mut cases = Vec::new();
    for (place, first) in faults.iter().enumerate() {
        for second in &faults[place + 1..] {
            let (label, draft) = with(&[first, second]);
            cases.push(build::check(&label, &draft.bytes()));
        }
    }
    cases
}

/// The whole image cut at every byte, and each fault cut about the field it is met at.
fn cuts() -> Vec<Case> {
    let whole = base().bytes();
    let mut cases: Vec<Case> =
        (0..=whole.len()).map(|length| build::check(&format!("cut at {length}"), &whole[..length])).collect();
    for fault in &faults() {
        let (label, draft) = with(&[fault]);
        let bytes = draft.bytes();
        for cut in [fault.place, fault.met - 1, fault.met, fault.met + 1] {
            if cut < bytes.len() {
                cases.push(build::check(&format!("{label}, cut at {cut}"), &bytes[..cut]));
            }
        }
    }
    cases
}
