//! The readings about images: what is met first, and where it is placed.

use crate::case::Case;
use crate::maker::build::check;
use crate::maker::draft::{case_row, Draft, DNF};

/// Two rows; one criterion on both, one without trigger.
fn small() -> Draft {
    let mut draft = Draft::new();
    draft.add_row(case_row(0), &[0, 3]);
    draft.add_row(case_row(1), &[2]);
    draft.criterion(7, DNF, 2);
    draft.criterion(4, DNF, 0);
    draft
}

fn changed(label: &str, change: impl Fn(&mut Draft)) -> Case {
    let mut draft = small();
    change(&mut draft);
    check(label, &draft.bytes())
}

pub fn cases() -> Vec<Case> {
    let mut cases = cut_points();
    cases.extend(row_points());
    cases.extend(criterion_points());
    cases.extend(wrong_string_points());
    cases.push(any_bytes_point());
    cases
}

fn changed_and_cut(label: &str, cut: usize, change: impl Fn(&mut Draft)) -> Case {
    changed(label, |draft| {
        change(draft);
        draft.cut = Some(cut);
    })
}

fn cut_points() -> Vec<Case> {
    let draft = small();
    let row = draft.row_place(1);
    let member = draft.membership_place(1);
    let second = draft.criterion_place(1);
    let falls = |draft: &mut Draft| draft.memberships[0].0 = 1;
    vec![
        changed_and_cut("I1: negated 9 is the last byte", row + 1, |draft| draft.rows[1].negated = 9),
        changed_and_cut("I1: kind 9 is the last byte", row + 2, |draft| draft.rows[1].kind = 9),
        changed_and_cut("I1: part 9 is the last byte", second + 5, |draft| draft.criteria[1].part = 9),
        changed_and_cut("I1: priority again, then the end", second + 4, |draft| {
            draft.criteria[1].priority = 7
        }),
        changed_and_cut("I2: row falls, group cut", member + 2, falls),
        changed_and_cut("I2: row falls, half a group", member + 3, falls),
        changed_and_cut("I2: row falls, group whole", member + 4, falls),
        changed_and_cut("I2: row outside, group cut", member + 2, |draft| draft.memberships[1].0 = 2),
    ]
}

fn row_points() -> Vec<Case> {
    let section_four = small().criterion_count_place();
    let many = |row: u16| (0..9).map(move |group| (row, group));
    vec![
        changed_and_cut("I3: row 0 lacks, section four cut", section_four, lacking_first),
        changed_and_cut("I3: row 0 lacks, half a count", section_four + 1, lacking_first),
        changed_and_cut("I3: row 0 lacks, section three cut", section_four - 1, lacking_first),
        changed("I3: row 0 lacks, count over", |draft| {
            lacking_first(draft);
            draft.counts[3] = Some(65);
        }),
        changed("I3: row 0 lacks, later order fault", |draft| {
            lacking_first(draft);
            draft.memberships[2].1 = 0;
        }),
        changed("I3: ninth of row 0, row 1 lacks", |draft| draft.memberships = many(0).collect()),
        changed("I3: row 0 lacks, ninth of row 1", |draft| draft.memberships = many(1).collect()),
        changed("I3: ninth of row 0, then an order fault", |draft| {
            draft.memberships = many(0).chain([(1, 1), (1, 0)]).collect();
        }),
    ]
}

fn criterion_points() -> Vec<Case> {
    let second = small().criterion_place(1);
    vec![
        changed("I5: first row outside", |draft| draft.criteria[0].first_row = 2),
        changed_and_cut("I5: first row outside, count cut", second - 7, |draft| {
            draft.criteria[0].first_row = 2
        }),
        changed("I5: first row 65535", |draft| draft.criteria[0].first_row = 65_535),
        changed("I17: first row 65535 and one row", |draft| {
            draft.criteria[0].first_row = 65_535;
            draft.criteria[0].row_count = 1;
        }),
        changed("I6: priority again", |draft| draft.criteria[1].priority = 7),
        changed("I6: priority again and part 3", |draft| {
            draft.criteria[1].priority = 7;
            draft.criteria[1].part = 3;
        }),
        changed("I6: priority again after a fault", |draft| {
            draft.criteria[1].priority = 7;
            draft.criteria[0].handling = 3;
        }),
        changed("I6: three of one priority", |draft| {
            draft.criteria[1].priority = 7;
            draft.criterion(7, DNF, 0);
        }),
        changed("I6: two pairs", |draft| {
            draft.criterion(4, DNF, 0);
            draft.criterion(7, DNF, 0).part = 3;
        }),
    ]
}

/// Bytes no request can have: nothing but nonempty is asked of them.
fn any_bytes_point() -> Case {
    let mut draft = Draft::new();
    let row = draft.text_row(0, b"a b\x00\xFF", None);
    draft.single(1, row);
    draft.criteria[0].server = draft.rows[0].first;
    check("I11: RequestURI and server of any bytes", &draft.bytes())
}

fn lacking_first(draft: &mut Draft) {
    draft.memberships = vec![(1, 0), (1, 1), (1, 2)];
}

/// A header row whose strings are wrong, with another fault behind.
fn wrong_string_points() -> Vec<Case> {
    let make = |label: &str, change: fn(&mut Draft)| {
        let mut draft = small();
        let row = draft.text_row(2, b"a**", Some(b"b"));
        draft.add_row(row, &[0]);
        draft.rows.swap(1, 2);
        draft.memberships = vec![(0, 0), (1, 0), (2, 0)];
        change(&mut draft);
        check(label, &draft.bytes())
    };
    vec![
        make("I9: wrong first", |_| {}),
        make("I9: wrong first, second outside", |draft| draft.rows[1].second = 99),
        make("I9: wrong first, set 7", |draft| draft.rows[1].set = 7),
        make("I9: wrong first, next row wrong", |draft| draft.rows[2].kind = 9),
        make("I9: wrong first, memberships out of order", |draft| draft.memberships.swap(0, 1)),
        make("I9: wrong first, priority again", |draft| draft.criteria[1].priority = 7),
        make("I9: wrong first, byte after", |draft| draft.tail.push(1)),
        make("I9: wrong first, negated 2 before", |draft| draft.rows[0].negated = 2),
        make("I9: first outside, wrong second", |draft| {
            let wrong = draft.rows[1].first;
            draft.rows[1].first = 99;
            draft.rows[1].second = wrong;
        }),
        make("I10: wrong string of a row no criterion uses", |draft| {
            draft.criteria[0].first_row = 0;
            draft.criteria[0].row_count = 1;
        }),
        make("I9: empty server, handling 3", |draft| {
            draft.criteria[0].server = draft.strings.len() as u16;
            draft.strings.push(Vec::new());
            draft.criteria[0].handling = 3;
            draft.rows[1].first = draft.rows[1].second;
        }),
    ]
}
