//! Image faults against the number and place written beside each in the maker's list.

mod common;
use common::*;
use second::maker::draft::Draft;
use second::maker::faults::{base, faults, ImageFault};

fn with(chosen: &[&ImageFault]) -> Draft {
    let mut draft = base();
    chosen.iter().for_each(|fault| (fault.apply)(&mut draft));
    draft
}

fn named(fault: &ImageFault) -> (u32, u32) {
    (fault.number, fault.place as u32)
}

#[test]
fn the_base_has_none() {
    assert_eq!(check_draft(&base()), (0, 0));
}

#[test]
fn each_alone() {
    let faults = faults();
    assert!(faults.len() >= 100);
    for fault in &faults {
        assert_eq!(check_draft(&with(&[fault])), named(fault), "{}", fault.label);
    }
}

/// A ninth membership of row 0 takes the membership that another repeats.
fn undo_each_other(first: &ImageFault, second: &ImageFault) -> bool {
    first.label == "membership 9 repeated" && second.label == "row 0 with a ninth"
}

/// "The first fault in reading order."
#[test]
fn of_each_pair_the_first() {
    let faults = faults();
    let mut pairs = 0;
    for (place, first) in faults.iter().enumerate() {
        for second in &faults[place + 1..] {
            if undo_each_other(first, second) {
                continue;
            }
            let found = check_draft(&with(&[first, second]));
            // Two values for one field: the one written last stands.
            let expected =
                if first.met == second.met && first.place == second.place { second } else { first };
            assert_eq!(found, named(expected), "{}; {}", first.label, second.label);
            pairs += 1;
        }
    }
    assert!(pairs > 5_000);
}

/// "Number 2 is placed at the image's length and met at the field that is cut."
#[test]
fn each_with_every_cut() {
    for fault in &faults() {
        let whole = with(&[fault]).bytes();
        for cut in 0..whole.len() {
            let expected = if fault.met <= cut { named(fault) } else { (2, cut as u32) };
            // A byte after the criteria is no field that could be cut.
            let expected = if fault.number == 3 && cut == fault.place { (0, 0) } else { expected };
            assert_eq!(check(&whole[..cut]), expected, "{}, cut at {cut}", fault.label);
        }
    }
}
