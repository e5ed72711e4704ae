//! Criteria in the order they are looked at, with the two counts.

use crate::criterion::{fits, part_fits};
use crate::profile::{Criterion, Profile};
use crate::row::Subject;
use crate::twist::{twisted, Twist};

#[derive(Clone, Copy, PartialEq, Eq, Default, Debug)]
pub struct Counts {
    pub examined: u32,
    pub trials: u32,
}

/// Criterion numbers with priority above `last` (all, if none), smallest priority first.
pub fn above(profile: &Profile, last: Option<u32>) -> Vec<usize> {
    let mut numbers: Vec<usize> = (0..profile.criteria.len()).collect();
    numbers.retain(|&number| is_above(&profile.criteria[number], last));
    if !twisted(Twist::ImageOrder) {
        numbers.sort_by_key(|&number| profile.criteria[number].priority);
    }
    if twisted(Twist::LargeNumbersFirst) {
        numbers.reverse();
    }
    numbers
}

fn is_above(criterion: &Criterion, last: Option<u32>) -> bool {
    let Some(last) = last else {
        return !(twisted(Twist::PriorityZeroNeverFirst) && criterion.priority == 0);
    };
    match () {
        _ if twisted(Twist::LastLookedAtAgain) => criterion.priority >= last,
        _ if twisted(Twist::LastForgotten) => true,
        _ if twisted(Twist::PrioritiesSigned) => criterion.priority as i32 > last as i32,
        _ => criterion.priority > last,
    }
}

/// The first fitting criterion of `numbers`, or none, and the counts up to and with it.
pub fn first_fitting(profile: &Profile, numbers: &[usize], subject: &Subject) -> (Option<usize>, Counts) {
    let mut counts = Counts::default();
    for &number in numbers {
        let criterion = &profile.criteria[number];
        let verdict = fits(profile, criterion, subject);
        counts.examined += counted(criterion, subject);
        if verdict.fits {
            counts.trials += if twisted(Twist::AnswerTrialsNotCounted) { 0 } else { verdict.trials };
            if twisted(Twist::ExaminedWithoutAnswer) {
                counts.examined -= 1;
            }
            return (Some(number), counts);
        }
        counts.trials += verdict.trials;
    }
    if twisted(Twist::RouteExaminedNone) {
        counts.examined = 0;
    }
    if twisted(Twist::RouteExaminedWholeImage) {
        counts.examined = profile.criteria.len() as u32;
    }
    (None, counts)
}

fn counted(criterion: &Criterion, subject: &Subject) -> u32 {
    let misfit = !part_fits(criterion.part, subject.session_case);
    !(twisted(Twist::MisfittingPartNotExamined) && misfit) as u32
}

/// Every fitting criterion of `numbers`, in that order.
pub fn all_fitting(profile: &Profile, numbers: &[usize], subject: &Subject) -> (Vec<usize>, Counts) {
    let mut counts = Counts::default();
    let mut listed = Vec::new();
    for &number in numbers {
        let criterion = &profile.criteria[number];
        let verdict = fits(profile, criterion, subject);
        counts.examined += counted(criterion, subject);
        counts.trials += verdict.trials;
        if verdict.fits {
            listed.push(number);
        }
    }
    if twisted(Twist::SharedRowsTriedOnce) {
        counts.trials -= shared_trials(profile, subject);
    }
    if twisted(Twist::ListingExaminedIsCount) {
        counts.examined = listed.len() as u32;
    }
    (listed, counts)
}

/// What the second and later uses of a row add to the trials.
fn shared_trials(profile: &Profile, subject: &Subject) -> u32 {
    let using = |row: usize| {
        let criteria =
            profile.criteria.iter().filter(|criterion| part_fits(criterion.part, subject.session_case));
        criteria.filter(|criterion| criterion.rows.contains(&row)).count() as u32
    };
    let rows = profile.rows.iter().enumerate();
    rows.map(|(number, row)| crate::row::judge(row, subject).trials * using(number).saturating_sub(1)).sum()
}
