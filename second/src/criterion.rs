//! When a trigger and a criterion fit.

use crate::profile::{Criterion, Form, Profile, Row};
use crate::row::{judge, Subject, Verdict};
use crate::twist::{twisted, Twist};
use std::collections::BTreeSet;

/// "Part 0 fits cases 0 and 1, part 1 cases 2 and 3, absent all."
pub fn part_fits(part: u32, session_case: u32) -> bool {
    match part {
        _ if twisted(Twist::PartIgnored) => true,
        0 if twisted(Twist::OriginatingUnregisteredIsRegistered) => session_case != 2,
        1 if twisted(Twist::OriginatingUnregisteredIsRegistered) => session_case == 2,
        0 if twisted(Twist::PartsOddEven) => session_case & 1 == 0,
        1 if twisted(Twist::PartsOddEven) => session_case & 1 == 1,
        0 => session_case < 2,
        1 => session_case >= 2,
        _ => !(twisted(Twist::AbsentPartIsRegistered) && session_case >= 2),
    }
}

/// Part, then trigger. Trials are 0 if the part does not fit.
pub fn fits(profile: &Profile, criterion: &Criterion, subject: &Subject) -> Verdict {
    if !part_fits(criterion.part, subject.session_case) {
        if twisted(Twist::TrialsWhenPartMisfits) {
            return Verdict { fits: false, trials: trigger(profile, criterion, subject).trials };
        }
        return Verdict { fits: false, trials: 0 };
    }
    if criterion.form == Form::NoTrigger {
        let trials = twisted(Twist::NoTriggerOneTrial) as u32;
        return Verdict { fits: !twisted(Twist::NoTriggerNeverFits), trials };
    }
    trigger(profile, criterion, subject)
}

fn trigger(profile: &Profile, criterion: &Criterion, subject: &Subject) -> Verdict {
    let rows = &profile.rows[criterion.rows.clone()];
    let verdicts: Vec<Verdict> = rows.iter().map(|row| judge(row, subject)).collect();
    let group_rows = |group: u32| -> Vec<bool> {
        let member = rows.iter().zip(&verdicts).filter(move |(row, _)| row.groups.contains(&group));
        member.map(|(_, verdict)| verdict.fits).collect()
    };
    let groups = groups(profile, criterion);
    let cnf = (criterion.form == Form::Cnf) != twisted(Twist::FormsSwapped);
    let fits = match cnf {
        true if twisted(Twist::GroupNegatedInPlaceOfRow) => {
            groups.iter().all(|&group| negated_group(rows, subject, group))
        }
        true => groups.iter().all(|&group| group_rows(group).contains(&true)),
        false => groups.iter().any(|&group| !group_rows(group).contains(&false)),
    };
    Verdict { fits, trials: trials(rows, &verdicts, cnf) }
}

/// "Groups belong to one trigger only": those of the trigger's own rows.
fn groups(profile: &Profile, criterion: &Criterion) -> BTreeSet<u32> {
    let rows = match twisted(Twist::GroupsOfWholeTable) {
        true => &profile.rows[..],
        false => &profile.rows[criterion.rows.clone()],
    };
    match twisted(Twist::FirstGroupOnly) {
        true => rows.iter().filter_map(|row| row.groups.first().copied()).collect(),
        false => rows.iter().flat_map(|row| row.groups.iter().copied()).collect(),
    }
}

/// "Every row once with no skipping."
fn trials(rows: &[Row], verdicts: &[Verdict], cnf: bool) -> u32 {
    let mut trials = 0;
    for (row, verdict) in rows.iter().zip(verdicts) {
        let times = if twisted(Twist::TrialsPerGroup) { row.groups.len() as u32 } else { 1 };
        trials += verdict.trials * times;
        if twisted(Twist::RowsSkippedWhenDecided) && verdict.fits == cnf {
            break;
        }
    }
    trials
}

/// The wrong way of document 01's list: a negated row turns its whole group.
fn negated_group(rows: &[Row], subject: &Subject, group: u32) -> bool {
    let members: Vec<&Row> = rows.iter().filter(|row| row.groups.contains(&group)).collect();
    let turned = members.iter().any(|row| row.negated);
    let some = members.iter().any(|row| judge(row, subject).fits != row.negated);
    some != turned
}
