//! Whether some part of a text fits a pattern: the set of places reached so far is carried
//! over one element after another, so the work is elements times bytes.

use crate::pattern::{Element, Pattern};
use crate::twist::{twisted, Twist};

/// How an element meets a byte.
#[derive(Clone, Copy, PartialEq, Eq)]
pub enum Letters {
    AsWritten,
    /// "On a name an element meets a byte if it meets its lower or its upper form."
    EitherForm,
}

pub fn matches(pattern: &Pattern, text: &[u8], letters: Letters) -> bool {
    let anywhere = !pattern.at_start || twisted(Twist::StartAnchorIgnored);
    let mut reached = vec![anywhere && !twisted(Twist::WholeTextOnly); text.len() + 1];
    reached[0] = true;
    for element in &pattern.elements {
        let met = met_bytes(element, letters);
        reached = match element.repeats {
            true => after_repeat(reached, text, &met),
            false => after_one(&reached, text, &met),
        };
        if !reached.contains(&true) {
            return false;
        }
    }
    if twisted(Twist::EmptyTextNeverFits) && text.is_empty() {
        return false;
    }
    let till_end = pattern.at_end && !twisted(Twist::EndAnchorIgnored) || twisted(Twist::WholeTextOnly);
    !till_end || reached[text.len()]
}

fn met_bytes(element: &Element, letters: Letters) -> [bool; 256] {
    let mut met = [false; 256];
    for byte in 0..=255u8 {
        met[byte as usize] = match letters {
            Letters::AsWritten => element.set.has(byte),
            Letters::EitherForm => meets_either(element, byte),
        };
    }
    met
}

fn meets_either(element: &Element, byte: u8) -> bool {
    let (mut lower, mut upper) = (byte.to_ascii_lowercase(), byte.to_ascii_uppercase());
    if twisted(Twist::FoldsEveryByte) {
        (lower, upper) = (byte | 0x20, byte & !0x20);
    }
    if twisted(Twist::FoldsToLowerOnly) {
        upper = lower;
    }
    if twisted(Twist::FoldedBeforeNegation) && element.negated {
        return element.set.has(lower) && element.set.has(upper);
    }
    element.set.has(lower) || element.set.has(upper)
}

fn after_one(reached: &[bool], text: &[u8], met: &[bool; 256]) -> Vec<bool> {
    let mut after = vec![false; reached.len()];
    for (place, &byte) in text.iter().enumerate() {
        after[place + 1] = reached[place] && met[byte as usize];
    }
    after
}

fn after_repeat(mut reached: Vec<bool>, text: &[u8], met: &[bool; 256]) -> Vec<bool> {
    if twisted(Twist::RepeatAtMostOnce) {
        let once = after_one(&reached, text, met);
        return reached.iter().zip(once).map(|(&none, one)| none || one).collect();
    }
    for (place, &byte) in text.iter().enumerate() {
        if reached[place] && met[byte as usize] {
            reached[place + 1] = true;
        }
    }
    if twisted(Twist::RepeatNeedsOne) {
        return after_one(&reached, text, met);
    }
    reached
}
