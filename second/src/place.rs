//! Where a pattern fits a text: its parts are tried one after the other.

use crate::pattern::{Element, Pattern};
use crate::twist::{twisted, Twist};

/// A part of a text.
#[derive(Clone, Copy, PartialEq, Eq, PartialOrd, Ord, Debug)]
pub struct Place {
    pub start: usize,
    pub length: usize,
}

/// In texts up to this long every part is tried by itself. In longer ones all parts that begin at one place are tried at once.
const TRIED: usize = 80;

/// "The smallest start, and of those the longest length"; no part fits if `None`. Empty parts are parts.
pub fn place(pattern: &Pattern, text: &[u8]) -> Option<Place> {
    if let Some(other) = other_place(pattern, text) {
        return other;
    }
    let longest = if text.len() <= TRIED { longest_tried } else { longest_reached };
    (0..=text.len()).find_map(|start| longest(pattern, text, start).map(|length| Place { start, length }))
}

/// The longest part from this start that fits, part by part.
pub fn longest_tried(pattern: &Pattern, text: &[u8], start: usize) -> Option<usize> {
    (0..=text.len() - start).rev().find(|&length| fits(pattern, text, Place { start, length }))
}

/// Whether exactly this part fits.
pub fn fits(pattern: &Pattern, text: &[u8], part: Place) -> bool {
    let end = part.start + part.length;
    let held = (!pattern.at_start || part.start == 0) && (!pattern.at_end || end == text.len());
    held && whole(&pattern.elements, &text[part.start..end])
}

/// Whether the elements, one after the other, take all of this text.
fn whole(elements: &[Element], text: &[u8]) -> bool {
    let mut reached = vec![false; text.len() + 1];
    reached[0] = true;
    for element in elements {
        let mut after = vec![false; text.len() + 1];
        for place in 0..=text.len() {
            after[place] = element.repeats && reached[place]
                || place > 0
                    && element.set.has(text[place - 1])
                    && (reached[place - 1] || element.repeats && after[place - 1]);
        }
        reached = after;
        if !reached.contains(&true) {
            return false;
        }
    }
    reached[text.len()]
}

/// The same with the ends of all parts from this start at once, rising: texts of 65,535 bytes have two thousand million parts.
pub fn longest_reached(pattern: &Pattern, text: &[u8], start: usize) -> Option<usize> {
    if pattern.at_start && start > 0 {
        return None;
    }
    let mut ends = vec![start];
    for element in &pattern.elements {
        let mut after: Vec<usize> = Vec::new();
        for &end in &ends {
            let mut end = end;
            if element.repeats && after.last().is_none_or(|&last| last < end) {
                after.push(end);
            }
            while end < text.len() && element.set.has(text[end]) {
                end += 1;
                let new = after.last().is_none_or(|&last| last < end);
                if new {
                    after.push(end);
                }
                if !element.repeats || !new {
                    break;
                }
            }
        }
        ends = after;
    }
    let held = ends.last().filter(|&&end| !pattern.at_end || end == text.len());
    held.map(|end| end - start)
}

/// Other ways to choose among the parts that fit.
fn other_place(pattern: &Pattern, text: &[u8]) -> Option<Option<Place>> {
    let parts = || {
        let all = (0..=text.len())
            .flat_map(|start| (0..=text.len() - start).map(move |length| Place { start, length }));
        all.filter(|&part| fits(pattern, text, part))
    };
    match () {
        _ if text.len() > TRIED => None,
        _ if twisted(Twist::ShownShortest) => Some(parts().next()),
        _ if twisted(Twist::ShownLargestStart) => Some(parts().last()),
        _ if twisted(Twist::ShownLongestAnywhere) => {
            Some(parts().min_by_key(|part| (usize::MAX - part.length, part.start)))
        }
        _ if twisted(Twist::ShownEmptyNever) => {
            let taken = parts().filter(|part| part.length > 0);
            Some(taken.min_by_key(|part| (part.start, usize::MAX - part.length)))
        }
        _ => None,
    }
}
