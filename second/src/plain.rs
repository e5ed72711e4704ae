//! The plain matcher's call (change request 7): an edition 1 pattern on a text of at most 256 bytes. It is answered as CR 2 says,
//! by trying the parts of the text, and not by the choices that the call's own matcher goes through; those are only counted.

use crate::pattern::{self, Element, Pattern};
use crate::place::{place, Place};
use crate::twist::{twisted, Twist};

pub const TEXT_MOST: usize = 256;

fn text_most() -> usize {
    match () {
        _ if twisted(Twist::Plain256Refused) => TEXT_MOST - 1,
        _ if twisted(Twist::Plain257Taken) => TEXT_MOST + 1,
        _ => TEXT_MOST,
    }
}

/// "Refusals: 5, then 17 for a longer text."
pub fn plain(pattern: &[u8], text: &[u8]) -> Result<Option<Place>, u32> {
    let long = text.len() > text_most();
    if twisted(Twist::PlainTextJudgedFirst) && long {
        return Err(17);
    }
    if twisted(Twist::PlainEmptyPatternNowhere) && pattern.is_empty() && !long {
        return Ok(None);
    }
    if twisted(Twist::PlainLongPatternRefused) && pattern.len() > 1_024 {
        return Err(5);
    }
    let pattern = pattern::read(pattern).ok_or(5u32)?;
    if long {
        return Err(if twisted(Twist::PlainLongTextAsFive) { 5 } else { 17 });
    }
    Ok(place(&other_pattern(pattern), text))
}

/// Other ways to read its elements.
fn other_pattern(mut pattern: Pattern) -> Pattern {
    if twisted(Twist::PlainFolded) {
        for element in &mut pattern.elements {
            for byte in b'a'..=b'z' {
                for (one, other) in [(byte, byte - 32), (byte - 32, byte)] {
                    if element.set.has(one) {
                        element.set.add(other);
                    }
                }
            }
        }
    }
    if twisted(Twist::PlainStarTakesOne) {
        let once = |element: &Element| Element { repeats: false, ..*element };
        pattern.elements = pattern
            .elements
            .iter()
            .flat_map(|element| if element.repeats { vec![once(element), *element] } else { vec![*element] })
            .collect();
    }
    pattern
}

/// How many turns it takes to try the choices one after the other, from each start up to the first that fits: an element takes a
/// byte or, if it repeats, is left out, and every choice is tried to its end. Never more than `u64::MAX` are told.
pub fn turns(pattern: &Pattern, text: &[u8]) -> u64 {
    // From the end of the pattern to its beginning: at each place of the text the turns, and whether some way fits.
    let end = |place: usize| (1u64, !pattern.at_end || place == text.len());
    let mut after: Vec<(u64, bool)> = (0..=text.len()).map(end).collect();
    for element in pattern.elements.iter().rev() {
        let mut here = vec![(1, false); text.len() + 1];
        for place in (0..=text.len()).rev() {
            let takes = place < text.len() && element.set.has(text[place]);
            let ways = match (element.repeats, takes) {
                (true, true) => vec![after[place], here[place + 1]],
                (true, false) => vec![after[place]],
                (false, true) => vec![after[place + 1]],
                (false, false) => vec![],
            };
            here[place] = ways.iter().fold((1, false), |(turns, fits): (u64, bool), way| {
                (turns.saturating_add(way.0), fits || way.1)
            });
        }
        after = here;
    }
    let mut sum: u64 = 0;
    for (turns, fits) in after {
        sum = sum.saturating_add(turns);
        if fits || pattern.at_start {
            break;
        }
    }
    sum
}
