//! The same place by trying every part of a text: slow, and with nothing in common with the derivatives but the tree.

use super::{Alternative, Pattern, Row, Tree};
use crate::place::Place;

pub fn place(pattern: &Pattern, text: &[u8]) -> Option<Place> {
    let mut parts = (0..=text.len())
        .flat_map(|start| (0..=text.len() - start).rev().map(move |length| Place { start, length }));
    parts.find(|&part| fits(pattern, text, part))
}

/// Whether exactly this part fits.
pub fn fits(pattern: &Pattern, text: &[u8], part: Place) -> bool {
    let end = part.start + part.length;
    let held = |alternative: &Alternative| {
        (!alternative.at_start || part.start == 0) && (!alternative.at_end || end == text.len())
    };
    let whole = |alternative: &Alternative| {
        let part = &text[part.start..end];
        let mut reached = vec![false; part.len() + 1];
        reached[0] = true;
        after_row(&alternative.row, part, reached)[part.len()]
    };
    pattern.alternatives.iter().any(|alternative| held(alternative) && whole(alternative))
}

/// The places reached after a row, from those reached before it.
fn after_row(row: &Row, text: &[u8], reached: Vec<bool>) -> Vec<bool> {
    row.iter().fold(reached, |reached, tree| after_tree(tree, text, &reached))
}

fn after_tree(tree: &Tree, text: &[u8], reached: &[bool]) -> Vec<bool> {
    let mut after = vec![false; reached.len()];
    match tree {
        Tree::Element(set) => {
            for (place, &byte) in text.iter().enumerate() {
                after[place + 1] = reached[place] && set.has(byte);
            }
        }
        Tree::Group(rows) => {
            for row in rows.iter() {
                join(&mut after, &after_row(row, text, reached.to_vec()));
            }
        }
        Tree::Repeat(tree, times) => {
            let mut turn = reached.to_vec();
            (0..times.least).for_each(|_| turn = after_tree(tree, text, &turn));
            join(&mut after, &turn);
            // More turns than bytes reach nothing new: one of them would be empty.
            let more = times.most.map_or(text.len(), |most| most - times.least);
            for _ in 0..more {
                turn = after_tree(tree, text, &turn);
                join(&mut after, &turn);
            }
        }
    }
    after
}

fn join(all: &mut [bool], more: &[bool]) {
    all.iter_mut().zip(more).for_each(|(all, more)| *all |= more);
}
