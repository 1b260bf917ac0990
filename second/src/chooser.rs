//! The choosers: along which axis a box is halved, and which half comes first.

use crate::patch::{index, stride};

#[derive(Clone, Copy, Debug, PartialEq, Eq)]
pub enum Half {
    Lower,
    Upper,
}

#[cfg_attr(not(test), allow(dead_code))] // the depth is for `Alternating`
pub struct Question<'a> {
    pub degrees: &'a [u32],
    pub halvings: &'a [u32],
    pub depth: u32,
    pub signs: &'a [i32],
}

pub trait Chooser {
    /// An axis and the half to look at first; a pure function of the question.
    fn choose(&self, question: &Question) -> (usize, Half);
}

impl Chooser for Box<dyn Chooser> {
    fn choose(&self, question: &Question) -> (usize, Half) {
        self.as_ref().choose(question)
    }
}

/// The axes in turn. The console never uses it; the worked searches do.
#[cfg_attr(not(test), allow(dead_code))]
pub struct Alternating;

impl Chooser for Alternating {
    fn choose(&self, question: &Question) -> (usize, Half) {
        let axes = question.degrees.len();
        (if axes == 0 { 0 } else { question.depth as usize % axes }, Half::Lower)
    }
}

/// The axis along which the signs change most.
pub struct BySigns;

impl Chooser for BySigns {
    fn choose(&self, question: &Question) -> (usize, Half) {
        let (degrees, signs) = (question.degrees, question.signs);
        // A patch without axes has one number; it says nothing either.
        let expected: u128 = degrees.iter().fold(1, |p: u128, &n| p.saturating_mul(n as u128 + 1));
        if degrees.is_empty() || signs.len() as u128 != expected {
            return (0, Half::Lower);
        }
        let changes = |axis: usize| {
            let step = stride(degrees, axis);
            (0..signs.len())
                .filter(|&place| index(degrees, place, axis) > 0 && signs[place] != signs[place - step])
                .count()
        };
        // The lowest axis wins a tie: only a strictly greater count replaces it.
        let mut best = (0, changes(0));
        for axis in 1..degrees.len() {
            let count = changes(axis);
            if count > best.1 {
                best = (axis, count);
            }
        }
        let negative_at = |wanted: usize| {
            (0..signs.len()).filter(|&place| index(degrees, place, best.0) == wanted && signs[place] < 0).count()
        };
        let upper_first = negative_at(degrees[best.0] as usize) > negative_at(0);
        (best.0, if upper_first { Half::Upper } else { Half::Lower })
    }
}

/// Keeps the axis answered from running `gap` halvings ahead of the least halved.
pub struct Evening<C> {
    gap: u32,
    below: C,
}

impl<C: Chooser> Evening<C> {
    /// Refusal 18 (with the chooser handed back) for a gap outside 1 to 24.
    pub fn new(gap: u32, below: C) -> Result<Evening<C>, (u32, C)> {
        if (1..=24).contains(&gap) {
            Ok(Evening { gap, below })
        } else {
            Err((18, below))
        }
    }
}

impl<C: Chooser> Chooser for Evening<C> {
    fn choose(&self, question: &Question) -> (usize, Half) {
        let from_below = self.below.choose(question);
        let halvings = |axis: usize| question.halvings.get(axis).copied().unwrap_or(0) as u64;
        // min_by_key gives the first of equals: the lowest axis on a tie.
        let least = (0..question.degrees.len()).min_by_key(|&axis| halvings(axis)).unwrap_or(0);
        if halvings(from_below.0) >= halvings(least) + self.gap as u64 {
            (least, Half::Lower)
        } else {
            from_below
        }
    }
}
