//! A third opinion on overlap: the repeats of both legs are laid out one by one. No divisor is taken for the answer.

use crate::calls::{self, Answer, Call};
use crate::check::{Bent, Plain, RIGHT};
use crate::rules::{self, Sent};
use std::cell::Cell;

/// The checker that lays out the repeats wherever there are few.
const BY_LAYOUT: Bent = Bent { apart, ..RIGHT };

const REPEATS_MAX: u64 = 3_000;

thread_local! {
    /// How many pairs of legs were laid out, and how many have too many repeats for that.
    static PAIRS: Cell<(u64, u64)> = Cell::new((0, 0));
}

fn apart(_: &Bent, a: &Sent, b: &Sent) -> bool {
    let (laid, left) = PAIRS.with(Cell::get);
    match laid_out(a, b) {
        Some(apart) => {
            PAIRS.with(|pairs| pairs.set((laid + 1, left)));
            apart
        }
        None => {
            PAIRS.with(|pairs| pairs.set((laid, left + 1)));
            rules::apart(&Plain, a, b)
        }
    }
}

/// What a slice answers by layout, how many pairs of legs were laid out for it, and how many were not.
pub struct Opinion {
    pub answer: Answer,
    pub laid_out: u64,
    pub left: u64,
}

pub fn opinion(call: &Call) -> Opinion {
    PAIRS.with(|pairs| pairs.set((0, 0)));
    let answer = calls::answer(&BY_LAYOUT, call);
    let (laid_out, left) = PAIRS.with(Cell::get);
    Opinion { answer, laid_out, left }
}

/// Goes through the repeats of both legs in the order of time until all that follows has been seen.
fn laid_out(a: &Sent, b: &Sent) -> Option<bool> {
    let (a_period, b_period) = (u64::from(a.period), u64::from(b.period));
    let multiple = a_period / u64::from(rules::divisor(a.period, b.period)) * b_period;
    // Two repeats that meet after this end are repeats of two that meet before it.
    let end = a.offset.max(b.offset) + multiple + a.hold.max(b.hold);
    let (mut a_start, mut b_start) = (a.offset, b.offset);
    if (end - a_start) / a_period + (end - b_start) / b_period > REPEATS_MAX {
        return None;
    }
    while a_start < end && b_start < end {
        if a_start + a.hold <= b_start {
            a_start += a_period;
        } else if b_start + b.hold <= a_start {
            b_start += b_period;
        } else {
            return Some(false);
        }
    }
    Some(true)
}
