//! The least first offset by jumps. Each window, and each old leg on a link of the route, forbids a row of first offsets that
//! comes again after so many ns: after the period, or after the divisor of the two periods. A candidate that is forbidden goes
//! to the end of the row, and where none forbids it any more it is the least that fits.

use crate::admit::{new_legs, newest, Admitter};
use crate::check::Plain;
use crate::format::Plan;
use crate::paper::LIMITS;
use crate::rules::{arrival, divisor, sent, Sent};
use std::ops::Range;

/// Forbids each first offset x for which x + shift, by the divisor, leaves less than `count`.
#[derive(Clone, Copy)]
pub struct Forbidden {
    pub divisor: u64,
    pub shift: u64,
    pub count: u64,
}

impl Forbidden {
    pub fn is_all(&self) -> bool {
        self.count >= self.divisor
    }

    /// How far it is from an offset to the next that is not forbidden: 0 where this one is not.
    #[inline]
    fn beyond(&self, offset: u64) -> u64 {
        self.count.saturating_sub((offset + self.shift) % self.divisor)
    }
}

/// What the new stream asks of its first offset.
pub struct Conditions {
    pub forbidden: Vec<Forbidden>,
    /// From this offset on it does not fit: it is the period, or the last leg would lie too many periods late.
    pub end: u64,
}

/// The new legs, each as if the first one started at 0.
fn from_zero(plan: &Plan) -> Vec<Sent> {
    let mut start = 0;
    let mut laid = |leg| {
        let leg = Sent { start, ..sent(&Plain, plan, leg) };
        start = arrival(&leg, plan.precision.into());
        leg
    };
    new_legs(plan).map(&mut laid).collect()
}

/// What the last stream of a table asks, or nothing where its deadline is missed whatever its first offset is.
pub fn conditions(plan: &Plan) -> Option<Conditions> {
    let (period, deadline) = (u64::from(newest(plan).period), u64::from(newest(plan).deadline));
    let (route, first) = (from_zero(plan), new_legs(plan).start);
    let last = route.last()?;
    if arrival(last, plan.precision.into()) > deadline {
        return None;
    }
    // It has to end before its period does.
    let window =
        |leg: &Sent| Forbidden { divisor: period, shift: leg.start % period + leg.hold - 1, count: leg.hold - 1 };
    let mut forbidden: Vec<Forbidden> = route.iter().map(window).collect();
    for (at, old) in plan.legs[..first].iter().enumerate() {
        if let Some(hop) = plan.legs[first..].iter().position(|new| new.link == old.link) {
            forbidden.push(beside(&route[hop], &sent(&Plain, plan, at)));
        }
    }
    let latest = (u64::from(LIMITS.periods) + 1) * period;
    Some(Conditions { forbidden, end: period.min(latest.saturating_sub(last.start)) })
}

/// A new leg may start from the end of the old one on, and so that it ends when the old one starts again.
fn beside(new: &Sent, old: &Sent) -> Forbidden {
    let divisor = u64::from(divisor(new.period, old.period));
    let after = new.start % divisor + divisor - old.offset % divisor;
    Forbidden { divisor, shift: after + new.hold - 1, count: old.hold + new.hold - 1 }
}

/// The least of these offsets that nothing forbids.
pub fn least(conditions: &Conditions, offsets: Range<u64>) -> Option<u64> {
    if conditions.forbidden.iter().any(Forbidden::is_all) {
        return None;
    }
    let end = conditions.end.min(offsets.end);
    let mut offset = offsets.start;
    while offset < end {
        let before = offset;
        for row in &conditions.forbidden {
            offset += row.beyond(offset);
        }
        if offset == before {
            return Some(offset);
        }
    }
    None
}

/// The search of an admitter.
pub fn search(_: &Admitter, plan: &mut Plan, offsets: Range<u64>) -> Option<u64> {
    least(&conditions(plan)?, offsets)
}
