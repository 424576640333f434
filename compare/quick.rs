//! Two quick checkers for the benchmark. Both read a plan and judge its shape as the plain one does.

use crate::check::{own_holds, places_of, rule_at, Checker, Plain, Sliced};
use crate::divisors::{euclid, Pair};
use crate::format::{Cursor, Plan};
use crate::paper::{NOTHING_VIOLATED, OVERLAPS, PAUSED, RULES};
use crate::rules::{sent, Sent};
use std::ops::Range;

/// What a good engineer writes in an hour: each frame is worked out once, and two loops go over all pairs of legs.
pub struct Nested;

/// The algorithm of the proved check, with Euclid's divisor: the legs of each link are chained, and each leg remembers
/// its last divisor.
pub struct Chained;

impl Checker for Nested {
    fn slice(&self, plan: &Plan, from: Cursor, budget: u32) -> Sliced {
        // Where no place is looked at, no frame is worked out.
        let looked_at = if budget > 0 { plan.legs.len() } else { 0 };
        let frames: Vec<Sent> = (0..looked_at).map(|leg| sent(&Plain, plan, leg)).collect();
        leg_by_leg(plan, from, budget, |leg, places| {
            own_violated(plan, leg, &places, |leg| frames[leg])
                .or_else(|| first_in_all(plan, &frames, leg, others(&places)).map(place_with))
        })
    }
}

impl Checker for Chained {
    fn slice(&self, plan: &Plan, from: Cursor, budget: u32) -> Sliced {
        chained(plan, from, budget, euclid)
    }
}

/// A slice by chains, with this function for the divisors.
fn chained(plan: &Plan, from: Cursor, budget: u32, mut divisor: impl FnMut(u64, u64) -> u64) -> Sliced {
    let chains = Chains::new(plan);
    leg_by_leg(plan, from, budget, |leg, places| {
        let mine = sent(&Plain, plan, leg);
        let frame = |other| if other == leg { mine } else { sent(&Plain, plan, other) };
        own_violated(plan, leg, &places, frame)
            .or_else(|| first_in_chain(plan, &chains, leg, others(&places), &mut divisor).map(place_with))
    })
}

/// The pairs of periods whose divisor a whole check by chains takes, in its order.
pub fn asked(plan: &Plan, start: Cursor) -> Vec<Pair> {
    let mut pairs = Vec::new();
    chained(plan, start, u32::MAX, |a, b| {
        pairs.push((a, b));
        euclid(a, b)
    });
    pairs
}

// ---- The places of a leg

/// Looks at places leg by leg. Of some places of a leg, `violated` gives the first where a rule is violated.
fn leg_by_leg(
    plan: &Plan,
    from: Cursor,
    budget: u32,
    mut violated: impl FnMut(usize, Range<u32>) -> Option<u32>,
) -> Sliced {
    let legs = plan.legs.len() as u32;
    let (mut cursor, mut left) = (from, budget);
    while cursor.leg < legs && left > 0 {
        let end = places_of(cursor.leg);
        let limit = end.min(cursor.place.saturating_add(left));
        if let Some(place) = violated(cursor.leg as usize, cursor.place..limit) {
            let steps = budget - left + (place - cursor.place) + 1;
            return Sliced { result: RULES[rule_at(place).0].result, cursor: Cursor { place, ..cursor }, steps };
        }
        left -= limit - cursor.place;
        let (leg, place) = if limit < end { (cursor.leg, limit) } else { (cursor.leg + 1, 0) };
        cursor = Cursor { leg, place, ..cursor };
    }
    Sliced { result: if cursor.leg < legs { PAUSED } else { NOTHING_VIOLATED }, cursor, steps: budget - left }
}

/// The first of these places where a rule of the leg alone is violated.
fn own_violated(plan: &Plan, leg: usize, places: &Range<u32>, frame: impl Fn(usize) -> Sent) -> Option<u32> {
    (places.start..places.end.min(OVERLAPS)).find(|&place| !own_holds(&Plain, plan, leg, rule_at(place).0, &frame))
}

/// The legs with which overlap is asked at these places.
fn others(places: &Range<u32>) -> Range<usize> {
    let other = |place: u32| place.saturating_sub(OVERLAPS) as usize;
    other(places.start)..other(places.end)
}

fn place_with(other: usize) -> u32 {
    OVERLAPS + other as u32
}

// ---- Overlap

/// A leg as overlap sees it.
struct Slot {
    offset: u64,
    period: u64,
    hold: u64,
}

impl Slot {
    fn of(frame: &Sent) -> Slot {
        Slot { offset: frame.offset, period: frame.period.into(), hold: frame.hold }
    }

    /// The slot of a leg whose link has this rate.
    fn at(plan: &Plan, leg: usize, ns_per_octet: u32) -> Slot {
        let leg = &plan.legs[leg];
        let stream = &plan.streams[leg.stream as usize];
        let hold = Plain.hold_time(stream.octets, ns_per_octet);
        Slot { offset: leg.offset.into(), period: stream.period.into(), hold }
    }
}

/// Whether two legs on one link, whose periods have this divisor, never meet. Most offsets are below it.
fn apart(a: &Slot, b: &Slot, divisor: u64) -> bool {
    let reduced = |offset: u64| if offset < divisor { offset } else { offset % divisor };
    let (first, second) = (reduced(a.offset), reduced(b.offset));
    let after = if second < first { second + (divisor - first) } else { second - first };
    after >= a.hold && divisor - after >= b.hold
}

/// The first of these legs that meets the given one.
fn first_in_all(plan: &Plan, frames: &[Sent], leg: usize, others: Range<usize>) -> Option<usize> {
    let (link, mine) = (plan.legs[leg].link, Slot::of(&frames[leg]));
    let meets = |theirs: Slot| !apart(&mine, &theirs, euclid(mine.period, theirs.period));
    let mut pairs = plan.legs[others.clone()].iter().zip(&frames[others.clone()]);
    pairs.position(|(other, frame)| other.link == link && meets(Slot::of(frame))).map(|at| others.start + at)
}

/// The lowest leg of each link, and after each leg the next one on its link. The number of legs stands for none.
struct Chains {
    first: Vec<usize>,
    next: Vec<usize>,
}

impl Chains {
    fn new(plan: &Plan) -> Chains {
        let none = plan.legs.len();
        let mut chains = Chains { first: vec![none; plan.links.len()], next: vec![none; none] };
        for (at, leg) in plan.legs.iter().enumerate().rev() {
            chains.next[at] = std::mem::replace(&mut chains.first[leg.link as usize], at);
        }
        chains
    }
}

/// The same along the chain of its link.
fn first_in_chain(
    plan: &Plan,
    chains: &Chains,
    leg: usize,
    others: Range<usize>,
    divisor: &mut impl FnMut(u64, u64) -> u64,
) -> Option<usize> {
    let link = plan.legs[leg].link as usize;
    let rate = plan.links[link].ns_per_octet;
    let mine = Slot::at(plan, leg, rate);
    let (mut known, mut known_divisor) = (mine.period, mine.period);
    let mut other = chains.first[link];
    while other < others.start {
        other = chains.next[other];
    }
    while other < others.end {
        let theirs = Slot::at(plan, other, rate);
        if theirs.period != known {
            (known, known_divisor) = (theirs.period, divisor(mine.period, theirs.period));
        }
        if !apart(&mine, &theirs, known_divisor) {
            return Some(other);
        }
        other = chains.next[other];
    }
    None
}
