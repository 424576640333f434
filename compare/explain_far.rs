//! The same where there is too much to walk or to try: meetings by remainders, and nearest offsets from a few candidates. Where
//! there is little, both ways are gone, and have to say the same.

use crate::check::{rule_at, Plain};
use crate::explain::{common, first_of_its_stream, Explainer, Met, Near, Slot};
use crate::format::Plan;
use crate::paper::{DEADLINE, HOP, OVERLAP};
use crate::rules::{arrival, divisor, sent};

// ---- Meetings

/// The first meeting is when both have begun, or later when a repeat of one begins while the other holds the link.
pub fn by_remainders(a: &Slot, b: &Slot) -> Option<Met> {
    let both_begun = a.offset.max(b.offset);
    let at = |instant: u64| Some(Met { first: a.begun(instant)?, second: b.begun(instant)?, instant });
    let now = at(both_begun)?;
    if a.is_held(now.first, both_begun) && b.is_held(now.second, both_begun) {
        return Some(now);
    }
    let begins = [first_begin_in(a, b, both_begun), first_begin_in(b, a, both_begun)];
    at(begins.into_iter().flatten().min()?)
}

/// When a leg first begins while the other holds the link, from an instant on at which both have begun. For each instant of the
/// other's hold, counted in its period, the repeats that begin there are one in so many, by the inverse of the period.
pub fn first_begin_in(a: &Slot, b: &Slot, from: u64) -> Option<u64> {
    let repeat = (from - a.offset + a.period - 1) / a.period;
    let g = common(a, b);
    let turn = b.period / g;
    let inverse = inverse(a.period / g % turn, turn);
    let now = (a.begin(repeat) - b.offset) % b.period;
    let held = (now % g..b.hold.min(b.period)).step_by(g as usize);
    let more = held.map(|instant| (instant + b.period - now) / g % turn * inverse % turn).min()?;
    Some(a.begin(repeat + more))
}

/// The number whose product with `a` leaves 1 by the modulus, to which `a` has no common divisor.
fn inverse(a: u64, modulus: u64) -> u64 {
    let (mut rest, mut next) = ((modulus as i64, 0), (a as i64, 1));
    while next.0 != 0 {
        let times = rest.0 / next.0;
        let after = (rest.0 - times * next.0, rest.1 - times * next.1);
        rest = next;
        next = after;
    }
    rest.1.rem_euclid(modulus as i64) as u64
}

// ---- Nearest offsets

/// Where an offset stands and its neighbour does not, or the neighbour is the leg's own, there is an edge of a rule. So the
/// nearest offsets are among these, each of which is tried.
pub fn from_candidates(e: &Explainer, plan: &Plan, leg: usize, place: u32) -> Near {
    let own = plan.legs[leg].offset;
    let mut tried = plan.clone();
    let mut standing: Vec<u32> = candidates(plan, leg, place).into_iter().filter(|&offset| offset != own).collect();
    standing.sort_unstable();
    standing.retain(|&offset| {
        tried.legs[leg].offset = offset;
        (e.stands)(e, &tried, leg, place)
    });
    Near {
        below: standing.iter().copied().filter(|&offset| offset < own).last(),
        above: standing.iter().copied().find(|&offset| offset > own),
    }
}

fn candidates(plan: &Plan, leg: usize, place: u32) -> Vec<u32> {
    let now = sent(&Plain, plan, leg);
    let precision = u64::from(plan.precision);
    let (own, hold, period) = (now.offset as i64, now.hold as i64, i64::from(now.period));
    let late = now.start as i64 - own;
    let last = period - hold;
    let mut found = vec![0, own - 1, own + 1, last];
    match rule_at(place) {
        (HOP, _) if leg > 0 => found.push(arrival(&sent(&Plain, plan, leg - 1), precision) as i64 - late),
        (DEADLINE, _) => {
            let way = arrival(&now, precision) as i64 - now.start as i64;
            let due = now.deadline as i64 + sent(&Plain, plan, first_of_its_stream(plan, leg)).start as i64;
            found.push(due - way - late);
        }
        (OVERLAP, other) => {
            let other = sent(&Plain, plan, other);
            let common = i64::from(divisor(now.period, other.period));
            // Right behind the other leg, and right before it, around the leg's own offset and around the last of its window.
            for touching in [other.offset as i64 + other.hold as i64, other.offset as i64 - hold] {
                for near in [own, last, 0] {
                    let once = near + (touching - near).rem_euclid(common);
                    found.extend([once - 2 * common, once - common, once, once + common]);
                }
            }
        }
        _ => {}
    }
    found.into_iter().filter(|&offset| 0 <= offset && offset <= last).map(|offset| offset as u32).collect()
}
