//! A gate list as one writes it in an hour: all holds of a cycle are sorted and, where they touch, taken together.

use crate::admit::NOT_ACCEPTED;
use crate::check::{whole, Checker, Plain};
use crate::format::{refused, write_number, Outcome, Plan};
use crate::gates::{Pair, HELD, IDLE, LONG_CYCLE, MANY_PAIRS, MOST_CYCLE, MOST_PAIRS, NO_LINK};
use crate::paper::{NOTHING_VIOLATED, NO_ROOM};
use crate::rules::{divisor, sent, Sent};

/// Beyond the limit of cycles, lists are told up to so many holds.
const MOST_HOLDS: u64 = 1_000_000;

/// The list file of a link, for a buffer of so many bytes. The plan is checked by this checker.
pub fn quick<C: Checker>(checker: &C, file: &[u8], link: u32, room: usize) -> Outcome<Vec<u8>> {
    let plan = Plain.read_plan(file)?;
    Plain.judge(&plan)?;
    if link as usize >= plan.links.len() {
        return refused(NO_LINK, 0);
    }
    if whole(checker, &plan).result != NOTHING_VIOLATED {
        return refused(NOT_ACCEPTED, 0);
    }
    let legs = on_link(&plan, link);
    let pairs = match cycle(&legs) {
        Some(cycle) if cycle <= MOST_CYCLE => pairs(&legs, cycle),
        None if legs.is_empty() => Vec::new(),
        _ => return refused(LONG_CYCLE, 0),
    };
    if pairs.len() > MOST_PAIRS {
        return refused(MANY_PAIRS, 0);
    }
    let bytes = file_of(&pairs);
    if bytes.len() > room {
        return refused(NO_ROOM, 0);
    }
    Ok(bytes)
}

pub fn on_link(plan: &Plan, link: u32) -> Vec<Sent> {
    let legs = plan.legs.iter().enumerate().filter(|(_, leg)| leg.link == link);
    legs.map(|(at, _)| sent(&Plain, plan, at)).collect()
}

/// The least common multiple of the periods, by divisors. None where there is no leg, and where it is far beyond the limit.
pub fn cycle(legs: &[Sent]) -> Option<u64> {
    let mut cycle = u64::from(legs.first()?.period);
    for leg in legs {
        let common = divisor(leg.period, (cycle % u64::from(leg.period)) as u32);
        cycle = cycle.checked_mul(u64::from(leg.period / common))?;
    }
    Some(cycle)
}

/// How many holds begin in a cycle.
pub fn holds(legs: &[Sent], cycle: u64) -> u64 {
    legs.iter().map(|leg| cycle / u64::from(leg.period)).sum()
}

/// The list of a cycle that may pass the limit, where it has few holds.
pub fn beyond(legs: &[Sent]) -> Option<Vec<Pair>> {
    let cycle = cycle(legs)?;
    Some(cycle).filter(|&cycle| holds(legs, cycle) <= MOST_HOLDS).map(|cycle| pairs(legs, cycle))
}

pub fn pairs(legs: &[Sent], cycle: u64) -> Vec<Pair> {
    let mut holds: Vec<(u64, u64)> = Vec::new();
    for leg in legs {
        let starts = (leg.offset..cycle).step_by(leg.period as usize);
        holds.extend(starts.map(|start| (start, start + leg.hold)));
    }
    holds.sort_unstable();
    let (mut pairs, mut at) = (Vec::new(), 0);
    let mut add = |is_held: bool, from: u64, until: u64| {
        if until > from {
            pairs.push(Pair { is_held, duration: until - from });
        }
    };
    let mut holds = holds.into_iter();
    let mut next = holds.next();
    while let Some((start, mut end)) = next {
        next = holds.next();
        while let Some((_, other)) = next.filter(|&(other, _)| other <= end) {
            end = end.max(other);
            next = holds.next();
        }
        add(false, at, start);
        add(true, start, end.min(cycle));
        at = end.min(cycle);
    }
    add(false, at, cycle);
    pairs
}

pub fn file_of(pairs: &[Pair]) -> Vec<u8> {
    let mut bytes = Vec::new();
    for pair in pairs {
        write_number(&mut bytes, if pair.is_held { HELD } else { IDLE });
        write_number(&mut bytes, pair.duration as u32);
    }
    bytes
}
