//! Tables whose legs crowd on few links, with short periods that have much in common or nothing, or with long ones.

use crate::admit_drafts::lined;
use crate::chance::Chance;
use crate::check::Plain;
use crate::drafts::{self, beyond, longest_deadline, reword};
use crate::explain::{first_of_its_stream, last_of_its_stream};
use crate::format::{Leg, Link, Plan, Stream};
use crate::paper::LIMITS;
use crate::rules::{arrival, divisor, sent};

/// A well-formed table, mostly with several legs.
pub fn some_table(chance: &mut Chance) -> Plan {
    let mut plan = match chance.below(24) {
        0..=11 => crowded(chance, short_periods),
        12..=14 => crowded(chance, long_periods),
        15 => drafts::plan_a(),
        16 => drafts::small(chance),
        17 | 18 => drafts::one_link(chance),
        19 => drafts::row(chance),
        20 => lined(chance).plan,
        21 => drafts::medium(chance),
        _ => drafts::accepted(chance, 8, true),
    };
    match chance.below(8) {
        0 => beyond(chance, &mut plan),
        1 => reword(chance, &mut plan),
        _ => {}
    }
    plan
}

/// How the periods of a table are drawn.
type Periods = fn(&mut Chance) -> Vec<u32>;

/// Periods from about the hold time of the shortest frame, 672 ns, to 20,000 ns.
fn short_periods(chance: &mut Chance) -> Vec<u32> {
    let any = [(); 3].map(|_| chance.from_to(700, 20_000));
    match chance.below(8) {
        0 => vec![any[0]],
        1 | 2 => {
            let base = chance.of(&[700, 1_000, 1_344, 1_345, 1_400, 2_000, 2_500, 3_000]);
            [1, 1, 2, 3, 4, 6].map(|times| times * base).to_vec()
        }
        3 | 4 => any.to_vec(),
        5 => {
            let common = chance.of(&[2, 8, 24, 100, 350, 671, 672, 1_343, 1_344]);
            any.map(|period| (period / common).max(1) * common).to_vec()
        }
        6 => vec![575, 671, 672, 673, 1_343, 1_344, 1_345, 2_016],
        _ => vec![any[0], any[0] + 1, 2 * any[0].min(10_000), 1],
    }
}

/// Long periods with a small divisor, so that legs meet late.
fn long_periods(chance: &mut Chance) -> Vec<u32> {
    let most = LIMITS.period.1;
    let any = [(); 3].map(|_| chance.from_to(100_000, most));
    match chance.below(6) {
        0 => vec![most, most - 1, most - 2],
        1 => vec![100_000, 100_001, 150_000, 99_999],
        2 => any.to_vec(),
        3 => {
            let common = chance.of(&[7, 100, 1_000, 1_343, 1_344, 5_000]);
            any.map(|period| (period / common).max(1) * common).to_vec()
        }
        4 => vec![any[0], any[0] - 1, any[0] / 2, any[0] / 3],
        _ => vec![1_000_000, 999_983, 1_500_000, 250_000, 30_030],
    }
}

/// One link or a few in a row, and streams along them.
fn crowded(chance: &mut Chance, periods: Periods) -> Plan {
    let count = chance.of(&[1, 1, 2, 3]);
    let rate = chance.of(&[8, 8, 8, 8, 80]);
    let link = |from| Link { from, to: from + 1, ns_per_octet: rate, propagation: 0 };
    let mut plan = Plan {
        revision: chance.any_size(),
        precision: chance.of(&[0, 1, 100, 1_000]),
        links: (0..count).map(link).collect(),
        streams: Vec::new(),
        legs: Vec::new(),
    };
    for link in &mut plan.links {
        link.propagation = chance.of(&[0, 1, 500, 3_000]);
    }
    let periods = periods(chance);
    for _ in 0..2 + chance.below(8) {
        let period = chance.of(&periods).clamp(LIMITS.period.0, LIMITS.period.1);
        let first = chance.below(count as usize) as u32;
        let last = chance.from_to(first, count - 1);
        add(chance, &mut plan, period, first..last + 1);
    }
    plan
}

fn add(chance: &mut Chance, plan: &mut Plan, period: u32, route: std::ops::Range<u32>) {
    let (number, first_leg) = (plan.streams.len() as u32, plan.legs.len());
    let octets = match chance.below(6) {
        0 => chance.from_to(LIMITS.octets.0, LIMITS.octets.1),
        1 => chance.from_to(LIMITS.octets.0, LIMITS.octets.0 + 6),
        _ => LIMITS.octets.0,
    };
    let stream = Stream {
        period,
        deadline: chance.from_to(1, longest_deadline(period)),
        octets,
        first_leg: first_leg as u32,
        leg_count: route.len() as u32,
    };
    plan.streams.push(stream);
    plan.legs.extend(route.map(|link| Leg { stream: number, link, offset: 0, periods: 0 }));
    for leg in first_leg..plan.legs.len() {
        place(chance, plan, leg);
    }
    if chance.one_in(3) {
        let first = sent(&Plain, plan, first_leg).start;
        let needed = arrival(&sent(&Plain, plan, plan.legs.len() - 1), plan.precision.into()).saturating_sub(first);
        let exact = (needed + chance.of(&[0, 0, 1, 2])).saturating_sub(chance.of(&[0, 1]));
        plan.streams[number as usize].deadline = exact.clamp(1, longest_deadline(period).into()) as u32;
    }
}

/// Gives a leg an offset and a period word.
fn place(chance: &mut Chance, plan: &mut Plan, leg: usize) {
    let now = sent(&Plain, plan, leg);
    let (period, hold) = (i64::from(now.period), now.hold as i64);
    let in_period = i64::from(chance.from_to(0, now.period - 1));
    let offset = match chance.below(16) {
        0..=3 => in_period * (period - hold).max(0) / period,
        4 => in_period,
        5 => in_period + period * i64::from(chance.from_to(1, 6)),
        6 => i64::from(u32::MAX) - i64::from(chance.any_size() % 50_000),
        7 => chance.any_size().into(),
        8 => chance.of(&[0, 1, period - hold, period - hold + 1, period - 1]),
        9..=11 if leg > first_of_its_stream(plan, leg) => {
            arrival(&sent(&Plain, plan, leg - 1), plan.precision.into()) as i64 - chance.of(&[0, 0, 1])
        }
        _ => beside(chance, plan, leg).unwrap_or(in_period),
    };
    let late = if chance.one_in(4) { chance.from_to(0, LIMITS.periods) } else { 0 };
    let offset = offset.clamp(0, u32::MAX.into()) as u32;
    plan.legs[leg] = Leg { offset, periods: late, ..plan.legs[leg] };
    if chance.one_in(4) && u64::from(offset) >= u64::from(now.period) && offset < 8 * now.period {
        plan.legs[leg] = Leg { offset: offset % now.period, periods: offset / now.period, ..plan.legs[leg] };
    }
}

/// An offset at which a leg touches another of its link, or shares 1 ns with it.
fn beside(chance: &mut Chance, plan: &Plan, leg: usize) -> Option<i64> {
    let others: Vec<usize> = (0..leg).filter(|&other| plan.legs[other].link == plan.legs[leg].link).collect();
    if others.is_empty() {
        return None;
    }
    let (now, other) = (sent(&Plain, plan, leg), sent(&Plain, plan, chance.of(&others)));
    let shared = chance.of(&[0, 0, 1]);
    let touching = if chance.one_in(2) {
        other.offset as i64 + other.hold as i64 - shared
    } else {
        other.offset as i64 - now.hold as i64 + shared
    };
    let common = i64::from(divisor(now.period, other.period));
    let times = chance.below(now.period as usize / common as usize) as i64;
    Some(touching.rem_euclid(common) + times * common)
}

/// Any leg, often one that is not the first of its stream.
pub fn some_leg(chance: &mut Chance, plan: &Plan) -> usize {
    let any = chance.below(plan.legs.len());
    let last = last_of_its_stream(plan, any);
    match chance.below(4) {
        0 => last,
        1 => plan.legs.len() - 1,
        _ => any,
    }
}

/// Another leg, mostly of the same link, and a lower one where that is wanted.
pub fn some_other(chance: &mut Chance, plan: &Plan, leg: usize, lower: bool) -> Option<usize> {
    let end = if lower { leg } else { plan.legs.len() };
    let same = |other: &usize| plan.legs[*other].link == plan.legs[leg].link && *other != leg;
    let others: Vec<usize> = (0..end).filter(same).collect();
    if others.is_empty() || chance.one_in(12) {
        return Some(chance.below(end.max(1))).filter(|&other| other < end);
    }
    Some(chance.of(&others))
}
