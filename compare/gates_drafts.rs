//! Tables whose gate lists show something: links shared to the last ns, held all the time or without legs, cycles near their
//! limit, lists of about as many pairs as there may be. But for the large ones all are accepted.

use crate::admit_drafts::{empty, full, of_a_file, put, shuffle, shuffle_streams};
use crate::chance::Chance;
use crate::drafts;
use crate::format::{Link, Plan};
use crate::gates::{MOST_CYCLE, MOST_PAIRS};
use crate::paper::{GAP, LIMITS, PREAMBLE};
use crate::recheck_drafts::some_table;
use crate::rules::divisor;

/// What makes a table of each family with short cycles.
pub const SMALL: [fn(&mut Chance) -> Plan; 8] = [shared, shared, held, some_table, shared, slow, shared, some_table];

const FAST: u32 = LIMITS.rates[0];
const SHORTEST: u32 = LIMITS.octets.0;

/// How long a frame of so many octets holds a link of this rate.
fn hold(octets: u32, rate: u32) -> u32 {
    (octets + PREAMBLE + GAP) * rate
}

/// Links of these rates from one node to others, in any order.
fn star(chance: &mut Chance, rates: &[u32]) -> Plan {
    // Small enough for each deadline: no period is shorter than a hold.
    let precision = chance.of(&[0, 1, 100, 2_000]);
    let mut plan = empty(chance, precision);
    for (to, &ns_per_octet) in (1..).zip(rates) {
        let propagation = chance.of(&[0, 1, 500, 2_000]);
        plan.links.push(Link { from: 0, to, ns_per_octet, propagation });
    }
    shuffle(chance, &mut plan.links);
    plan
}

/// Puts streams of one leg in any order, and gives them any period words, which no rule of such a stream reads.
fn mix(chance: &mut Chance, plan: &mut Plan) {
    shuffle_streams(chance, plan);
    if chance.one_in(2) {
        plan.legs.iter_mut().for_each(|leg| leg.periods = chance.from_to(0, LIMITS.periods));
    }
}

// ---- Links shared to the last ns

/// How a link is shared: the parts of its base period, and by how much their streams may come more seldom.
struct Sharing {
    link: u32,
    rate: u32,
    /// Nothing is left free.
    is_full: bool,
    splits: u32,
}

/// What streams may take: so many octets from an offset on in each period.
#[derive(Clone, Copy)]
struct Part {
    period: u32,
    offset: u32,
    octets: u32,
}

/// Takes a part for one stream, leaves it free, or shares it between some that come more seldom.
fn share(chance: &mut Chance, plan: &mut Plan, sharing: &Sharing, part: Part, splits: u32) {
    let Part { period, offset, octets } = part;
    match chance.below(6) {
        0 if !sharing.is_full => {}
        1 | 2 if splits > 0 => {
            let times = chance.of(&[2, 2, 3]);
            for at in 0..times {
                let part = Part { period: times * period, offset: offset + at * period, octets };
                share(chance, plan, sharing, part, splits - 1);
            }
        }
        _ => {
            let shorter = chance.from_to(SHORTEST, octets);
            let taken = if sharing.is_full || chance.one_in(2) { octets } else { shorter };
            // At the beginning of its part, at its end, or between.
            let left = hold(octets, sharing.rate) - hold(taken, sharing.rate);
            let later = chance.from_to(0, left);
            let at = offset + chance.of(&[0, left, later]);
            put(plan, sharing.link, period, taken, at);
        }
    }
}

/// Cuts a base period into parts, end to end or apart, and shares each of them.
fn share_link(chance: &mut Chance, plan: &mut Plan, sharing: &Sharing, parts: usize) {
    let rate = sharing.rate;
    let gap = |chance: &mut Chance| match chance.below(6) {
        _ if sharing.is_full => 0,
        0 => chance.of(&[1, 1, 2, 127, 128]),
        1 => chance.from_to(1, 400 * rate / FAST),
        _ => 0,
    };
    let mut base = if chance.one_in(2) { gap(chance) + gap(chance) } else { 0 };
    let mut cut = Vec::new();
    for _ in 0..parts {
        let octets = if chance.one_in(3) { SHORTEST } else { chance.from_to(SHORTEST, 110) };
        cut.push((base, octets));
        base += hold(octets, rate) + gap(chance);
    }
    base += gap(chance);
    for (offset, octets) in cut {
        share(chance, plan, sharing, Part { period: base, offset, octets }, sharing.splits);
    }
}

/// A few links of the highest rate, now and then one of a lower, each shared in its own way. Some have no legs.
fn shared(chance: &mut Chance) -> Plan {
    let rates: Vec<u32> = (0..1 + chance.below(4)).map(|_| chance.of(&[FAST, FAST, FAST, LIMITS.rates[1]])).collect();
    let mut plan = star(chance, &rates);
    for link in 0..plan.links.len() as u32 {
        if chance.one_in(8) {
            continue;
        }
        let rate = plan.links[link as usize].ns_per_octet;
        let sharing = Sharing { link, rate, is_full: chance.one_in(5), splits: chance.from_to(0, 2) };
        let parts = 1 + chance.below(5);
        share_link(chance, &mut plan, &sharing, parts);
    }
    mix(chance, &mut plan);
    plan
}

/// A link of the lowest rate, and one that is faster.
fn slow(chance: &mut Chance) -> Plan {
    let other = chance.of(LIMITS.rates);
    let mut plan = star(chance, &[LIMITS.rates[2], other]);
    for link in 0..2 {
        let rate = plan.links[link as usize].ns_per_octet;
        let sharing = Sharing { link, rate, is_full: chance.one_in(5), splits: chance.from_to(0, 1) };
        let parts = 1 + chance.below(2);
        share_link(chance, &mut plan, &sharing, parts);
    }
    mix(chance, &mut plan);
    plan
}

/// A link that is held all the time, by streams each of which takes half of what those before it left. Now and then one of
/// them is shorter than that, or is missing.
fn held(chance: &mut Chance) -> Plan {
    let rate = chance.of(LIMITS.rates);
    let mut plan = star(chance, &[rate, FAST]);
    let link = plan.links.iter().position(|link| link.ns_per_octet == rate).unwrap_or(0) as u32;
    let octets = chance.from_to(SHORTEST, 90);
    let base = hold(octets, rate);
    let halvings = chance.of(&[0, 1, 2, 3, if rate == FAST { 5 } else { 2 }]);
    let is_out = Some(chance.below(halvings + 1)).filter(|_| chance.one_in(6));
    let (mut period, mut offset) = (base, 0);
    for at in 0..halvings {
        period *= 2;
        if is_out != Some(at) {
            put(&mut plan, link, period, octets, offset);
        }
        offset += period / 2;
    }
    let last = if chance.one_in(6) { octets.saturating_sub(1).max(SHORTEST) } else { octets };
    put(&mut plan, link, period, last, offset);
    mix(chance, &mut plan);
    plan
}

/// A table without legs, and perhaps without links.
pub fn without_legs(chance: &mut Chance) -> Plan {
    let rates: Vec<u32> = (0..chance.below(4)).map(|_| chance.of(LIMITS.rates)).collect();
    star(chance, &rates)
}

// ---- The limit of the cycle

/// Cycles at the limit and on either side of it, and two beyond 32 bits, which seem to be short where too few are counted.
const CYCLES: [u64; 8] = [
    MOST_CYCLE,
    MOST_CYCLE,
    MOST_CYCLE - 1,
    MOST_CYCLE + 1,
    MOST_CYCLE + 8,
    1_200_000_000,
    (1 << 32) + 100_663_296,
    9 << 29,
];

fn divisors_of(number: u64) -> Vec<u64> {
    let low: Vec<u64> = (1..).take_while(|at| at * at <= number).filter(|at| number % at == 0).collect();
    low.iter().copied().chain(low.iter().map(|at| number / at)).collect()
}

/// Two periods with this least common multiple and a divisor that leaves room for two frames or more.
fn two_periods(chance: &mut Chance, cycle: u64) -> (u32, u32) {
    let room = u64::from(ROOM);
    let may_be = |period: &u64| (room..=u64::from(LIMITS.period.1)).contains(period);
    let periods: Vec<u32> = divisors_of(cycle).into_iter().filter(may_be).map(|period| period as u32).collect();
    loop {
        let (one, other) = (chance.of(&periods), chance.of(&periods));
        let common = u64::from(divisor(one, other));
        if common >= room && u64::from(one) / common * u64::from(other) == cycle {
            return (one, other);
        }
    }
}

/// Room for three frames of the shortest kind.
const ROOM: u32 = 3 * (SHORTEST + PREAMBLE + GAP) * FAST;
/// Three periods that have no more in common than this. Their cycle passes 64 bits.
const FAR: [u32; 3] = [ROOM * 470_003, ROOM * 480_013, ROOM * 490_019];

/// A link with a cycle near the limit or beyond, and one with a short cycle or none.
pub fn long_cycle(chance: &mut Chance) -> Plan {
    let mut plan = star(chance, &[FAST, FAST]);
    let least = hold(SHORTEST, FAST);
    let (periods, later) = match chance.below(8) {
        0 => (FAR.to_vec(), 0),
        1 => (vec![LIMITS.period.1 - chance.of(&[0, 1, 7, 500_000_000])], 0),
        _ => {
            let cycle = chance.of(&CYCLES);
            let (one, other) = two_periods(chance, cycle);
            (vec![one, other], chance.of(&[0, 8, least]))
        }
    };
    let shortest = periods.iter().copied().min().unwrap_or(0);
    let first = chance.of(&[0, 0, 1, 500]).min(shortest - ROOM);
    for (at, &period) in (0..).zip(&periods) {
        put(&mut plan, 0, period, SHORTEST, first + at * (least + later));
    }
    if chance.one_in(2) {
        let period = chance.of(&[least, 1_000, 100_000]);
        put(&mut plan, 1, period, SHORTEST, 0);
    }
    mix(chance, &mut plan);
    plan
}

// ---- The limit of pairs

/// How many holds a base period has, and how many of these make a cycle: about half as many as there may be pairs.
const HOLDS: [(u32, u32); 8] = [(16, 32), (16, 32), (2, 256), (7, 73), (7, 73), (27, 19), (1, 512), (10, 51)];

/// A link whose list has about as many pairs as there may be, and one with few.
pub fn many_pairs(chance: &mut Chance) -> Plan {
    let mut plan = star(chance, &[FAST, FAST]);
    let (gap, least) = (chance.from_to(1, 60), hold(SHORTEST, FAST));
    let lead = chance.of(&[0, 0, 1, 90]);
    let one_in_each = chance.one_in(16);
    let (count, times) =
        if one_in_each { (MOST_PAIRS as u32 / 2 - chance.from_to(0, 1), 1) } else { chance.of(&HOLDS) };
    let last = lead + count * (least + gap);
    // After the last of the base period there is room for the one more that makes the cycle.
    let room = if times > 1 { 2 * least } else { 0 };
    let base = last + room;
    for at in 0..count {
        put(&mut plan, 0, base, SHORTEST, lead + at * (least + gap));
    }
    if times > 1 {
        let touching = last - gap;
        let offset = chance.of(&[touching, last, base - least]);
        let repeat = chance.of(&[0, 1, times - 1, times - 1]);
        put(&mut plan, 0, times * base, SHORTEST, offset + repeat * base);
    } else if chance.one_in(2) {
        // The last of the cycle gets longer, up to its end.
        if gap % FAST == 0 {
            let stream = plan.streams.len() - 1;
            plan.streams[stream].octets += gap / FAST;
        }
    }
    if chance.one_in(4) && plan.streams.len() < LIMITS.streams as usize {
        put(&mut plan, 1, 5_000, SHORTEST, 0);
    }
    mix(chance, &mut plan);
    plan
}

/// A link whose cycle passes the limit and whose list has too many pairs.
pub fn both_limits(chance: &mut Chance) -> Plan {
    let mut plan = star(chance, &[FAST]);
    let often = chance.of(&[400_000, 1_000_000, 1_200_000]);
    for (at, period) in (0..).zip([often, 600_000_000, 800_000_000]) {
        put(&mut plan, 0, period, SHORTEST, 5_000 * at);
    }
    mix(chance, &mut plan);
    plan
}

// ---- Large tables

/// A plan of a file, or one at the limits, whose legs follow one another end to end. It need not be accepted, nor be a plan.
pub fn large(chance: &mut Chance) -> Plan {
    match chance.below(6) {
        0 => full(chance).plan,
        1 => drafts::full_line(chance),
        2..=4 => {
            let mut plan = drafts::full_line(chance);
            let often = chance.of(&[400_000, 1_000_000]);
            let times = chance.of(&[&[1][..], &[1, 2], &[1, 2], &[1, 1, 2, 3]]);
            plan.streams.iter_mut().for_each(|stream| stream.period = often * chance.of(times));
            plan
        }
        _ => of_a_file(chance).plan,
    }
}
