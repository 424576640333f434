//! Accepted tables with a stream that is to be admitted, by chance. Those of the small families have periods so short that
//! each offset can be tried, and most of them leave few offsets or none; the others have the periods that plants have.

use crate::admit::{enlarge, lay, new_legs, Wanted, MOST_TRIED, RIGHT};
use crate::admit_jump::{conditions, least};
use crate::chance::Chance;
use crate::check::{whole, Checker, Plain};
use crate::drafts::{longest_deadline, some_route};
use crate::format::{Leg, Link, Plan, Stream};
use crate::paper::{GAP, LIMITS, NOTHING_VIOLATED, PREAMBLE};
use crate::rules::wire_time;
use std::ops::Range;

pub struct Draft {
    pub plan: Plan,
    pub wanted: Wanted,
}

/// What makes a draft of each family with short periods.
pub const SMALL: [fn(&mut Chance) -> Draft; 15] =
    [packed, hole, carry, packed, late, hole, packed, tight, carry, short, packed, hole, late, carry, two_rates];

const FAST: u32 = LIMITS.rates[0];
const SHORTEST: u32 = LIMITS.octets.0;

// ---- What all are made of

/// How long a frame is on the wire of a link of the highest rate.
fn wire(octets: u32) -> u32 {
    (octets + PREAMBLE) * FAST
}

/// How long it holds such a link.
pub fn hold(octets: u32) -> u32 {
    (octets + PREAMBLE + GAP) * FAST
}

/// A table without links. Its revision can rise.
pub fn empty(chance: &mut Chance, precision: u32) -> Plan {
    let any = chance.word() % u32::MAX;
    let revision = chance.of(&[0, 1, 126, 127, 128, 16_383, u32::MAX - 1, any]);
    Plan { revision, precision, links: Vec::new(), streams: Vec::new(), legs: Vec::new() }
}

pub fn shuffle<T>(chance: &mut Chance, row: &mut [T]) {
    for at in (1..row.len()).rev() {
        row.swap(at, chance.below(at + 1));
    }
}

/// Links in a line from node 0 on, with these propagations.
pub fn line(plan: &mut Plan, propagations: &[u32]) {
    let link = |(from, &propagation)| Link { from, to: from + 1, ns_per_octet: FAST, propagation };
    plan.links = (0..).zip(propagations).map(link).collect();
}

/// The same in any order.
fn any_line(chance: &mut Chance, plan: &mut Plan, propagations: &[u32]) {
    line(plan, propagations);
    shuffle(chance, &mut plan.links);
}

/// The links along the nodes of a line.
pub fn along(plan: &Plan, nodes: Range<u32>) -> Vec<u32> {
    let link = |node: u32| plan.links.iter().position(|link| (link.from, link.to) == (node, node + 1));
    nodes.map(|node| link(node).expect("the line has this link") as u32).collect()
}

/// Frames of several lengths, since equal ones let an exchanged pair pass.
fn some_octets(chance: &mut Chance) -> u32 {
    match chance.below(8) {
        0..=2 => SHORTEST,
        3 => chance.from_to(SHORTEST, 300),
        _ => chance.from_to(SHORTEST, 110),
    }
}

/// From the start of a stream to its arrival, without waiting.
pub fn way(plan: &Plan, route: &[u32], octets: u32) -> u64 {
    let hop = |&link: &u32| {
        let link = &plan.links[link as usize];
        wire_time(&Plain, octets, link.ns_per_octet) + u64::from(link.propagation) + u64::from(plan.precision)
    };
    route.iter().map(hop).sum()
}

/// A deadline that is kept, mostly, and often just so.
pub fn some_deadline(chance: &mut Chance, plan: &Plan, route: &[u32], octets: u32, period: u32) -> u32 {
    let (exact, longest) = (way(plan, route, octets), u64::from(longest_deadline(period)));
    let deadline = match chance.below(16) {
        0 | 1 => exact,
        2 => exact.saturating_sub(1),
        3 => exact + u64::from(chance.any_size() % 1_000),
        4 => period.into(),
        5 => u64::from(chance.from_to(1, longest as u32)),
        _ => longest,
    };
    deadline.clamp(1, longest) as u32
}

/// A stream of this period along a route.
fn stream(chance: &mut Chance, plan: &Plan, route: Vec<u32>, period: u32) -> Wanted {
    let octets = some_octets(chance);
    let deadline = some_deadline(chance, plan, &route, octets, period);
    Wanted { route, period, deadline, octets }
}

/// Admits a stream at the least offset after this one that fits, or else at the least of all.
pub fn add(plan: &mut Plan, wanted: &Wanted, from: u32) -> bool {
    let mut enlarged = Plan { revision: plan.revision, ..enlarge(plan, wanted) };
    let (from, period) = (u64::from(from), u64::from(wanted.period));
    let found = conditions(&enlarged).and_then(|asked| least(&asked, from..period).or_else(|| least(&asked, 0..from)));
    if let Some(offset) = found {
        lay(&RIGHT, &mut enlarged, offset);
        *plan = enlarged;
    }
    found.is_some()
}

/// Admits so many streams as they come, those that find a slot.
fn add_some(chance: &mut Chance, plan: &mut Plan, count: u32, some: impl Fn(&mut Chance, &Plan) -> Wanted) {
    for _ in 0..count {
        let wanted = some(chance, plan);
        let from = chance.from_to(0, wanted.period - 1);
        add(plan, &wanted, if chance.one_in(2) { 0 } else { from });
    }
}

/// Adds a stream of one leg at an offset, whatever it meets.
pub fn put(plan: &mut Plan, link: u32, period: u32, octets: u32, offset: u32) {
    let deadline = longest_deadline(period);
    *plan = Plan { revision: plan.revision, ..enlarge(plan, &Wanted { route: vec![link], period, deadline, octets }) };
    let leg = new_legs(plan).start;
    plan.legs[leg].offset = offset;
}

fn is_accepted(plan: &Plan) -> bool {
    whole(&Plain, plan).result == NOTHING_VIOLATED
}

/// Lets some legs wait, or a whole stream start periods late, where the table is still accepted.
fn loosen(chance: &mut Chance, plan: &mut Plan) {
    for _ in 0..chance.below(4) {
        let mut moved = plan.clone();
        if plan.legs.is_empty() {
            return;
        }
        let at = chance.below(plan.legs.len());
        let stream = plan.legs[at].stream;
        if chance.one_in(2) {
            let more = chance.from_to(1, 3);
            moved.legs.iter_mut().filter(|leg| leg.stream == stream).for_each(|leg| leg.periods += more);
        } else {
            let leg = &mut moved.legs[at];
            leg.offset += chance.from_to(1, 700);
            leg.periods += chance.of(&[0, 0, 1]);
        }
        if moved.legs.iter().all(|leg| leg.periods <= LIMITS.periods) && is_accepted(&moved) {
            *plan = moved;
        }
    }
}

// ---- Short periods

/// How the short periods of one plan go together.
fn some_period(chance: &mut Chance, base: u32) -> u32 {
    if chance.one_in(40) {
        return base + 1;
    }
    base * chance.of(&[1, 1, 1, 2, 2, 2, 3, 4])
}

/// Streams on a few links, as they come, until there is little room left.
fn packed(chance: &mut Chance) -> Draft {
    let base = chance.from_to(1_700, 4_000);
    let precision = chance.of(&[0, 0, 1, 50, 100, base / 3]);
    let mut plan = empty(chance, precision);
    let reach: Vec<u32> = (0..1 + chance.below(5)).map(|_| chance.from_to(0, base / 2)).collect();
    any_line(chance, &mut plan, &reach);
    let nodes = reach.len() as u32;
    for from in 0..nodes {
        if chance.one_in(3) {
            plan.links.push(Link { from, to: nodes + 1, ns_per_octet: FAST, propagation: 7 });
        }
    }
    let some = |chance: &mut Chance, plan: &Plan| {
        let hops = 1 + chance.below(4);
        let (route, period) = (some_route(chance, &plan.links, hops), some_period(chance, base));
        stream(chance, plan, route, period)
    };
    let count = chance.from_to(1, 12);
    add_some(chance, &mut plan, count, some);
    loosen(chance, &mut plan);
    let wanted = some(chance, &plan);
    if chance.one_in(2) {
        take_first(chance, &mut plan, &wanted);
    }
    Draft { plan, wanted }
}

/// Takes the first free slot of the first link on the way, so that a stream is seldom admitted at 0.
fn take_first(chance: &mut Chance, plan: &mut Plan, wanted: &Wanted) {
    let other = stream(chance, plan, vec![wanted.route[0]], wanted.period);
    add(plan, &other, 0);
}

/// A line whose links are full but for one slot each, which a stream takes that starts at a certain offset. Now and then the
/// slots do not go together, or the stream is longer than they are.
fn hole(chance: &mut Chance) -> Draft {
    let period = 8 * chance.from_to(90, 500);
    let unit = chance.of(&[1, 8, 8]);
    let precision = unit * chance.from_to(0, 20);
    let mut plan = empty(chance, precision);
    let reach: Vec<u32> = (0..chance.of(&[1, 1, 2, 2, 3, 4])).map(|_| unit * chance.from_to(0, 900 / unit)).collect();
    any_line(chance, &mut plan, &reach);
    let route = along(&plan, 0..reach.len() as u32);
    let mut octets = chance.from_to(SHORTEST, 100.min(period / FAST - PREAMBLE - GAP));
    let held = hold(octets);
    let offset = match chance.below(4) {
        0 => 0,
        1 => period - held,
        _ => unit * chance.from_to(0, (period - held) / unit),
    };
    let mut start = offset;
    for &link in &route {
        let slot = start % period + if chance.one_in(12) { unit } else { 0 };
        fill(chance, &mut plan, link, period, (slot, slot + held));
        start += wire(octets) + plan.links[link as usize].propagation + precision;
    }
    shuffle_streams(chance, &mut plan);
    octets = (octets + chance.of(&[0, 0, 0, 0, 1])).saturating_sub(chance.of(&[0, 0, 0, 1])).max(SHORTEST);
    let period = period * chance.of(&[1, 1, 1, 2, 3]);
    let deadline = some_deadline(chance, &plan, &route, octets, period);
    Draft { plan, wanted: Wanted { route, period, deadline, octets } }
}

/// Fills a link before a slot and after it, with frames end to end, until no frame fits any more.
fn fill(chance: &mut Chance, plan: &mut Plan, link: u32, period: u32, slot: (u32, u32)) {
    for (mut from, until) in [(0, slot.0.min(period)), (slot.1.min(period), period)] {
        while until - from >= hold(SHORTEST) {
            let most = (until - from) / FAST - PREAMBLE - GAP;
            let octets = if chance.one_in(2) { most } else { chance.from_to(SHORTEST, most) }.min(LIMITS.octets.1);
            put(plan, link, period, octets, from);
            from += hold(octets);
        }
    }
}

/// Puts streams of one leg each in any order.
pub fn shuffle_streams(chance: &mut Chance, plan: &mut Plan) {
    let mut both: Vec<(Stream, Leg)> = plan.streams.iter().copied().zip(plan.legs.iter().copied()).collect();
    match chance.below(3) {
        0 => both.reverse(),
        _ => shuffle(chance, &mut both),
    }
    for (at, (stream, leg)) in both.into_iter().enumerate() {
        plan.streams[at] = Stream { first_leg: at as u32, ..stream };
        plan.legs[at] = Leg { stream: at as u32, ..leg };
    }
}

/// A long route through a short period. Many of its legs start just with a period.
fn carry(chance: &mut Chance) -> Draft {
    let period = chance.of(&[672, 1_500, 2_500, 4_000, 6_000]) + chance.from_to(0, 64);
    let (octets, precision) = (chance.from_to(SHORTEST, 70), chance.from_to(0, 40));
    let mut plan = empty(chance, precision);
    let (mut start, mut reach) = (0, Vec::new());
    for _ in 0..1 + chance.below(LIMITS.route.1 as usize) {
        let bare = (start + wire(octets) + precision) % period;
        let propagation = match chance.below(3) {
            0 => period - bare,
            1 => chance.from_to(0, 30),
            _ => chance.from_to(0, period),
        };
        start = bare + propagation;
        reach.push(propagation);
    }
    any_line(chance, &mut plan, &reach);
    for _ in 0..chance.below(4) {
        let link = chance.below(plan.links.len()) as u32;
        let wanted = stream(chance, &plan, vec![link], period);
        let from = chance.from_to(0, period - 1);
        add(&mut plan, &wanted, from);
    }
    let route = along(&plan, 0..reach.len() as u32);
    let deadline = some_deadline(chance, &plan, &route, octets, period);
    let wanted = Wanted { route, period, deadline, octets };
    if chance.one_in(2) {
        take_first(chance, &mut plan, &wanted);
    }
    Draft { plan, wanted }
}

/// A route whose last leg starts near the end of the eighth period, and whose first link is taken at the beginning.
fn late(chance: &mut Chance) -> Draft {
    let (period, octets) = (chance.from_to(1_600, 6_000), chance.from_to(SHORTEST, 80));
    let precision = chance.of(&[0, 1, 10]);
    let mut plan = empty(chance, precision);
    let hops = chance.from_to(1, LIMITS.route.1 - 1);
    let hop = wire(octets) + precision;
    let last = chance.from_to(0, 10);
    let any = chance.from_to(0, 2 * period);
    let end = longest_deadline(period) - hop - last - chance.of(&[0, 1, 95, 96, 97, 700, any, any]);
    let mut left = end.saturating_sub(hops * hop);
    let mut reach: Vec<u32> = (1..hops).map(|_| chance.from_to(0, left / hops)).collect();
    left -= reach.iter().sum::<u32>();
    reach.extend([left, last]);
    any_line(chance, &mut plan, &reach);
    let route = along(&plan, 0..hops + 1);
    for &link in &route[..chance.of(&[0, 1, 1, 2])] {
        let wanted = stream(chance, &plan, vec![link], period);
        let from = chance.of(&[0, 0, 1, 300]);
        add(&mut plan, &wanted, from);
    }
    Draft { plan, wanted: Wanted { route, period, deadline: longest_deadline(period), octets } }
}

/// Two links whose old legs come so often that they leave a stream little room, each by a divisor of its own. Often the two
/// rooms never go together.
fn tight(chance: &mut Chance) -> Draft {
    tight_up_to(chance, MOST_TRIED)
}

/// The same with a period up to this one.
pub fn tight_up_to(chance: &mut Chance, most: u32) -> Draft {
    let precision = chance.from_to(0, 100);
    let mut plan = empty(chance, precision);
    let reach = chance.from_to(0, 3_000);
    any_line(chance, &mut plan, &[reach, 0]);
    let (one, other) = chance.of(&[(2, 3), (3, 4), (4, 5), (3, 5), (5, 6)]);
    let common = chance.from_to(1_400 / one + 1, 3_000 / other);
    let (octets, route) = (chance.from_to(SHORTEST, 80), along(&plan, 0..2));
    for (&link, often) in route.iter().zip([one, other]) {
        let (period, slack) = (common * often, chance.from_to(0, 30));
        // The old leg leaves the new one this much more than it needs.
        let old = (period / FAST).saturating_sub(octets + 2 * (PREAMBLE + GAP) + slack).max(SHORTEST);
        if hold(old) <= period {
            let offset = chance.from_to(0, period - hold(old));
            put(&mut plan, link, period, old, offset);
        }
    }
    let period = common * one * other;
    let period = period * chance.from_to(1, (most / period).max(1));
    let deadline = some_deadline(chance, &plan, &route, octets, period);
    Draft { plan, wanted: Wanted { route, period, deadline, octets } }
}

/// A period that a frame fills, or does not fit into, or leaves a little room in.
fn short(chance: &mut Chance) -> Draft {
    let mut plan = empty(chance, 0);
    any_line(chance, &mut plan, &[0, 96]);
    let octets = chance.from_to(SHORTEST, 90);
    let held = hold(octets);
    let period = match chance.below(8) {
        0 => chance.from_to(1, held - 1),
        1 => held - 1,
        2 => held + 1,
        3 => 2 * held,
        4 => 2 * held - 1,
        5 => chance.from_to(held, 3 * held),
        _ => held,
    };
    if chance.one_in(2) {
        let old = Wanted { route: vec![chance.below(2) as u32], period: 2 * held, deadline: held, octets };
        add(&mut plan, &old, chance.of(&[0, held, held / 2]));
    }
    let hops = 1 + chance.below(2);
    let route = some_route(chance, &plan.links, hops);
    let deadline = some_deadline(chance, &plan, &route, octets, period);
    Draft { plan, wanted: Wanted { route, period, deadline, octets } }
}

/// Links of two rates, whose frames are on the wire ten times as long.
fn two_rates(chance: &mut Chance) -> Draft {
    let mut plan = empty(chance, 100);
    any_line(chance, &mut plan, &[11, 500, 90]);
    for link in &mut plan.links {
        link.ns_per_octet = chance.of(&LIMITS.rates[..2]);
    }
    let base = chance.from_to(8_000, 9_900);
    let some = |chance: &mut Chance, plan: &Plan| {
        let hops = 1 + chance.below(3);
        let (route, period) = (some_route(chance, &plan.links, hops), base * chance.of(&[1, 1, 2]));
        stream(chance, plan, route, period)
    };
    let count = chance.from_to(0, 7);
    add_some(chance, &mut plan, count, some);
    let wanted = some(chance, &plan);
    Draft { plan, wanted }
}

/// A line of more links than a route may have, with links back to its first nodes, and streams along it.
pub fn lined(chance: &mut Chance) -> Draft {
    let precision = chance.of(&[0, 10, 100]);
    let mut plan = empty(chance, precision);
    let length = LIMITS.route.1 + 1;
    let reach: Vec<u32> = (0..length).map(|_| chance.from_to(0, 90)).collect();
    any_line(chance, &mut plan, &reach);
    for (from, to) in (2..length).flat_map(|from| [(from, 0), (from, 1)]) {
        plan.links.push(Link { from, to, ns_per_octet: FAST, propagation: 5 });
    }
    let some = |chance: &mut Chance, plan: &Plan| {
        let first = chance.from_to(0, 3);
        let last = chance.from_to(first + 1, LIMITS.route.1);
        let period = chance.of(&[2_000, 2_000, 4_000]);
        stream(chance, plan, along(plan, first..last), period)
    };
    let count = chance.from_to(1, 6);
    add_some(chance, &mut plan, count, some);
    loosen(chance, &mut plan);
    let wanted = some(chance, &plan);
    Draft { plan, wanted }
}

// ---- Usual periods

/// The periods of plants, in ns.
const USUAL: [u32; 9] = [125_000, 250_000, 500_000, 1_000_000, 2_000_000, 4_000_000, 5_000_000, 10_000_000, 20_000_000];
/// The longest period, and parts of it.
const LONG: [u32; 4] = [LIMITS.period.1, LIMITS.period.1, LIMITS.period.1 / 2, LIMITS.period.1 / 1_000];

/// A network of some nodes with streams of usual periods and of any length, as many as find a slot.
pub fn usual(chance: &mut Chance) -> Draft {
    if chance.one_in(8) {
        let most = chance.of(&[1_000_000, 50_000_000, LIMITS.period.1]);
        return tight_up_to(chance, most);
    }
    let precision = chance.of(&[0, 100, 1_000, 20_000, LIMITS.precision]);
    let mut plan = empty(chance, precision);
    let (nodes, reach) = (chance.from_to(3, 9), chance.of(&[3_000, 3_000, LIMITS.propagation]));
    for from in 0..nodes {
        for to in (0..nodes).filter(|&to| to != from) {
            if to == from + 1 || chance.one_in(3) {
                let ns_per_octet = if chance.one_in(2) { FAST } else { chance.of(LIMITS.rates) };
                let propagation = chance.from_to(0, reach);
                plan.links.push(Link { from, to, ns_per_octet, propagation });
            }
        }
    }
    shuffle(chance, &mut plan.links);
    let periods = if chance.one_in(8) { &LONG[..] } else { &USUAL[chance.below(4)..4 + chance.below(6)] };
    let some = |chance: &mut Chance, plan: &Plan| {
        let hops = 1 + chance.below(LIMITS.route.1 as usize);
        let (route, period) = (some_route(chance, &plan.links, hops), chance.of(periods));
        let any = chance.from_to(SHORTEST, LIMITS.octets.1);
        let octets = chance.of(&[SHORTEST, 256, LIMITS.octets.1, any]);
        let deadline = some_deadline(chance, plan, &route, octets, period);
        Wanted { route, period, deadline, octets }
    };
    let count = chance.from_to(0, 80);
    add_some(chance, &mut plan, count, some);
    loosen(chance, &mut plan);
    let wanted = some(chance, &plan);
    Draft { plan, wanted }
}

// ---- Plans of files

const FILES: [&[u8]; 12] = [
    include_bytes!("../plans/backbone.plan"),
    include_bytes!("../plans/backbone-late.plan"),
    include_bytes!("../plans/full-line.plan"),
    include_bytes!("../plans/largest.plan"),
    include_bytes!("../plans/long-chains.plan"),
    include_bytes!("../plans/long-routes.plan"),
    include_bytes!("../plans/many-periods.plan"),
    include_bytes!("../plans/most-bytes.plan"),
    include_bytes!("../plans/plan-a.plan"),
    include_bytes!("../plans/plant.plan"),
    include_bytes!("../plans/plant-late.plan"),
    include_bytes!("../plans/ring.plan"),
];

/// Takes the last stream out of a plan.
pub fn take_last(plan: &mut Plan) -> Option<Wanted> {
    let Stream { period, deadline, octets, first_leg, .. } = plan.streams.pop()?;
    let legs = plan.legs.split_off((first_leg as usize).min(plan.legs.len()));
    Some(Wanted { route: legs.iter().map(|leg| leg.link).collect(), period, deadline, octets })
}

/// A plan of a file, mostly without its last streams, and one of these or any other stream.
pub fn of_a_file(chance: &mut Chance) -> Draft {
    let mut plan = Plain.read_plan(chance.of(&FILES)).expect("the numbers of the plans can be read");
    let mut last = None;
    for _ in 0..chance.of(&[0, 1, 1, 2, 3, 40]) {
        last = take_last(&mut plan).or(last);
    }
    if let (Some(wanted), false) = (last, chance.one_in(2)) {
        return Draft { plan, wanted };
    }
    let hops = 1 + chance.below(LIMITS.route.1 as usize);
    let route = some_route(chance, &plan.links, hops);
    let periods: Vec<u32> = plan.streams.iter().map(|stream| stream.period).chain([100_000]).collect();
    let period = chance.of(&periods).saturating_mul(chance.of(&[1, 1, 2]));
    let octets = chance.from_to(SHORTEST, LIMITS.octets.1);
    let deadline = some_deadline(chance, &plan, &route, octets, period);
    Draft { plan, wanted: Wanted { route, period, deadline, octets } }
}

// ---- Plans at the limits

/// About as many streams as a plan may have, of one leg each, or about as many legs, of eight in most streams.
pub fn full(chance: &mut Chance) -> Draft {
    let mut plan = empty(chance, 100);
    any_line(chance, &mut plan, &[500; LIMITS.route.1 as usize]);
    let crowded = chance.one_in(2);
    let legs = if crowded { LIMITS.streams - chance.from_to(0, 2) } else { LIMITS.legs - chance.from_to(0, 10) };
    let period = chance.of(&[500_000, 1_000_000, 1_000_000_000]);
    while plan.legs.len() < legs as usize {
        let most = if crowded { 1 } else { (legs - plan.legs.len() as u32).min(LIMITS.route.1) };
        let offset = plan.streams.len() as u64 * u64::from(hold(SHORTEST));
        let route = along(&plan, 0..most);
        let (deadline, revision) = (longest_deadline(period), plan.revision);
        plan = enlarge(&plan, &Wanted { route, period, deadline, octets: SHORTEST });
        plan.revision = revision;
        lay(&RIGHT, &mut plan, offset);
    }
    let room = LIMITS.legs - plan.legs.len() as u32;
    let hops = (room + chance.from_to(0, 2)).saturating_sub(1).clamp(1, LIMITS.route.1);
    let (route, deadline) = (along(&plan, 0..hops), longest_deadline(period));
    Draft { plan, wanted: Wanted { route, period, deadline, octets: chance.from_to(SHORTEST, 200) } }
}
