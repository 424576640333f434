//! Well-formed plans of many kinds, their legs near the edge of some rule.

use crate::chance::Chance;
use crate::check::{places_of, Checker, Plain};
use crate::format::{Leg, Link, Plan, Stream};
use crate::paper::{DEADLINE, HOP, LIMITS, OVERLAPS, WINDOW};
use crate::rules::{arrival, divisor, sent, Sent};

/// How large a plan is to be.
struct Size {
    nodes: usize,
    links: usize,
    streams: usize,
}

/// Plan A of document 01.
pub fn plan_a() -> Plan {
    Plain.read_plan(include_bytes!("../plans/plan-a.plan")).expect("it is a plan file")
}

/// Plan A with leg 2 just behind leg 0, which is accepted.
pub fn accepted_a() -> Plan {
    let mut plan = plan_a();
    plan.legs[2].offset = 672;
    plan
}

/// A plan of a few records.
pub fn small(chance: &mut Chance) -> Plan {
    let size = Size { nodes: 2 + chance.below(7), links: chance.below(9), streams: chance.below(7) };
    drafted(chance, size)
}

/// Two or three streams on one link.
pub fn one_link(chance: &mut Chance) -> Plan {
    let streams = 2 + chance.below(2);
    drafted(chance, Size { nodes: 2, links: 1, streams })
}

/// Links in a row, some links back to its first node, and streams along the row, now and then over one link too many.
pub fn row(chance: &mut Chance) -> Plan {
    let mut plan = empty(chance);
    let link = |from, to| Link { from, to, ns_per_octet: 8, propagation: 500 };
    let most = LIMITS.route.1;
    plan.links = (0..=most).map(|node| link(node, node + 1)).chain((1..=most).map(|node| link(node, 0))).collect();
    for _ in 0..1 + chance.below(4) {
        let first = chance.of(&[0, 0, 1]);
        let last = if chance.one_in(3) { most } else { chance.from_to(first, most) };
        add_stream(chance, &mut plan, 200_000, &(first..=last).collect::<Vec<_>>());
    }
    plan
}

/// A plan of some dozens of records.
pub fn medium(chance: &mut Chance) -> Plan {
    let size = Size { nodes: 4 + chance.below(12), links: 10 + chance.below(40), streams: 5 + chance.below(40) };
    drafted(chance, size)
}

/// A plan near or at the limits of links, streams and legs.
pub fn large(chance: &mut Chance) -> Plan {
    match chance.below(6) {
        0 | 1 => return full_line(chance),
        2 => return alike(chance),
        _ => {}
    }
    let links = LIMITS.links as usize - chance.below(2);
    let streams = LIMITS.streams as usize - chance.below(2);
    let nodes = chance.of(&[17, 24, 40]);
    drafted(chance, Size { nodes, links, streams })
}

/// The most links, alike in something that is not both nodes in order, and the most streams, of one leg each.
pub fn alike(chance: &mut Chance) -> Plan {
    let (count, last) = (LIMITS.links, LIMITS.node);
    let kind = chance.below(12);
    let ends = |at: u32| match kind {
        0 => (7, 8 + at),
        1 => (8 + at, 7),
        2 => (at, 1_001 - at),
        3 => (last - at, last - 511 + at),
        4 => (3 * at, 3 * at + 1),
        5 => (at, at ^ 0x5A5A),
        6 => (1 + 256 * (at / 20), 2 + 256 * (at % 20)),
        7 => (0x1200 + at / 20, 0x1280 + at % 20),
        8 => (at / 2 + at % 2, at / 2 + 1 - at % 2),
        9 => (at, 31 * (300 - at % 300)),
        10 => (at, 509 + at),
        _ => (at / 20, 20 + at % 20),
    };
    let link = |(from, to)| Link { from, to, ns_per_octet: LIMITS.rates[0], propagation: 500 };
    let mut plan = Plan { links: (0..count).map(|at| link(ends(at))).collect(), ..empty(chance) };
    if chance.one_in(2) {
        (1..plan.links.len()).rev().for_each(|at| plan.links.swap(at, chance.below(at + 1)));
    }
    for number in 0..LIMITS.streams {
        let stream = Stream { period: 100_000, deadline: 50_000, octets: 64, first_leg: number, leg_count: 1 };
        plan.streams.push(stream);
        plan.legs.push(Leg { stream: number, link: number % count, offset: 0, periods: 0 });
    }
    plan
}

/// A plan in which nothing is violated, of so many streams or fewer, and of one at least. Some of its streams may pass the
/// end of their period.
pub fn accepted(chance: &mut Chance, streams: usize, late: bool) -> Plan {
    let nodes = 2 + chance.below(8);
    let size = Size { nodes, links: 1 + chance.below(3 * nodes), streams };
    let mut plan = Plan { revision: 0, ..empty(chance) };
    plan.precision = chance.of(&[0, 1, 100, 10_000]);
    add_links(chance, &mut plan, &size);
    let rhythm = Rhythm::Harmonic(chance.of(&[100_000, 1_000_000, 2_000_000]));
    for _ in 0..1 + chance.below(streams) {
        let hops = 1 + chance.below(LIMITS.route.1 as usize);
        let route = some_route(chance, &plan.links, hops);
        let period = rhythm.period(chance);
        let first_leg = plan.legs.len();
        let late = late && chance.one_in(2);
        add_stream_in(chance, &mut plan, period, &route, late);
        let holds = |leg: usize| (0..places_of(leg as u32)).all(|place| Plain.holds(&plan, leg, place));
        if !(first_leg..plan.legs.len()).all(holds) {
            plan.streams.pop();
            plan.legs.truncate(first_leg);
        }
    }
    if plan.legs.is_empty() {
        accepted(chance, streams, late)
    } else {
        plan
    }
}

/// Four links in a row that each of 512 streams takes. Nothing is violated.
pub fn full_line(chance: &mut Chance) -> Plan {
    let link = |from| Link { from, to: from + 1, ns_per_octet: 8, propagation: 500 };
    let mut plan = Plan { links: (0..4).map(link).collect(), ..empty(chance) };
    plan.precision = 100;
    for number in 0..LIMITS.streams {
        let period = chance.of(&[1, 2, 3, 5, 8, 13]) * 1_000_000;
        plan.streams.push(Stream { period, deadline: 10_000, octets: 64, first_leg: 4 * number, leg_count: 4 });
        let leg = |hop| Leg { stream: number, link: hop, offset: 672 * number + 1_176 * hop, periods: 0 };
        plan.legs.extend((0..4).map(leg));
    }
    plan
}

fn empty(chance: &mut Chance) -> Plan {
    let precision = match chance.below(5) {
        0 => 0,
        1 => chance.from_to(LIMITS.precision - 1, LIMITS.precision),
        2 => chance.from_to(0, LIMITS.precision),
        _ => 100,
    };
    let revision = chance.of(&[0, 1, 127, 128, 16_384, u32::MAX - 1, u32::MAX, u32::MAX]);
    let revision = if chance.one_in(3) { chance.word() } else { revision };
    Plan { revision, precision, links: Vec::new(), streams: Vec::new(), legs: Vec::new() }
}

fn drafted(chance: &mut Chance, size: Size) -> Plan {
    let mut plan = empty(chance);
    add_links(chance, &mut plan, &size);
    if plan.links.is_empty() {
        return plan;
    }
    let rhythm = Rhythm::some(chance);
    for _ in 0..size.streams {
        let room = LIMITS.legs as usize - plan.legs.len();
        if room == 0 {
            break;
        }
        let hops = if chance.one_in(4) { LIMITS.route.1 as usize } else { 1 + chance.below(4) };
        let route = some_route(chance, &plan.links, hops.min(room));
        let period = rhythm.period(chance);
        add_stream(chance, &mut plan, period, &route);
    }
    plan
}

fn add_links(chance: &mut Chance, plan: &mut Plan, size: &Size) {
    // In some plans the nodes differ in their high bytes alone.
    let apart = chance.of(&[1, 1, 1, 256]).min(LIMITS.node / size.nodes as u32);
    let lowest = chance.of(&[0, 1, 100, LIMITS.node - apart * (size.nodes as u32 - 1)]);
    let one_rate = chance.one_in(2);
    let mut pairs: Vec<(usize, usize)> = (0..size.nodes)
        .flat_map(|from| (0..size.nodes).map(move |to| (from, to)))
        .filter(|(from, to)| from != to)
        .collect();
    for _ in 0..size.links.min(pairs.len()) {
        let (from, to) = pairs.swap_remove(chance.below(pairs.len()));
        plan.links.push(Link {
            from: lowest + apart * from as u32,
            to: lowest + apart * to as u32,
            ns_per_octet: if one_rate || chance.one_in(4) { LIMITS.rates[0] } else { chance.of(LIMITS.rates) },
            propagation: if chance.one_in(4) {
                chance.of(&[0, LIMITS.propagation - 1, LIMITS.propagation])
            } else {
                chance.from_to(0, 3_000)
            },
        });
    }
}

/// A way over links that meets no node twice, with at most so many hops.
pub fn some_route(chance: &mut Chance, links: &[Link], hops: usize) -> Vec<u32> {
    // Every second route begins on one of the first links, so that these are shared by many streams.
    let choices = if chance.one_in(2) { links.len().min(2) } else { links.len() };
    let first = chance.below(choices);
    let mut route = vec![first as u32];
    let mut met = vec![links[first].from, links[first].to];
    while route.len() < hops {
        let here = met[met.len() - 1];
        let ahead: Vec<usize> =
            (0..links.len()).filter(|&at| links[at].from == here && !met.contains(&links[at].to)).collect();
        if ahead.is_empty() {
            break;
        }
        let taken = chance.of(&ahead);
        route.push(taken as u32);
        met.push(links[taken].to);
    }
    route
}

/// How the periods of one plan go together.
enum Rhythm {
    Harmonic(u32),
    Fibonacci(u32),
    Coprime,
    Any,
    Edges,
    /// One period, and that a long one: starts pass 32 bits.
    Long(u32),
}

impl Rhythm {
    fn some(chance: &mut Chance) -> Rhythm {
        match chance.below(9) {
            0 | 1 => Rhythm::Harmonic(chance.of(&[100_000, 1_000_000, 2_000_000])),
            2 | 3 => Rhythm::Harmonic(chance.from_to(673, 6_000)),
            4 => Rhythm::Fibonacci(chance.of(&[1_344, 1_345, 10_000])),
            5 => Rhythm::Coprime,
            6 => Rhythm::Any,
            // A word holds the longest deadline just, or just not; and likewise for the most periods that a leg lies late.
            7 => {
                let edge = chance.of(&[u32::MAX / LIMITS.deadline_periods, u32::MAX / LIMITS.periods]);
                Rhythm::Long(chance.of(&[edge - 1, edge, edge + 1, LIMITS.period.1]))
            }
            _ => Rhythm::Edges,
        }
    }

    fn period(&self, chance: &mut Chance) -> u32 {
        match self {
            Rhythm::Harmonic(base) => base * chance.of(&[1, 1, 2, 3, 4, 6]),
            Rhythm::Fibonacci(base) => base * chance.of(&[1, 2, 3, 5, 8, 13, 21, 34, 55]),
            Rhythm::Coprime => chance.of(&[100_000, 100_001, 50_000, 150_000]),
            Rhythm::Any => chance.any_size().clamp(LIMITS.period.0, LIMITS.period.1),
            // The wire time of the shortest frame, its hold time, and twice the hold time.
            Rhythm::Edges => {
                let times = [575, 576, 577, 671, 672, 673, 1_343, 1_344];
                chance.of(&[&[1, 2, LIMITS.period.1 - 1, LIMITS.period.1], &times[..]].concat())
            }
            Rhythm::Long(period) => *period,
        }
    }
}

/// The longest deadline of a stream, as far as a word holds it.
pub fn longest_deadline(period: u32) -> u32 {
    period.saturating_mul(LIMITS.deadline_periods)
}

/// Any number of periods that a leg may lie late.
fn some_periods(chance: &mut Chance) -> u32 {
    chance.of(&[0, 1, 1, 2, 3, LIMITS.periods - 1, LIMITS.periods, LIMITS.periods])
}

/// Gives some legs other period words, first legs too.
pub fn reword(chance: &mut Chance, plan: &mut Plan) {
    for leg in 0..plan.legs.len() {
        if chance.one_in(2) {
            plan.legs[leg].periods = some_periods(chance);
        }
    }
}

/// Lets a leg start at a time, in the first period that lies no later, as far as legs may lie late.
pub fn start_at(plan: &mut Plan, leg: usize, start: u64) {
    let period = u64::from(plan.streams[plan.legs[leg].stream as usize].period);
    let periods = (start / period).min(u64::from(LIMITS.periods));
    let offset = (start - periods * period).min(u64::from(u32::MAX));
    plan.legs[leg] = Leg { offset: offset as u32, periods: periods as u32, ..plan.legs[leg] };
}

/// The same, but that a frame which does not fit in its period any more starts with the next.
fn start_from(plan: &mut Plan, leg: usize, start: u64) {
    start_at(plan, leg, start);
    let Sent { offset, hold, period, .. } = known(plan, leg);
    let period = u64::from(period);
    if offset < period && offset + hold > period && hold <= period {
        start_at(plan, leg, start - offset + period);
    }
}

/// Adds a stream on a route. Where a few tries find room its legs violate nothing.
fn add_stream(chance: &mut Chance, plan: &mut Plan, period: u32, route: &[u32]) {
    let late = chance.one_in(2);
    add_stream_in(chance, plan, period, route, late);
}

/// The same for a stream that may pass the end of its period, or may not.
fn add_stream_in(chance: &mut Chance, plan: &mut Plan, period: u32, route: &[u32], late: bool) {
    let number = plan.streams.len() as u32;
    let first_leg = plan.legs.len();
    let octets = match chance.below(4) {
        0 => chance.of(&[LIMITS.octets.0, LIMITS.octets.0 + 1, LIMITS.octets.1 - 1, LIMITS.octets.1]),
        1 => chance.from_to(LIMITS.octets.0, LIMITS.octets.1),
        _ => LIMITS.octets.0,
    };
    let leg_count = route.len() as u32;
    let longest = if late { longest_deadline(period) } else { period };
    plan.streams.push(Stream { period, deadline: longest, octets, first_leg: first_leg as u32, leg_count });
    plan.legs.extend(route.iter().map(|&link| Leg { stream: number, link, offset: 0, periods: 0 }));
    // In a large plan few tries are made, which would take long there.
    let tries = if first_leg < 200 { 12 } else { 1 };
    for _ in 0..tries {
        let mut due = u64::from(chance.from_to(0, period - 1)) / chance.of(&[1, 4, 64]);
        if late {
            due += u64::from(period) * chance.of(&[0, 0, 0, 1, 2, 6]);
        }
        for leg in first_leg..plan.legs.len() {
            if late {
                start_from(plan, leg, due);
            } else {
                plan.legs[leg].offset = due.min(u64::from(u32::MAX)) as u32;
            }
            due = arrival(&known(plan, leg), u64::from(plan.precision));
            due += chance.below(3) as u64 * chance.below(1_000) as u64;
        }
        let free = |leg| (0..first_leg).all(|other| fit(plan, leg, other));
        if (first_leg..plan.legs.len()).all(free) {
            break;
        }
    }
    let needed = arrival(&known(plan, plan.legs.len() - 1), u64::from(plan.precision));
    let exact = needed.saturating_sub(known(plan, first_leg).start);
    match chance.below(6) {
        0..=2 => plan.streams[number as usize].deadline = exact.clamp(1, u64::from(longest)) as u32,
        3 => plan.streams[number as usize].deadline = chance.from_to(1, longest),
        _ => {}
    }
}

fn known(plan: &Plan, leg: usize) -> Sent {
    sent(&Plain, plan, leg)
}

fn fit(plan: &Plan, leg: usize, other: usize) -> bool {
    Plain.holds(plan, leg, OVERLAPS + other as u32)
}

/// Brings one leg to the edge of a rule, on its right side or its wrong one. Gives the place of that rule.
pub fn to_an_edge(chance: &mut Chance, plan: &mut Plan) -> (u32, u32) {
    if plan.legs.is_empty() {
        return (0, 0);
    }
    let rule = chance.below(6);
    let mut leg = chance.below(plan.legs.len());
    if rule == HOP {
        // The hop concerns a leg that has one before it in its stream.
        let later: Vec<usize> =
            (1..plan.legs.len()).filter(|&at| plan.legs[at].stream == plan.legs[at - 1].stream).collect();
        leg = if later.is_empty() { leg } else { chance.of(&later) };
    }
    let stream = plan.legs[leg].stream as usize;
    let (first, count) = (plan.streams[stream].first_leg as usize, plan.streams[stream].leg_count as usize);
    let now = known(plan, leg);
    let beside = chance.of(&[0, 0, 1]);
    // Now and then the edge is where it would be without the gap.
    let no_gap = chance.one_in(6);
    let held = |sent: &Sent| if no_gap { sent.wire as i64 } else { sent.hold as i64 };
    let (place, offset) = match rule {
        WINDOW => (WINDOW as u32, i64::from(now.period) - held(&now) + beside),
        HOP if leg > first => {
            // Now and then a whole period too early. The leg keeps its period word, or gets that of the period which it
            // starts in.
            let early = if chance.one_in(8) { i64::from(now.period) } else { beside };
            let start = arrival(&known(plan, leg - 1), u64::from(plan.precision)) as i64 - early;
            if chance.one_in(2) {
                start_at(plan, leg, start.max(0) as u64);
                return (leg as u32, HOP as u32);
            }
            (HOP as u32, start - (now.start - now.offset) as i64)
        }
        DEADLINE => {
            let last = first + count - 1;
            let needed = arrival(&known(plan, last), u64::from(plan.precision));
            let exact = needed as i64 - known(plan, first).start as i64 - beside;
            plan.streams[stream].deadline = exact.clamp(1, i64::from(longest_deadline(now.period))) as u32;
            return (last as u32, DEADLINE as u32);
        }
        _ => {
            let others: Vec<usize> = (0..leg).filter(|&other| plan.legs[other].link == plan.legs[leg].link).collect();
            if others.is_empty() {
                return (leg as u32, 0);
            }
            let at = chance.of(&others);
            let other = known(plan, at);
            let common = i64::from(divisor(now.period, other.period));
            // The frames touch, or share one ns, in repeats that may lie far beyond the period.
            let times = match chance.below(3) {
                0 => 0,
                1 => chance.below(50) as i64,
                _ => i64::from(u32::MAX - now.period) / common,
            };
            let touching = if chance.one_in(2) {
                other.offset as i64 + held(&other) - beside
            } else {
                other.offset as i64 - held(&now) + beside
            };
            let once = touching.rem_euclid(common) + times * common;
            (OVERLAPS + at as u32, if once > i64::from(u32::MAX) { touching.rem_euclid(common) } else { once })
        }
    };
    plan.legs[leg].offset = offset.clamp(0, i64::from(u32::MAX)) as u32;
    (leg as u32, place)
}

/// Sets some offsets far beyond the period, so that windows are violated and sums pass 32 bits.
pub fn beyond(chance: &mut Chance, plan: &mut Plan) {
    if chance.one_in(2) {
        reword(chance, plan);
    }
    for leg in 0..plan.legs.len() {
        if chance.one_in(3) {
            plan.legs[leg].offset = match chance.below(3) {
                0 => u32::MAX - chance.any_size() % 200_000,
                1 => chance.word(),
                _ => chance.any_size(),
            };
        }
    }
}
