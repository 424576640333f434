//! Tables and byte strings that are damaged in some way.

use crate::chance::Chance;
use crate::drafts::longest_deadline;
use crate::format::{encoded, Layout, Leg, Link, Plan, Stream};
use crate::paper::{HEADER_WORDS, LEG_WORDS, LIMITS, LINK_WORDS, MORE, STREAM_WORDS};

/// The words of a record of each part.
const WIDTHS: [usize; 3] = [LINK_WORDS, STREAM_WORDS, LEG_WORDS];

/// The most that the words of a header after the first may be.
const LIMITS_OF_HEADER: [u32; 4] = [LIMITS.links, LIMITS.streams, LIMITS.legs, LIMITS.precision];

/// Where a part's records begin, and how many it has.
fn part(words: &[u32], part: usize) -> (usize, usize) {
    let start = HEADER_WORDS + (0..part).map(|earlier| WIDTHS[earlier] * words[1 + earlier] as usize).sum::<usize>();
    (start, words[1 + part] as usize)
}

/// The first or the last record of a part, or any other. The part is not empty.
fn some_record(chance: &mut Chance, count: usize) -> usize {
    match chance.below(4) {
        0 => 0,
        1 => count - 1,
        _ => chance.below(count),
    }
}

/// A table with each word after its header at each value that lies at an edge of its range.
pub fn each_edge(words: &[u32]) -> Vec<Vec<u32>> {
    let mut tables = Vec::new();
    for (at, width) in WIDTHS.into_iter().enumerate() {
        let (start, count) = part(words, at);
        for (record, field) in (0..count).flat_map(|record| (0..width).map(move |field| (record, field))) {
            let first = start + width * record;
            for value in edges(words, at, field, &words[first..first + width]) {
                let mut table = words.to_vec();
                table[first + field] = value;
                tables.push(table);
            }
        }
    }
    tables
}

/// The values at the edges of a word's range, by its part and its place in the record.
fn edges(words: &[u32], part: usize, field: usize, record: &[u32]) -> Vec<u32> {
    let own = record[field];
    let mut values = match (part, field) {
        (0, 0) | (0, 1) => vec![0, LIMITS.node, LIMITS.node + 1, record[1 - field]],
        (0, 2) => LIMITS.rates.iter().flat_map(|&rate| [rate - 1, rate, rate + 1]).chain([0, 100]).collect(),
        (0, _) => vec![0, LIMITS.propagation, LIMITS.propagation + 1],
        // The least period that allows the deadline, and one ns less.
        (1, 0) => {
            let least = record[1] / LIMITS.deadline_periods + u32::from(record[1] % LIMITS.deadline_periods > 0);
            vec![0, 1, LIMITS.period.1, LIMITS.period.1 + 1, least, least.wrapping_sub(1)]
        }
        (1, 1) => {
            let (longest, one_less) = (longest_deadline(record[0]), record[0].saturating_mul(LIMITS.periods));
            vec![
                0,
                1,
                record[0],
                record[0].wrapping_add(1),
                one_less,
                one_less.wrapping_add(1),
                longest,
                longest.wrapping_add(1),
            ]
        }
        (1, 2) => vec![0, LIMITS.octets.0 - 1, LIMITS.octets.0, LIMITS.octets.1, LIMITS.octets.1 + 1],
        (1, 3) => vec![0, words[3]],
        (1, _) => vec![0, 1, LIMITS.route.1, LIMITS.route.1 + 1, words[3], words[3] + 1],
        (_, 0) => vec![0, words[2], words[2].wrapping_sub(1)],
        (_, 1) => vec![0, words[1], words[1].wrapping_sub(1)],
        (_, 2) => vec![0],
        _ => vec![0, 1, LIMITS.periods, LIMITS.periods + 1, LIMITS.periods + 2, 0x100, 1 << 31],
    };
    values.extend([own.wrapping_add(1), own.wrapping_sub(1), u32::MAX, own ^ 0x1_0000]);
    values
}

/// Damages the table of a plan once.
pub fn damage_table(chance: &mut Chance, words: &mut Vec<u32>) {
    let at = chance.below(3);
    let (start, count) = part(words, at);
    let width = WIDTHS[at];
    if count == 0 || chance.one_in(12) {
        return damage_header(chance, words);
    }
    let record = start + width * some_record(chance, count);
    match chance.below(10) {
        0 => {
            // Another record, whole or in its first words, stands in this one's place.
            let other = start + width * chance.below(count);
            let length = if chance.one_in(2) { width } else { 2 };
            words.copy_within(other..other + length, record);
        }
        1 => {
            let other = start + width * chance.below(count);
            for field in 0..width {
                words.swap(record + field, other + field);
            }
        }
        2 => {
            words.drain(record..record + width);
            words[1 + at] -= u32::from(chance.one_in(2));
        }
        3 => {
            let copy = words[record..record + width].to_vec();
            words.splice(record..record, copy);
            words[1 + at] += u32::from(!chance.one_in(3));
        }
        _ => {
            let field = chance.below(width);
            let values = edges(words, at, field, &words[record..record + width]);
            words[record + field] = chance.of(&values);
        }
    }
}

fn damage_header(chance: &mut Chance, words: &mut [u32]) {
    let field = 1 + chance.below(4);
    let limit = LIMITS_OF_HEADER[field - 1];
    let own = words[field];
    words[field] = chance.of(&[limit, limit + 1, own.wrapping_add(1), own.wrapping_sub(1), 0, u32::MAX]);
}

/// Another stream has the next leg, so that all counts still add up.
pub fn shift_legs(chance: &mut Chance, plan: &mut Plan) {
    if plan.streams.len() > 1 {
        let at = 1 + chance.below(plan.streams.len() - 1);
        plan.streams[at - 1].leg_count += 1;
        plan.streams[at].first_leg += 1;
        plan.streams[at].leg_count = plan.streams[at].leg_count.wrapping_sub(1);
    }
}

/// Some links get the nodes of others.
pub fn double_links(chance: &mut Chance, plan: &mut Plan) {
    for _ in 0..2 {
        let (at, other) = (chance.below(plan.links.len().max(1)), chance.below(plan.links.len().max(1)));
        if let Some(&Link { from, to, .. }) = plan.links.get(other) {
            plan.links[at] = Link { from, to, ..plan.links[at] };
        }
    }
}

/// A route with a leg that goes back to a node that was met, or that starts anew somewhere else.
pub fn bend_route(chance: &mut Chance, plan: &mut Plan) {
    if plan.legs.is_empty() {
        return;
    }
    let leg = chance.below(plan.legs.len());
    let first = plan.streams[plan.legs[leg].stream as usize].first_leg as usize;
    let from = |at: usize| plan.links[plan.legs[at].link as usize].from;
    // The first node, or any that was met.
    let met: Vec<u32> = (first..leg).map(from).take(if chance.one_in(2) { 1 } else { leg }).collect();
    let back = plan.links.iter().position(|link| link.from == from(leg) && met.contains(&link.to));
    let any = chance.below(plan.links.len());
    plan.legs[leg].link = if chance.one_in(4) { any } else { back.unwrap_or(any) } as u32;
}

/// Links between all of some nodes, and streams over them. A route may come back to any of its nodes, or have a link that
/// begins elsewhere.
pub fn routes(chance: &mut Chance) -> Plan {
    let nodes = [0, 1, 2, 255, 256, 257, 32_768, 4_660, LIMITS.node - 1, LIMITS.node];
    let ends: Vec<(u32, u32)> = nodes
        .iter()
        .flat_map(|&from| nodes.iter().map(move |&to| (from, to)))
        .filter(|(from, to)| from != to)
        .collect();
    let link = |&(from, to): &(u32, u32)| Link { from, to, ns_per_octet: LIMITS.rates[0], propagation: 500 };
    let links = ends.iter().map(link).collect();
    let mut plan = Plan { revision: 7, precision: 100, links, streams: Vec::new(), legs: Vec::new() };
    for stream in 0..chance.from_to(1, 3) {
        let length = 1 + chance.below((LIMITS.route.1 as usize).min(nodes.len() - 1));
        let mut way = nodes;
        (1..way.len()).rev().for_each(|at| way.swap(at, chance.below(at + 1)));
        let fault = chance.below(4);
        if fault == 0 && length > 1 {
            let back = 2 + chance.below(length - 1);
            way[back] = way[chance.below(back - 1)];
        }
        let mut route: Vec<(u32, u32)> = (0..length).map(|hop| (way[hop], way[hop + 1])).collect();
        if fault == 1 {
            route[chance.below(length)] = chance.of(&ends);
        }
        let (first_leg, leg_count) = (plan.legs.len() as u32, length as u32);
        plan.streams.push(Stream { period: 100_000, deadline: 50_000, octets: LIMITS.octets.0, first_leg, leg_count });
        for hop in route {
            // Where a route comes back to the node that it would leave, it takes any link.
            let link = ends.iter().position(|&other| other == hop).unwrap_or(0) as u32;
            plan.legs.push(Leg { stream, link, offset: 0, periods: 0 });
        }
    }
    plan
}

/// Damages a byte string once.
pub fn damage_bytes(chance: &mut Chance, bytes: &mut Vec<u8>) {
    let at = match chance.below(4) {
        0 => 0,
        1 => bytes.len().saturating_sub(1 + chance.below(6)),
        _ => chance.below(bytes.len() + 1),
    };
    match chance.below(9) {
        0 => bytes.truncate(at),
        1 => {
            let more = 1 + chance.below(6);
            bytes.extend(chance.bytes(more));
        }
        2 => bytes.extend(chance.of(&[&[0][..], &[0x80], &[0x80, 0], &[0x80; 4], &[0x80; 5], &[0xFF; 5]])),
        3 => {
            // A number gets one byte more than it needs.
            if let Some(byte) = bytes.get_mut(at) {
                let ended = *byte < MORE;
                *byte |= MORE;
                if ended {
                    bytes.insert(at + 1, 0);
                }
            }
        }
        4 => {
            let last = chance.of(&[0x00, 0x01, 0x0F, 0x10, 0x7F, 0x80, 0x8F, 0xFF]);
            let number = [chance.next() as u8 | 0x80, 0x80, 0xFF, 0x80, last];
            let after = (at + chance.of(&[0, 1])).min(bytes.len());
            bytes.splice(at.min(after)..after, number);
        }
        5 => {
            bytes.truncate(at);
            bytes.extend(vec![0xFF; chance.below(6)]);
        }
        6 if at < bytes.len() => {
            bytes.remove(at);
        }
        7 => bytes.insert(at.min(bytes.len()), chance.of(&[0, 1, 0x7F, 0x80, 0xFF])),
        _ => {
            if let Some(byte) = bytes.get_mut(at) {
                *byte ^= 1 << chance.below(8);
            }
        }
    }
}

/// A table of any words in a layout, of so many links, streams and legs at the most.
pub fn any_table(chance: &mut Chance, layout: Layout, most: [u32; 3]) -> Vec<u32> {
    let [links, streams, legs] = most.map(|most| chance.from_to(0, most));
    let header = [chance.any_size(), links, streams, legs, chance.from_to(0, LIMITS.precision)];
    with_rest(chance, layout, header)
}

/// A header, and as many words after it as it asks for.
fn with_rest(chance: &mut Chance, layout: Layout, header: [u32; HEADER_WORDS]) -> Vec<u32> {
    let rest: Vec<u32> = (HEADER_WORDS as u64..layout.table_words(&header)).map(|_| chance.any_size()).collect();
    header.into_iter().chain(rest).collect()
}

/// The file of a table whose header is above a limit, now and then with nothing after it.
pub fn above_a_limit(chance: &mut Chance, layout: Layout) -> Vec<u8> {
    let mut header = [chance.any_size(), 1, 1, 1, 0];
    let field = 1 + chance.below(4);
    header[field] = LIMITS_OF_HEADER[field - 1] + 1;
    let words = with_rest(chance, layout, header);
    encoded(if chance.one_in(4) { &words[..HEADER_WORDS] } else { &words })
}

/// Bytes that were never a plan or a cursor.
pub fn any_bytes(chance: &mut Chance) -> Vec<u8> {
    match chance.below(3) {
        0 => {
            let count = chance.below(40);
            chance.bytes(count)
        }
        1 => {
            let words: Vec<u32> = (0..chance.below(12)).map(|_| chance.any_size()).collect();
            encoded(&words)
        }
        _ => (0..chance.below(20)).map(|_| chance.of(&[0, 1, 2, 0x7F, 0x80, 0x81, 0xFF])).collect(),
    }
}
