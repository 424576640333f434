//! Networks by chance: loose ones, tight ones, rings, lines, large ones, and hostile ones.

use crate::chance::Chance;
use crate::network::{Network, LIMITS, RECORD};

/// From, to, most.
type Record = [i64; 3];

/// How far the numbers of a network are from 0 at most.
const SIZES: [i64; 6] = [1, 3, 10, 1_000, 1_000_000, LIMITS.most];

/// What makes a network of each family. Each batch has all of them in turn. Large networks take long, so that they are few.
pub const FAMILIES: [fn(&mut Chance) -> Network; 32] = [
    small, random, tight, ring, hostile, small, tightened, line, components, hostile, parallel, eight, small, ring,
    hostile, random, loops, tightened, at_a_limit, small, tight, late_ring, hostile, parallel, at_a_limit, eight,
    loops, ring, small, hostile, components, dense,
];

/// The example of the request: with -6 in the last constraint there are times, and with -7 a chain.
pub fn example(last: i64) -> Network {
    network(3, &[[0, 1, 10], [1, 2, -4], [2, 0, last]])
}

fn network(events: usize, records: &[Record]) -> Network {
    Network { events: events as u64, words: records.concat() }
}

/// A number from the first up to the second.
pub fn between(chance: &mut Chance, least: i64, most: i64) -> i64 {
    least + (chance.next() % ((most - least) as u64 + 1)) as i64
}

pub fn shuffle<T>(chance: &mut Chance, row: &mut [T]) {
    for at in (1..row.len()).rev() {
        row.swap(at, chance.below(at + 1));
    }
}

/// All events in any order.
fn any_order(chance: &mut Chance, events: usize) -> Vec<i64> {
    let mut order: Vec<i64> = (0..events as i64).collect();
    shuffle(chance, &mut order);
    order
}

/// Puts records in their order, the other way round, or in any order. The times of a line in the wrong order come late.
fn laid(chance: &mut Chance, mut records: Vec<Record>) -> Vec<Record> {
    match chance.below(3) {
        0 => {}
        1 => records.reverse(),
        _ => shuffle(chance, &mut records),
    }
    records
}

/// How many events: often few, sometimes all.
fn some_events(chance: &mut Chance) -> usize {
    let most = chance.of(&[3, 5, 8, 8, 20, 20, 60, 127, 128]);
    if most > 126 {
        most
    } else {
        1 + chance.below(most)
    }
}

/// Records between any two of some events.
fn any_records(chance: &mut Chance, events: usize, count: usize, least: i64, most: i64) -> Vec<Record> {
    let event = |chance: &mut Chance| chance.below(events) as i64;
    (0..count).map(|_| [event(chance), event(chance), between(chance, least, most)]).collect()
}

fn small(chance: &mut Chance) -> Network {
    let events = 1 + chance.below(5);
    let count = chance.below(10);
    let size = chance.of(&SIZES);
    let records = any_records(chance, events, count, -size, size);
    network(events, &records)
}

/// Mostly with times: few of the numbers are below 0.
fn random(chance: &mut Chance) -> Network {
    let events = some_events(chance);
    let count = chance.below(3 * events + 1);
    let size = chance.of(&SIZES);
    let least = chance.of(&[-size, -size / 3, -size / 30]);
    let records = any_records(chance, events, count, least, size);
    network(events, &records)
}

/// Records that hidden times keep, about half of them exactly.
fn kept_by(chance: &mut Chance, hidden: &[i64], count: usize, slack: i64) -> Vec<Record> {
    let mut records = any_records(chance, hidden.len(), count, 0, slack);
    for [from, to, most] in &mut records {
        let exact = hidden[*to as usize] - hidden[*from as usize];
        *most = if chance.one_in(2) { exact } else { (exact + *most).min(LIMITS.most) };
    }
    records
}

fn hidden_times(chance: &mut Chance, events: usize, size: i64) -> Vec<i64> {
    (0..events).map(|_| between(chance, -size, 0)).collect()
}

/// A chain through some events that sums to 0, since hidden times keep it exactly.
fn exact_ring(chance: &mut Chance, hidden: &[i64], length: usize) -> Vec<Record> {
    let order = any_order(chance, hidden.len());
    let exact = |from: i64, to: i64| [from, to, hidden[to as usize] - hidden[from as usize]];
    (0..length).map(|at| exact(order[at], order[(at + 1) % length])).collect()
}

fn tight(chance: &mut Chance) -> Network {
    let events = some_events(chance);
    let size = chance.of(&SIZES);
    let hidden = hidden_times(chance, events, size);
    let count = chance.below(4 * events + 1);
    let records = kept_by(chance, &hidden, count, size);
    network(events, &records)
}

/// A tight network with a chain that sums to 0, and then one of its constraints tightened by 1, or not.
fn tightened(chance: &mut Chance) -> Network {
    let events = some_events(chance);
    let size = chance.of(&SIZES) - 1;
    let hidden = hidden_times(chance, events, size);
    let length = 1 + chance.below(events);
    let mut records = exact_ring(chance, &hidden, length);
    let at = chance.below(length);
    records[at][2] -= chance.of(&[0, 1, 1]);
    let count = chance.below(3 * events + 1);
    records.extend(kept_by(chance, &hidden, count, size));
    let records = laid(chance, records);
    network(events, &records)
}

/// Numbers of any size in the range, which add up to a sum near 0.
fn adding_up(chance: &mut Chance, count: usize, sum: i64) -> Vec<i64> {
    let size = chance.of(&SIZES);
    let mut numbers = vec![0; count];
    for _ in 0..2 * count {
        let (up, down) = (chance.below(count), chance.below(count));
        let most = (size - numbers[up]).min(size + numbers[down]);
        let step = if chance.one_in(4) { most } else { between(chance, 0, most) };
        numbers[up] += step;
        numbers[down] -= step;
    }
    let fits = |number: i64| (LIMITS.least..=LIMITS.most).contains(&(number + sum));
    let at = (0..count).find(|&at| fits(numbers[at])).expect("numbers near 0 on average are not all at one limit");
    numbers[at] += sum;
    numbers
}

fn ring_of(chance: &mut Chance, events: &[i64], sum: i64) -> Vec<Record> {
    let numbers = adding_up(chance, events.len(), sum);
    let next = events.iter().cycle().skip(1);
    events.iter().zip(next).zip(numbers).map(|((&from, &to), most)| [from, to, most]).collect()
}

/// A chain that sums to -1, 0 or 1, with events that lead to it and away from it.
fn ring(chance: &mut Chance) -> Network {
    let events = some_events(chance);
    let order = any_order(chance, events);
    let length = if chance.one_in(2) { events } else { 1 + chance.below(events) };
    let sum = between(chance, -1, 1);
    let mut records = ring_of(chance, &order[..length], sum);
    for at in length..events {
        let on_it = order[chance.below(at)];
        let (from, to) = if chance.one_in(3) { (order[at], on_it) } else { (on_it, order[at]) };
        records.push([from, to, between(chance, -5, 1_000)]);
    }
    let records = laid(chance, records);
    network(events, &records)
}

/// A line from event to event, whose times go down to -127,000,000,000.
fn line_of(chance: &mut Chance, events: usize, step: i64) -> Vec<Record> {
    let order = if chance.one_in(2) { (0..events as i64).collect() } else { any_order(chance, events) };
    order.windows(2).map(|pair| [pair[0], pair[1], step]).collect()
}

fn line(chance: &mut Chance) -> Network {
    let events = chance.of(&[2, 3, 7, 40, 127, 128, 128]);
    let step = chance.of(&[-1, -7, -1_000_000, LIMITS.least, LIMITS.least, LIMITS.least + 1]);
    let records = line_of(chance, events, step);
    let mut records = laid(chance, records);
    let count = chance.of(&[0, 0, 5, 300]);
    records.extend(any_records(chance, events, count, LIMITS.most / 2, LIMITS.most));
    network(events, &records)
}

/// A line that the last constraint closes to a chain near 0: that is seen only after the whole line was gone.
fn late_ring(chance: &mut Chance) -> Network {
    let events = chance.of(&[3, 10, 60, 127, 128]);
    let step = chance.of(&[-1, -1_000, -LIMITS.most / 128]);
    let mut records = line_of(chance, events, step);
    let (first, last) = (records[0][0], records[events - 2][1]);
    records.push([last, first, -step * (events as i64 - 1) + between(chance, -1, 1)]);
    if chance.one_in(3) {
        shuffle(chance, &mut records);
    } else {
        records.reverse();
    }
    network(events, &records)
}

/// Two chains with one event in common, which sum to something near 0 each.
fn eight(chance: &mut Chance) -> Network {
    let most = chance.of(&[3, 6, 6, 20, 126]);
    let events = 3 + chance.below(most);
    let order = any_order(chance, events);
    let first = 2 + chance.below(events - 2);
    let sums = [between(chance, -2, 2), between(chance, -2, 2)];
    let mut records = ring_of(chance, &order[..first], sums[0]);
    records.extend(ring_of(chance, &order[first - 1..], sums[1]));
    let records = laid(chance, records);
    network(events, &records)
}

/// Networks side by side, of which one may have a chain. The events are mixed.
fn components(chance: &mut Chance) -> Network {
    let parts: Vec<Network> = (0..2 + chance.below(4)).map(|_| component(chance)).collect();
    let events: usize = parts.iter().map(|part| part.events as usize).sum();
    let order = any_order(chance, events);
    let (mut records, mut first) = (Vec::new(), 0);
    for part in &parts {
        let event = |number: i64| order[first + number as usize];
        records.extend(part.words.chunks_exact(RECORD).map(|word| [event(word[0]), event(word[1]), word[2]]));
        first += part.events as usize;
    }
    let records = laid(chance, records);
    network(events, &records)
}

fn component(chance: &mut Chance) -> Network {
    let events = 1 + chance.below(20);
    let hidden = hidden_times(chance, events, 50);
    let count = chance.below(2 * events);
    let mut records = kept_by(chance, &hidden, count, 10);
    if chance.one_in(3) {
        let length = 1 + chance.below(events);
        records.extend(exact_ring(chance, &hidden, length));
        let at = chance.below(records.len());
        records[at][2] -= 1;
    }
    network(events, &records)
}

/// Constraints several times, with the same number and with others.
fn parallel(chance: &mut Chance) -> Network {
    let Network { events, words } = if chance.one_in(2) { tightened(chance) } else { small(chance) };
    let mut records: Vec<Record> = words.chunks_exact(RECORD).map(|word| [word[0], word[1], word[2]]).collect();
    for at in 0..records.len() {
        let [from, to, most] = records[at];
        let other = (most + chance.of(&[-1, 0, 1, 5, 40])).clamp(LIMITS.least, LIMITS.most);
        records.push([from, to, other]);
    }
    let records = laid(chance, records);
    network(events as usize, &records)
}

/// Constraints of an event with itself.
fn loops(chance: &mut Chance) -> Network {
    let Network { events, mut words } = if chance.one_in(2) { tight(chance) } else { small(chance) };
    for _ in 0..1 + chance.below(3) {
        let event = chance.below(events as usize) as i64;
        let most = chance.of(&[0, 0, 1, 7, LIMITS.most, -1, LIMITS.least]);
        let at = RECORD * chance.below(words.len() / RECORD + 1);
        words.splice(at..at, [event, event, most]);
    }
    Network { events, words }
}

/// As large as networks may be: hidden times keep all, or one constraint is tightened.
fn dense(chance: &mut Chance) -> Network {
    let events = LIMITS.events as usize;
    let hidden = hidden_times(chance, events, LIMITS.most - 1);
    let mut records = exact_ring(chance, &hidden, events);
    records[0][2] -= chance.of(&[0, 1]);
    records.extend(kept_by(chance, &hidden, LIMITS.constraints - events, LIMITS.most));
    let records = laid(chance, records);
    network(events, &records)
}

/// A network with something at a limit, or just past it.
fn at_a_limit(chance: &mut Chance) -> Network {
    let mut made = if chance.one_in(3) { tight(chance) } else { small(chance) };
    match chance.below(8) {
        0 => made.events = chance.of(&[127, 128, 129]),
        1 => {
            let count = LIMITS.constraints - chance.below(3);
            made.words = (0..count).flat_map(|_| [0, 0, chance.of(&[0, 1, 9])]).collect();
            made.words.extend(vec![0; chance.of(&[0, 1, 2, 3, 4, 6])]);
        }
        2 => {
            made.events = 128;
            made.words.extend([chance.of(&[126, 127, 128]), chance.of(&[126, 127, 128]), between(chance, -5, 5)]);
        }
        _ => {
            let event = chance.below(made.events as usize) as i64;
            let other = chance.below(made.events as usize) as i64;
            let edge = chance.of(&[LIMITS.most, LIMITS.least, LIMITS.most, LIMITS.least, i64::MIN + 1, i64::MAX - 1]);
            made.words.extend([event, other, edge + between(chance, -1, 1)]);
        }
    }
    made
}

/// Numbers that stand nowhere in a network, or seldom.
pub fn extreme(chance: &mut Chance) -> i64 {
    match chance.below(4) {
        0 => chance.of(&[i64::MIN, i64::MIN + 1, i64::MAX, i64::MAX - 1]),
        1 => chance.of(&[1 << 8, 1 << 16, 1 << 31, 1 << 32, 1 << 33, -1 << 31, -1 << 32, i64::from(u32::MAX)]),
        2 => chance.of(&[-1, -2, 127, 128, 129, LIMITS.most + 1, LIMITS.least - 1, 2 * LIMITS.most]),
        _ => chance.next() as i64,
    }
}

fn hostile(chance: &mut Chance) -> Network {
    let mut made = [small, small, random, tightened][chance.below(4)](chance);
    for _ in 0..1 + chance.below(2) {
        match chance.below(12) {
            0 => made = Network { events: chance.of(&[0, 0, 1, 128, 129]), words: Vec::new() },
            1 => made.events = chance.of(&[129, 130, 256, 1 << 32, (1 << 32) + 1, 1 << 63, u64::MAX]),
            2 => made.events -= 1,
            3 | 4 => made.words.truncate(made.words.len().saturating_sub(1 + chance.below(2))),
            5 => {
                let count = chance.of(&[6_142, 6_144, 6_145, 6_146, 6_147, 6_148, 9_000]);
                made.words = (0..count).map(|_| 0).collect();
                if chance.one_in(2) {
                    made.words[chance.below(count)] = extreme(chance);
                }
            }
            6 => made.words = (0..chance.below(30)).map(|_| extreme(chance)).collect(),
            7 if !made.words.is_empty() => {
                let at = chance.below(made.words.len());
                made.words[at] = made.words[at].wrapping_add(chance.of(&[1 << 8, 1 << 16, 1 << 32, -1 << 32, 1 << 63]));
            }
            8 if !made.words.is_empty() => {
                let at = chance.below(made.words.len());
                made.words[at] = made.events as i64;
            }
            _ if !made.words.is_empty() => {
                let at = chance.below(made.words.len());
                made.words[at] = extreme(chance);
            }
            _ => made.words.push(extreme(chance)),
        }
        if made.events == 0 {
            break;
        }
    }
    made
}
