//! Calls on networks: for each network the solver, two tests of times and two or three tests of chains.

use crate::chance::Chance;
use crate::network::{answer, constraints, Answer, Call, Constraint, Kind, Network, CHAIN, RIGHT, TIMES};
use crate::network_drafts::{between, example, extreme, shuffle, FAMILIES};
use std::sync::Arc;

/// The networks of a batch.
pub const BATCH: usize = 2 * FAMILIES.len();
/// A test of a chain is given no more words than this.
const LONGEST: usize = 300;

/// A call, and what the plain solver answers.
pub struct Case {
    pub call: Call,
    pub expected: Answer,
}

impl Case {
    fn new(call: Call) -> Case {
        let expected = answer(&RIGHT, &call);
        Case { call, expected }
    }
}

/// The calls of one batch of a run. A call of the solver begins those of each network.
pub fn batch(seed: u64, number: u64) -> Vec<Case> {
    let mut chance = Chance::new(seed, number);
    let mut made: Vec<Network> = (0..BATCH).map(|at| FAMILIES[at % FAMILIES.len()](&mut chance)).collect();
    made[0] = example(between(&mut chance, -7, -6));
    made.into_iter().flat_map(|network| cases(&mut chance, Arc::new(network))).collect()
}

fn cases(chance: &mut Chance, network: Arc<Network>) -> Vec<Case> {
    let lent: Vec<u32> = (0..room(chance, network.events)).map(|_| any_word(chance)).collect();
    let solve = Case::new(Call { kind: Kind::Solve, network, times: Vec::new(), chain: lent });
    let network = &solve.call.network;
    // The tests are given what the solver finds, also where it was lent too few words.
    let events = network.events.min(130) as usize;
    let solved = Case::new(Call { chain: vec![0; events], ..solve.call.clone() }).expected;
    let whole = if solved.result == TIMES || solved.result == CHAIN { constraints(network) } else { Vec::new() };

    let times = (0..2).map(|_| times(chance, events, &solved, &whole));
    let mut calls: Vec<Call> =
        times.map(|times| Call { kind: Kind::Times, network: network.clone(), times, chain: Vec::new() }).collect();
    for _ in 0..2 + chance.below(2) {
        let chain = chain(chance, &solved, &whole);
        calls.push(Call { kind: Kind::Chain, network: network.clone(), times: Vec::new(), chain });
    }
    std::iter::once(solve).chain(calls.into_iter().map(Case::new)).collect()
}

/// How many words the solver is lent: mostly as many as there are events, or a few more.
fn room(chance: &mut Chance, events: u64) -> usize {
    let exact = events.min(130) as usize;
    match chance.below(16) {
        0 => exact.saturating_sub(1),
        1 => chance.below(exact + 1),
        2..=4 => exact + 1 + chance.below(4),
        5 => exact + 128,
        _ => exact,
    }
}

fn any_word(chance: &mut Chance) -> u32 {
    chance.of(&[0xA5A5_A5A5, 0, 1, u32::MAX, 7]) ^ chance.word() % 8
}

// ---- Times to be tested

fn times(chance: &mut Chance, events: usize, solved: &Answer, whole: &[Constraint]) -> Vec<i64> {
    let mut times = match chance.below(8) {
        0 => (0..events).map(|_| extreme(chance)).collect(),
        1 => (0..events).map(|_| chance.of(&[i64::MIN, i64::MIN, i64::MAX, i64::MAX, 0])).collect(),
        2 => (0..events).map(|_| between(chance, -3, 3)).collect(),
        _ if solved.result == TIMES => solved.times[..events.min(solved.times.len())].to_vec(),
        3 => vec![0; events],
        _ => nearly(events, whole),
    };
    if chance.one_in(3) {
        shift(chance, &mut times);
    }
    if chance.one_in(3) && !times.is_empty() {
        let at = chance.below(times.len());
        times[at] = match chance.below(5) {
            0 => extreme(chance),
            1 => chance.of(&[i64::MIN, i64::MAX]),
            2 => times[at].wrapping_add(chance.of(&[1 << 32, -1 << 32, 1 << 33])),
            _ => times[at].wrapping_add(chance.of(&[1, -1])),
        };
    }
    match chance.below(8) {
        0 => times.truncate(chance.below(times.len() + 1)),
        1 => {
            times.pop();
        }
        2 => times.extend((0..chance.of(&[1, 1, 3, 130])).map(|_| extreme(chance)).collect::<Vec<_>>()),
        _ => {}
    }
    times
}

/// Times that keep most constraints of a network, also of one with a chain.
fn nearly(events: usize, whole: &[Constraint]) -> Vec<i64> {
    let mut times = vec![0; events];
    for _ in 0..3 {
        for constraint in whole {
            times[constraint.to] = times[constraint.to].min(times[constraint.from] + constraint.most);
        }
    }
    times
}

/// Moves all times by the same, often as far as numbers of 64 bits go.
fn shift(chance: &mut Chance, times: &mut [i64]) {
    let (least, most) = (times.iter().min().copied().unwrap_or(0), times.iter().max().copied().unwrap_or(0));
    let by = match chance.below(4) {
        0 => i64::MAX.saturating_sub(most),
        1 => i64::MIN.saturating_sub(least),
        2 => between(chance, -5, 5),
        _ => chance.of(&[1 << 53, 1 << 62, -1 << 62, 3_000_000_000]),
    };
    for time in times {
        *time = time.wrapping_add(by);
    }
}

// ---- Chains to be tested

fn chain(chance: &mut Chance, solved: &Answer, whole: &[Constraint]) -> Vec<u32> {
    let mut chain = match chance.below(6) {
        0 => walk(chance, whole, false),
        1..=3 if solved.result == CHAIN => solved.chain[..solved.number as usize].to_vec(),
        _ => walk(chance, whole, true),
    };
    for _ in 0..chance.of(&[0, 0, 1, 1, 1, 2]) {
        bend(chance, &mut chain, whole.len());
    }
    chain.truncate(LONGEST);
    chain
}

/// Goes from constraint to constraint. A simple walk gives the closed chain, once an event comes back. Another one ends where
/// its first event comes back, whichever came twice before, or somewhere.
fn walk(chance: &mut Chance, whole: &[Constraint], simple: bool) -> Vec<u32> {
    let mut gone: Vec<usize> = Vec::new();
    if whole.is_empty() {
        return Vec::new();
    }
    let mut at = chance.below(whole.len());
    while gone.len() < LONGEST {
        gone.push(at);
        let event = whole[at].to;
        let from = gone.iter().position(|&earlier| whole[earlier].from == event);
        if let Some(from) = from.filter(|&from| simple || from == 0) {
            return gone[from..].iter().map(|&number| number as u32).collect();
        }
        let next: Vec<usize> = (0..whole.len()).filter(|&next| whole[next].from == event).collect();
        if next.is_empty() || !simple && chance.one_in(40) {
            break;
        }
        at = chance.of(&next);
    }
    gone.iter().map(|&number| number as u32).collect()
}

fn bend(chance: &mut Chance, chain: &mut Vec<u32>, count: usize) {
    if chain.is_empty() {
        chain.extend((0..chance.below(3)).map(|_| chance.below(count + 1) as u32).collect::<Vec<_>>());
        return;
    }
    let at = chance.below(chain.len());
    match chance.below(11) {
        0 | 1 => chain.rotate_left(at),
        2 => chain.reverse(),
        3 => chain.extend(chain.clone()),
        4 => {
            chain.pop();
        }
        5 => {
            chain.remove(0);
        }
        6 => {
            chain[at] = chance.of(&[count as u32, count as u32 + 1, u32::MAX, 1 << 31, chain[at].wrapping_add(1 << 16)])
        }
        7 => chain[at] = chance.below(count.max(1)) as u32,
        8 => shuffle(chance, chain),
        9 => chain.clear(),
        _ => chain.insert(at, chain[at]),
    }
}
