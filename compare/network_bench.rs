//! The proved solver of networks beside a plain one, both in this process, on the same networks of the largest size.
//! Usage: network-bench ROUNDS

// Of the plain solver with its tests, the benchmark uses the whole answer alone.
#![allow(dead_code)]

mod chance;
mod clock;
mod network;
mod network_quick;

use chance::Chance;
use clock::{median, print_times, time};
use network::{answer, is_right, Call, Kind, Network, ALL_TIMES, CHAIN, LIMITS, RIGHT, TIMES};
use network_quick::quick;
use std::sync::Arc;

const EVENTS: usize = LIMITS.events as usize;
/// Each step of a line goes down by this.
const STEP: i64 = 1_000_000;

/// What a call for C gives.
#[repr(C)]
#[derive(Clone, Copy)]
pub struct Answer {
    pub result: u32,
    pub number: u32,
    pub times: [i64; ALL_TIMES],
}

extern "C" {
    fn conepalhui_network(
        events: usize,
        constraints: *const i64,
        words: usize,
        chain: *mut u32,
        chain_len: usize,
    ) -> Answer;
}

type Solve = fn(usize, &[i64], &mut [u32]) -> Answer;

fn proved(events: usize, words: &[i64], chain: &mut [u32]) -> Answer {
    // Each pointer comes from a slice together with its length.
    unsafe { conepalhui_network(events, words.as_ptr(), words.len(), chain.as_mut_ptr(), chain.len()) }
}

/// Fills up with constraints that are never broken: no two times differ by so much.
fn filled_up(chance: &mut Chance, records: &[[i64; 3]]) -> Vec<i64> {
    let mut places: Vec<Option<[i64; 3]>> = vec![None; LIMITS.constraints];
    for (at, &record) in records.iter().enumerate() {
        places[at * LIMITS.constraints / records.len()] = Some(record);
    }
    let mut loose = || [chance.below(EVENTS) as i64, chance.below(EVENTS) as i64, LIMITS.most];
    places.into_iter().flat_map(|place| place.unwrap_or_else(&mut loose)).collect()
}

/// From each event to the next one, the last pair first: each round settles one more event.
fn line_backwards() -> Vec<[i64; 3]> {
    (1..EVENTS as i64).rev().map(|to| [to - 1, to, -STEP]).collect()
}

/// The line, closed to a chain that sums to -1. Only when all events of the line are settled, its first one is lowered.
fn closed_line() -> Vec<[i64; 3]> {
    let last = EVENTS as i64 - 1;
    let mut records = line_backwards();
    records.push([last, 0, last * STEP - 1]);
    records
}

/// Constraints between any two events, which hidden times keep.
fn kept_by_hidden_times(chance: &mut Chance) -> Vec<i64> {
    let hidden: Vec<i64> = (0..EVENTS).map(|_| -(chance.below(1_000_000) as i64)).collect();
    let record = |chance: &mut Chance| {
        let (from, to) = (chance.below(EVENTS), chance.below(EVENTS));
        [from as i64, to as i64, hidden[to] - hidden[from] + chance.below(1_000) as i64]
    };
    (0..LIMITS.constraints).flat_map(|_| record(chance)).collect()
}

/// Both sides have to give the answer of the independent solver, whose chain may be another one.
fn judge(solve: Solve, words: &[i64], expected: u32) {
    let network = Arc::new(Network { events: LIMITS.events, words: words.to_vec() });
    let call = Call { kind: Kind::Solve, network, times: Vec::new(), chain: vec![0; EVENTS] };
    let mut chain = call.chain.clone();
    let Answer { result, number, times } = solve(EVENTS, words, &mut chain);
    assert_eq!(result, expected, "the networks of the benchmark give other results");
    let given = network::Answer { result, number, times, chain };
    assert!(is_right(&call, &answer(&RIGHT, &call), &given), "an answer is wrong");
}

fn bench(what: &str, words: &[i64], expected: u32, calls: u32, rounds: u32) {
    let (mut times, mut chain) = ([Vec::new(), Vec::new()], [0; EVENTS]);
    for _ in 0..rounds {
        for (solve, times) in [proved as Solve, quick].iter().zip(&mut times) {
            times.push(time(calls, || {
                let result = solve(EVENTS, words, &mut chain).result;
                assert_eq!(result, expected, "the networks of the benchmark give other results");
            }));
            judge(*solve, words, expected);
        }
    }
    let [ours, theirs] = times.map(median);
    print_times(what, ours, &[("plain", theirs)]);
}

fn main() {
    let rounds = std::env::args().nth(1).and_then(|text| text.parse().ok()).expect("usage: network-bench ROUNDS");
    let mut chance = Chance::new(1, 0);
    println!("networks: {} events, {} constraints", EVENTS, LIMITS.constraints);
    bench("times after all rounds", &filled_up(&mut chance, &line_backwards()), TIMES, 1, rounds);
    bench("a chain after all rounds", &filled_up(&mut chance, &closed_line()), CHAIN, 1, rounds);
    bench("times after few rounds", &kept_by_hidden_times(&mut chance), TIMES, 10, rounds);
}
