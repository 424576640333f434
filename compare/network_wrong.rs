//! Solvers and tests of networks that are wrong on purpose, each in one thing. The comparison has to catch every one. A wrong
//! chain is one that the right test refuses, since a right one may differ.

use crate::network::{
    self, answer, constraints, count, give, in_range, is_chain, is_event, keeps, no_event_twice, out_of_range, refuse,
    solve, Answer, Call, Constraint, Kind, Network, Refusal, Room, Solution, Solver, ABOVE_LIMIT, ALL_TIMES, CHAIN,
    LIMITS, NO_ROOM, OUT_OF_RANGE, RECORD, RIGHT, TIMES,
};
use std::sync::Arc;

pub struct Wrong {
    pub name: &'static str,
    pub solver: Solver,
}

/// The right solver, bent in one thing.
fn wrong(name: &'static str, bend: impl Fn(&mut Solver)) -> Wrong {
    let mut solver = RIGHT;
    bend(&mut solver);
    Wrong { name, solver }
}

pub fn all() -> Vec<Wrong> {
    let groups =
        [limits(), ranges(), orders(), rooms(), times(), chains(), answers(), tests_of_times(), tests_of_chains()];
    groups.into_iter().flatten().collect()
}

// ---- What is refused

fn limits() -> Vec<Wrong> {
    vec![
        wrong("the most events one too low", |s| s.limits.events -= 1),
        wrong("the most events one too high", |s| s.limits.events += 1),
        wrong("the most constraints one too low", |s| s.limits.constraints -= 1),
        wrong("the most constraints one too high", |s| s.limits.constraints += 1),
        wrong("10^9 refused", |s| s.limits.most -= 1),
        wrong("10^9 + 1 taken", |s| s.limits.most += 1),
        wrong("-10^9 refused", |s| s.limits.least += 1),
        wrong("-10^9 - 1 taken", |s| s.limits.least -= 1),
        wrong("a c below 0 refused", |s| s.limits.least = 0),
        wrong("the number of events cut to 32 bits", |s| {
            s.above_limit = |s, network| {
                let cut = Network { events: network.events & u64::from(u32::MAX), words: network.words.clone() };
                network::above_limit(s, &cut)
            }
        }),
        wrong("27 for whole records alone", |s| {
            s.above_limit = |s, network| {
                let whole = network.words.len() / RECORD * RECORD;
                let whole = Network { events: network.events, words: network.words[..whole].to_vec() };
                network::above_limit(s, &whole)
            }
        }),
        wrong("27 at the number of events", |s| {
            s.above_limit = |s, network| {
                let right = network::above_limit(s, network)?;
                Some(Refusal { at: network.events as usize, ..right })
            }
        }),
        wrong("no limit of constraints", |s| s.limits.constraints = usize::MAX),
        wrong("no limit of events where no constraint has one above", |s| {
            s.above_limit = |s, network| network::above_limit(s, &Network { events: 0, ..network.clone() })
        }),
    ]
}

/// A record with its events changed before they are looked at.
fn with_events(s: &Solver, events: u64, record: &[i64], change: fn(i64) -> i64) -> bool {
    match *record {
        [from, to, most] => in_range(s, events, &[change(from), change(to), most]),
        _ => false,
    }
}

fn ranges() -> Vec<Wrong> {
    vec![
        wrong("event n taken as the first one", |s| {
            s.in_range = |s, events, record| match *record {
                [from, to, most] => in_range(s, events + 1, &[from, 0, most]) && in_range(s, events, &[0, to, most]),
                _ => false,
            }
        }),
        wrong("event n taken as the second one", |s| {
            s.in_range = |s, events, record| match *record {
                [from, to, most] => in_range(s, events, &[from, 0, most]) && in_range(s, events + 1, &[0, to, most]),
                _ => false,
            }
        }),
        wrong("any event up to 127 taken", |s| s.in_range = |s, _, record| in_range(s, LIMITS.events, record)),
        wrong("the last event refused", |s| {
            s.in_range = |s, events, record| in_range(s, events.saturating_sub(1), record)
        }),
        wrong("event numbers cut to 8 bits", |s| {
            s.in_range = |s, events, record| with_events(s, events, record, |event| event & 0xFF)
        }),
        wrong("event numbers cut to 32 bits", |s| {
            s.in_range = |s, events, record| with_events(s, events, record, |event| i64::from(event as i32))
        }),
        wrong("negative events taken", |s| {
            s.in_range = |s, events, record| with_events(s, events, record, |event| event.max(0))
        }),
        wrong("c cut to 32 bits", |s| {
            s.in_range = |s, events, record| match *record {
                [from, to, most] => in_range(s, events, &[from, to, i64::from(most as i32)]),
                _ => false,
            }
        }),
        wrong("the size of c, wrapped", |s| {
            s.in_range = |s, events, record| match *record {
                [from, to, most] => in_range(s, events, &[from, to, most.wrapping_abs().max(-1)]),
                _ => false,
            }
        }),
        wrong("an event with itself refused", |s| {
            s.in_range = |s, events, record| in_range(s, events, record) && record[0] != record[1]
        }),
        wrong("a cut last record ignored", |s| s.count = |words| words / RECORD),
        wrong("a record without its last word taken", |s| {
            s.in_range = |s, events, record| match *record {
                [from, to] => in_range(s, events, &[from, to, 0]),
                _ => in_range(s, events, record),
            }
        }),
        wrong("a cut record after all others, at their count plus one", |s| {
            s.out_of_range = |s, network| {
                let mut right = out_of_range(s, network)?;
                right.at += usize::from(right.at == network.words.len() / RECORD);
                Some(right)
            }
        }),
        wrong("a cut record at 0", |s| {
            s.out_of_range = |s, network| {
                let right = out_of_range(s, network)?;
                Some(Refusal { at: if right.at == network.words.len() / RECORD { 0 } else { right.at }, ..right })
            }
        }),
        wrong("a cut record before all others", |s| {
            s.out_of_range = |s, network| {
                let is_cut = network.words.len() % RECORD != 0;
                let last = Refusal { number: OUT_OF_RANGE, at: network.words.len() / RECORD };
                Some(last).filter(|_| is_cut).or_else(|| out_of_range(s, network))
            }
        }),
        wrong("the highest constraint out of range", |s| {
            s.out_of_range = |s, network| {
                let records = network.words.chunks(RECORD).enumerate();
                let bad = records.filter(|(_, record)| !in_range(s, network.events, record));
                bad.last().map(|(at, _)| Refusal { number: OUT_OF_RANGE, at })
            }
        }),
        wrong("events out of range before c", |s| {
            s.out_of_range = |s, network| {
                let fits =
                    |record: &[i64]| record.len() == RECORD && record[..2].iter().all(|&e| is_event(e, network.events));
                let at = network.words.chunks(RECORD).position(|record| !fits(record));
                at.map(|at| Refusal { number: OUT_OF_RANGE, at }).or_else(|| out_of_range(s, network))
            }
        }),
        wrong("16 at the word and not at the constraint", |s| {
            s.out_of_range = |s, network| {
                let right = out_of_range(s, network)?;
                Some(Refusal { at: RECORD * right.at, ..right })
            }
        }),
        wrong("16 counted from 1", |s| {
            s.out_of_range = |s, network| {
                let right = out_of_range(s, network)?;
                Some(Refusal { at: right.at + 1, ..right })
            }
        }),
    ]
}

fn orders() -> Vec<Wrong> {
    vec![
        wrong("16 before 27", |s| {
            s.refusal = |s, network, room| out_of_range(s, network).or_else(|| network::refusal(s, network, room))
        }),
        wrong("15 before 16", |s| {
            s.refusal = |s, network, room| {
                let first = (s.above_limit)(s, network).or_else(|| (s.no_room)(network, room));
                first.or_else(|| out_of_range(s, network))
            }
        }),
        wrong("15 before 27", |s| {
            s.refusal = |s, network, room| (s.no_room)(network, room).or_else(|| network::refusal(s, network, room))
        }),
        wrong("15 of a test of a chain", |s| {
            // The words lent are not known here: a test is taken for a solver that is lent none.
            s.refusal = |s, network, room| network::refusal(s, network, room.or(Some(0)))
        }),
    ]
}

/// Refusal 15 where so many words are too few.
fn too_few(room: Room, wanted: usize) -> Option<Refusal> {
    Some(Refusal { number: NO_ROOM, at: 0 }).filter(|_| room.map_or(false, |words| words < wanted))
}

fn rooms() -> Vec<Wrong> {
    vec![
        wrong("15 by constraints instead of events", |s| {
            s.no_room = |network, room| too_few(room, count(network.words.len()))
        }),
        wrong("15 where there is a word for each event and no more", |s| {
            s.no_room = |network, room| too_few(room, network.events as usize + 1)
        }),
        wrong("one word fewer than events taken", |s| {
            s.no_room = |network, room| too_few(room, (network.events as usize).saturating_sub(1))
        }),
        wrong("15 for fewer than 128 words", |s| s.no_room = |_, room| too_few(room, ALL_TIMES)),
        wrong("15 at the number of words", |s| {
            s.no_room = |network, room| {
                let right = network::no_room(network, room)?;
                Some(Refusal { at: room.unwrap_or(0), ..right })
            }
        }),
        wrong("no 15", |s| s.no_room = |_, _| None),
        wrong("15 only where a chain is given", |s| {
            s.no_room = |network, room| {
                let right = network::no_room(network, room)?;
                let solution = solve(&RIGHT, network.events as usize, &constraints(network));
                Some(right).filter(|_| matches!(solution, Solution::Chain(_)))
            }
        }),
        wrong("15 only where a chain is longer than the words", |s| {
            s.no_room = |network, room| {
                let right = network::no_room(network, room)?;
                match solve(&RIGHT, network.events as usize, &constraints(network)) {
                    Solution::Chain(chain) if chain.len() > room.unwrap_or(0) => Some(right),
                    _ => None,
                }
            }
        }),
    ]
}

// ---- Times

/// The right solver, given other constraints. A chain is of the same numbers.
fn solved_with(
    s: &Solver,
    events: usize,
    of: &[Constraint],
    change: impl Fn(usize, Constraint) -> Constraint,
) -> Solution {
    let changed: Vec<Constraint> = of.iter().enumerate().map(|(at, constraint)| change(at, *constraint)).collect();
    solve(s, events, &changed)
}

/// The right times changed, or the right chain.
fn times_changed(s: &Solver, events: usize, of: &[Constraint], change: impl Fn(&mut Vec<i64>)) -> Solution {
    let mut solution = solve(s, events, of);
    if let Solution::Times(times) = &mut solution {
        change(times);
    }
    solution
}

/// Runs from event 0 alone: what it does not reach stays at 0.
fn from_event_0(events: usize, of: &[Constraint]) -> Vec<i64> {
    let mut times: Vec<Option<i64>> = vec![None; events];
    if let Some(first) = times.first_mut() {
        *first = Some(0);
    }
    for _ in 0..events {
        for constraint in of {
            if let Some(from) = times[constraint.from] {
                let allowed = from + constraint.most;
                times[constraint.to] = Some(times[constraint.to].map_or(allowed, |time| time.min(allowed)));
            }
        }
    }
    times.into_iter().map(|time| time.unwrap_or(0)).collect()
}

fn times() -> Vec<Wrong> {
    vec![
        wrong("earliest times instead of latest", |s| {
            s.solve = |s, events, of| {
                let back = |_, one: Constraint| Constraint { from: one.to, to: one.from, ..one };
                match solved_with(s, events, of, back) {
                    Solution::Times(times) => {
                        let least = times.iter().min().copied().unwrap_or(0);
                        Solution::Times(times.into_iter().map(|time| least - time).collect())
                    }
                    Solution::Chain(_) => solve(s, events, of),
                }
            }
        }),
        wrong("all times one too low", |s| {
            s.solve = |s, events, of| times_changed(s, events, of, |times| times.iter_mut().for_each(|time| *time -= 1))
        }),
        wrong("the lowest time one too low", |s| {
            s.solve = |s, events, of| {
                times_changed(s, events, of, |times| {
                    if let Some(time) = times.iter_mut().min() {
                        *time -= 1
                    }
                })
            }
        }),
        wrong("times from event 0 on, also above zero", |s| {
            s.solve = |s, events, of| times_changed(s, events, of, |times| *times = from_event_0(events, of))
        }),
        wrong("times such that event 0 is at 0", |s| {
            s.solve = |s, events, of| {
                times_changed(s, events, of, |times| {
                    let first = times.first().copied().unwrap_or(0);
                    times.iter_mut().for_each(|time| *time -= first)
                })
            }
        }),
        wrong("times with their signs exchanged", |s| {
            s.solve =
                |s, events, of| times_changed(s, events, of, |times| times.iter_mut().for_each(|time| *time = -*time))
        }),
        wrong("times not below -10^11", |s| {
            s.solve = |s, events, of| {
                times_changed(s, events, of, |times| {
                    times.iter_mut().for_each(|time| *time = (*time).max(-100_000_000_000))
                })
            }
        }),
        wrong("a constraint read the other way round", |s| {
            s.read = |record| {
                let right = network::read(record);
                Constraint { from: right.to, to: right.from, ..right }
            }
        }),
        wrong("a constraint as 'at least'", |s| {
            s.read = |record| {
                let right = network::read(record);
                Constraint { from: right.to, to: right.from, most: -right.most }
            }
        }),
        wrong("below c instead of at most c", |s| {
            s.solve = |s, events, of| solved_with(s, events, of, |_, one| Constraint { most: one.most - 1, ..one })
        }),
        wrong("sums in 32 bits", |s| {
            s.after = |time, most| i128::from((time as i32).wrapping_add(most as i32));
        }),
        wrong("sums that stop at the ends of 32 bits", |s| {
            s.after = |time, most| i128::from((time as i32).saturating_add(most as i32));
        }),
        wrong("one round too few, and a chain by then", |s| {
            s.rounds = |events| events.saturating_sub(2);
            s.chain_behind = chain_or_row;
        }),
        wrong("ten rounds, and a chain by then", |s| {
            s.rounds = |events| events.saturating_sub(1).min(10);
            s.chain_behind = chain_or_row;
        }),
        wrong("one round too few, and times whatever comes", |s| {
            s.solve = |s, events, of| match solve(s, events, of) {
                Solution::Times(_) => {
                    let mut times = vec![0; events];
                    for _ in 0..events.saturating_sub(2) {
                        for one in of {
                            times[one.to] = times[one.to].min(times[one.from] + one.most);
                        }
                    }
                    Solution::Times(times)
                }
                chain => chain,
            }
        }),
        wrong("the last constraint left off", |s| {
            s.solve = |s, events, of| solve(s, events, &of[..of.len().saturating_sub(1)])
        }),
        wrong("constraints of an event with itself ignored", |s| {
            s.solve = |s, events, of| {
                solved_with(s, events, of, |_, one| Constraint {
                    most: if one.from == one.to { 0 } else { one.most },
                    ..one
                })
            }
        }),
        wrong("of parallel constraints the first alone", |s| {
            s.solve = |s, events, of| {
                let is_first =
                    |at: usize| !of[..at].iter().any(|other| (other.from, other.to) == (of[at].from, of[at].to));
                solved_with(s, events, of, |at, one| Constraint {
                    most: if is_first(at) { one.most } else { LIMITS.most },
                    ..one
                })
            }
        }),
        wrong("of parallel constraints the last alone", |s| {
            s.solve = |s, events, of| {
                let is_last =
                    |at: usize| !of[at + 1..].iter().any(|other| (other.from, other.to) == (of[at].from, of[at].to));
                solved_with(s, events, of, |at, one| Constraint {
                    most: if is_last(at) { one.most } else { LIMITS.most },
                    ..one
                })
            }
        }),
    ]
}

// ---- Chains

/// The right chain changed, or the right times.
fn chain_changed(s: &Solver, events: usize, of: &[Constraint], change: impl Fn(&mut Vec<usize>)) -> Solution {
    let mut solution = solve(s, events, of);
    if let Solution::Chain(chain) = &mut solution {
        change(chain);
    }
    solution
}

/// Goes back from an event until one comes twice, or one was never lowered, and gives all of that.
fn with_what_leads_there(lowered_by: &[Option<usize>], of: &[Constraint], event: usize) -> Vec<usize> {
    let (mut seen, mut at, mut chain) = (vec![false; lowered_by.len()], event, Vec::new());
    while let Some(number) = lowered_by[at].filter(|_| !seen[at]) {
        seen[at] = true;
        chain.push(number);
        at = of[number].from;
    }
    chain.reverse();
    chain
}

/// The right chain where there is one, and otherwise what leads to the event.
fn chain_or_row(lowered_by: &[Option<usize>], of: &[Constraint], event: usize) -> Vec<usize> {
    let row = with_what_leads_there(lowered_by, of, event);
    match lowered_by[of[row[0]].from] {
        Some(_) => network::chain_behind(lowered_by, of, event),
        None => row,
    }
}

fn chains() -> Vec<Wrong> {
    vec![
        wrong("a chain of zero sum given", |s| {
            s.solve = |s, events, of| {
                // No chain has as many constraints as this factor, so that only the sum and not the length decides.
                let factor = 2 * ALL_TIMES as i64;
                solved_with(s, events, of, |_, one| Constraint { most: one.most * factor - 1, ..one })
                    .or(solve(s, events, of))
            }
        }),
        wrong("a chain with what leads to it", |s| s.chain_behind = with_what_leads_there),
        wrong("the chain twice round", |s| {
            s.solve = |s, events, of| chain_changed(s, events, of, |chain| chain.extend(chain.clone()))
        }),
        wrong("the chain reversed", |s| {
            s.solve = |s, events, of| chain_changed(s, events, of, |chain| chain.reverse())
        }),
        wrong("the chain not closed", |s| {
            s.solve = |s, events, of| chain_changed(s, events, of, |chain| chain.truncate(chain.len() - 1))
        }),
        wrong("the first constraint of the chain once more at its end", |s| {
            s.solve = |s, events, of| chain_changed(s, events, of, |chain| chain.push(chain[0]))
        }),
        wrong("the chain in rising order", |s| {
            s.solve = |s, events, of| chain_changed(s, events, of, |chain| chain.sort())
        }),
        wrong("events instead of constraints in the chain", |s| {
            s.solve = |s, events, of| {
                chain_changed(s, events, of, |chain| chain.iter_mut().for_each(|number| *number = of[*number].from))
            }
        }),
        wrong("constraints of the chain counted from 1", |s| {
            s.solve =
                |s, events, of| chain_changed(s, events, of, |chain| chain.iter_mut().for_each(|number| *number += 1))
        }),
        wrong("the chain's words counted by their place", |s| {
            s.solve = |s, events, of| {
                chain_changed(s, events, of, |chain| chain.iter_mut().for_each(|number| *number *= RECORD))
            }
        }),
        wrong("in a chain the first of parallel constraints", |s| {
            s.solve = |s, events, of| {
                let first = |at: usize| of.iter().position(|one| (one.from, one.to) == (of[at].from, of[at].to));
                chain_changed(s, events, of, |chain| {
                    chain.iter_mut().for_each(|number| *number = first(*number).unwrap_or(*number))
                })
            }
        }),
        wrong("no chain of one", |s| {
            s.solve = |s, events, of| match solve(s, events, of) {
                Solution::Chain(chain) if chain.len() == 1 => Solution::Times(vec![0; events]),
                right => right,
            }
        }),
        wrong("no chain: what the last round left", |s| {
            s.solve = |s, events, of| match solve(s, events, of) {
                Solution::Chain(_) => Solution::Times(from_event_0(events, of)),
                times => times,
            }
        }),
        wrong("a chain only where its sum is below -1", |s| {
            s.solve = |s, events, of| match solve(s, events, of) {
                Solution::Chain(chain) if chain.iter().map(|&at| of[at].most).sum::<i64>() == -1 => {
                    Solution::Times(vec![0; events])
                }
                right => right,
            }
        }),
    ]
}

impl Solution {
    /// This, where it is a chain, and otherwise the other.
    fn or(self, other: Solution) -> Solution {
        match self {
            Solution::Chain(_) => self,
            Solution::Times(_) => other,
        }
    }
}

// ---- What is written

/// Lets something be written after the right answer, where it has this result.
fn after_right(
    s: &Solver,
    events: usize,
    of: &[Constraint],
    answer: &mut Answer,
    result: u32,
    then: impl Fn(&mut Answer),
) {
    give(s, events, of, answer);
    if answer.result == result {
        then(answer);
    }
}

fn answers() -> Vec<Wrong> {
    vec![
        wrong("unused times not 0", |s| {
            s.give = |s, n, of, answer| after_right(s, n, of, answer, TIMES, |answer| answer.times[n..].fill(-1))
        }),
        wrong("the last of 128 times is never written", |s| {
            s.give = |s, n, of, answer| after_right(s, n, of, answer, TIMES, |answer| answer.times[ALL_TIMES - 1] = 0)
        }),
        wrong("the number of events with times", |s| {
            s.give = |s, n, of, answer| after_right(s, n, of, answer, TIMES, |answer| answer.number = n as u32)
        }),
        wrong("chain words written although times exist", |s| {
            s.give = |s, n, of, answer| after_right(s, n, of, answer, TIMES, |answer| answer.chain[..n].fill(0))
        }),
        wrong("the last lent word written although times exist", |s| {
            s.give = |s, n, of, answer| {
                after_right(s, n, of, answer, TIMES, |answer| {
                    if let Some(word) = answer.chain.last_mut() {
                        *word = 0
                    }
                })
            }
        }),
        wrong("a word past the chain written", |s| {
            s.give = |s, n, of, answer| {
                after_right(s, n, of, answer, CHAIN, |answer| {
                    if let Some(word) = answer.chain.get_mut(answer.number as usize) {
                        *word = u32::MAX
                    }
                })
            }
        }),
        wrong("all words past the chain set to 0", |s| {
            s.give = |s, n, of, answer| {
                after_right(s, n, of, answer, CHAIN, |answer| answer.chain[answer.number as usize..].fill(0))
            }
        }),
        wrong("times left in the chain case", |s| {
            s.give = |s, n, of, answer| {
                after_right(s, n, of, answer, CHAIN, |answer| {
                    let round = of.iter().filter(|one| one.most < 0);
                    round.for_each(|one| answer.times[one.to] = answer.times[one.to].min(one.most))
                })
            }
        }),
        wrong("the chain's length one too low", |s| {
            s.give = |s, n, of, answer| after_right(s, n, of, answer, CHAIN, |answer| answer.number -= 1)
        }),
        wrong("the chain's length is that of the lent words", |s| {
            s.give = |s, n, of, answer| {
                after_right(s, n, of, answer, CHAIN, |answer| answer.number = answer.chain.len() as u32)
            }
        }),
        wrong("the chain at the end of the lent words", |s| {
            s.give = |s, n, of, answer| {
                after_right(s, n, of, answer, CHAIN, |answer| {
                    let past = answer.chain.len() - answer.number as usize;
                    answer.chain.rotate_right(past)
                })
            }
        }),
        wrong("a chain with result 0", |s| {
            s.give = |s, n, of, answer| after_right(s, n, of, answer, CHAIN, |answer| answer.result = TIMES)
        }),
        wrong("a refusal writes the lent words", |s| {
            s.refuse = |refusal, answer| {
                refuse(refusal, answer);
                answer.chain.fill(0);
            }
        }),
        wrong("a refusal has times", |s| {
            s.refuse = |refusal, answer| {
                refuse(refusal, answer);
                answer.times[0] = -1;
            }
        }),
        wrong("27 told as 16", |s| {
            s.refuse = |refusal, answer| {
                let number = if refusal.number == ABOVE_LIMIT { OUT_OF_RANGE } else { refusal.number };
                refuse(Refusal { number, ..refusal }, answer)
            }
        }),
        wrong("a refusal told without 100", |s| {
            s.refuse = |refusal, answer| {
                refuse(refusal, answer);
                answer.result = refusal.number;
            }
        }),
    ]
}

// ---- Tests of times

/// Whether times are kept, where a missing one is read as something.
fn kept_with(s: &Solver, constraint: &Constraint, times: &[i64], missing: i64) -> bool {
    let time = |event: usize| times.get(event).copied().unwrap_or(missing);
    (s.difference_kept)(time(constraint.from), time(constraint.to), constraint.most)
}

fn tests_of_times() -> Vec<Wrong> {
    vec![
        wrong("a difference of times that wraps", |s| {
            s.difference_kept = |from, to, most| to.wrapping_sub(from) <= most
        }),
        wrong("a sum of time and c that wraps", |s| s.difference_kept = |from, to, most| to <= from.wrapping_add(most)),
        wrong("a sum that stops at the ends of 64 bits", |s| {
            s.difference_kept = |from, to, most| to <= from.saturating_add(most)
        }),
        wrong("a difference that does not fit is broken", |s| {
            s.difference_kept = |from, to, most| to.checked_sub(from).map_or(false, |difference| difference <= most)
        }),
        wrong("a difference that does not fit is kept", |s| {
            s.difference_kept = |from, to, most| to.checked_sub(from).map_or(true, |difference| difference <= most)
        }),
        wrong("a difference in 32 bits", |s| {
            s.difference_kept = |from, to, most| i64::from((to as i32).wrapping_sub(from as i32)) <= most
        }),
        wrong("a difference of floating numbers", |s| {
            s.difference_kept = |from, to, most| to as f64 - from as f64 <= most as f64
        }),
        wrong("below c instead of at most c, in the test", |s| {
            s.difference_kept = |from, to, most| network::difference_kept(from, to, most - 1)
        }),
        wrong("times above zero not kept", |s| {
            s.difference_kept = |from, to, most| from <= 0 && to <= 0 && network::difference_kept(from, to, most)
        }),
        wrong("the size of the difference", |s| {
            s.difference_kept = |from, to, most| (i128::from(to) - i128::from(from)).abs() <= i128::from(most)
        }),
        wrong("the difference the other way round", |s| {
            s.difference_kept = |from, to, most| network::difference_kept(to, from, most)
        }),
        wrong("a missing time read as 0", |s| s.keeps = |s, one, times| kept_with(s, one, times, 0)),
        wrong("a missing time read as the lowest", |s| s.keeps = |s, one, times| kept_with(s, one, times, i64::MIN)),
        wrong("a constraint on a missing time kept", |s| {
            s.keeps = |s, one, times| one.from.max(one.to) >= times.len() || keeps(s, one, times)
        }),
        wrong("a constraint of an event without a time with itself kept", |s| {
            s.keeps = |s, one, times| one.from == one.to && one.most >= 0 || keeps(s, one, times)
        }),
        wrong("only a missing second time seen", |s| {
            s.keeps = |s, one, times| one.to < times.len() && kept_with(s, one, times, 0)
        }),
        wrong("a short list broken at 0", |s| {
            s.broken = |s, n, of, times| if times.len() < n { Some(0) } else { network::broken(s, n, of, times) }
        }),
        wrong("a long list broken at 0", |s| {
            s.broken = |s, n, of, times| if times.len() > n { Some(0) } else { network::broken(s, n, of, times) }
        }),
        wrong("the last broken constraint", |s| {
            s.broken = |s, _, of, times| of.iter().rposition(|one| !(s.keeps)(s, one, times))
        }),
        wrong("the first broken constraint counted from 1", |s| {
            s.broken = |s, n, of, times| network::broken(s, n, of, times).map(|at| at + 1)
        }),
        wrong("the event of the first broken constraint", |s| {
            s.broken = |s, n, of, times| network::broken(s, n, of, times).map(|at| of[at].to)
        }),
        wrong("the most broken constraint", |s| {
            s.broken = |s, n, of, times| {
                let first = network::broken(s, n, of, times)?;
                let excess = |one: &Constraint| match (times.get(one.from), times.get(one.to)) {
                    (Some(&from), Some(&to)) => i128::from(to) - i128::from(from) - i128::from(one.most),
                    _ => i128::MAX,
                };
                let most = of.iter().map(excess).max()?;
                of.iter().position(|one| excess(one) == most).or(Some(first))
            }
        }),
        wrong("only the latest times kept", |s| {
            s.broken = |s, n, of, times| match solve(s, n, of) {
                Solution::Times(latest) if times.len() < n || times[..n] != latest[..] => Some(0),
                _ => network::broken(s, n, of, times),
            }
        }),
        wrong("the last constraint not tested", |s| {
            s.broken = |s, n, of, times| network::broken(s, n, &of[..of.len().saturating_sub(1)], times)
        }),
    ]
}

// ---- Tests of chains

fn named(of: &[Constraint], chain: &[u32]) -> Option<Vec<Constraint>> {
    chain.iter().map(|&number| of.get(number as usize).copied()).collect()
}

fn tests_of_chains() -> Vec<Wrong> {
    vec![
        wrong("a chain of zero sum taken", |s| {
            s.is_negative = |named| named.iter().map(|one| one.most).sum::<i64>() <= 0
        }),
        wrong("any sum taken", |s| s.is_negative = |_| true),
        wrong("a sum in 32 bits", |s| {
            s.is_negative = |named| named.iter().fold(0i32, |sum, one| sum.wrapping_add(one.most as i32)) < 0
        }),
        wrong("a sum without the last", |s| {
            s.is_negative =
                |named| network::is_negative(&named[..named.len() - 1]) || named.len() == 1 && named[0].most < 0
        }),
        wrong("a chain that falls below zero once", |s| {
            s.is_negative = |named| (1..=named.len()).any(|length| network::is_negative(&named[..length]))
        }),
        wrong("a chain that begins with a number below 0", |s| {
            s.is_negative = |named| network::is_negative(named) && named[0].most < 0
        }),
        wrong("an empty chain taken", |s| s.is_chain = |s, of, chain| chain.is_empty() || is_chain(s, of, chain)),
        wrong("a chain of one refused", |s| s.is_chain = |s, of, chain| chain.len() != 1 && is_chain(s, of, chain)),
        wrong("a chain of 128 refused", |s| s.is_chain = |s, of, chain| chain.len() < 128 && is_chain(s, of, chain)),
        wrong("an event twice taken", |s| s.no_event_twice = |_| true),
        wrong("only a constraint twice refused", |s| {
            s.no_event_twice = |named| (0..named.len()).all(|at| !named[..at].contains(&named[at]))
        }),
        wrong("only the first event looked for once more", |s| {
            s.no_event_twice = |named| named[1..].iter().all(|one| one.from != named[0].from)
        }),
        wrong("only neighbours compared for an event twice", |s| {
            s.no_event_twice = |named| named.windows(2).all(|pair| pair[0].from != pair[1].from)
        }),
        wrong("the last event not looked for", |s| {
            s.no_event_twice = |named| no_event_twice(&named[..named.len() - 1])
        }),
        wrong("an event twice where a constraint is one of an event with itself", |s| {
            s.no_event_twice = |named| no_event_twice(named) && named.iter().all(|one| one.from != one.to)
        }),
        wrong("a chain not closed taken", |s| {
            s.links = |named| named.windows(2).all(|pair| pair[0].to == pair[1].from)
        }),
        wrong("only first and last linked", |s| s.links = |named| named[named.len() - 1].to == named[0].from),
        wrong("the first link not looked at", |s| {
            s.links = |named| {
                let next = named.iter().cycle().skip(1);
                named.iter().zip(next).skip(1).all(|(one, next)| one.to == next.from)
            }
        }),
        wrong("a chain in any order taken", |s| {
            s.links = |named| named.iter().all(|one| named.iter().filter(|other| other.from == one.to).count() == 1)
        }),
        wrong("the reversed chain wanted", |s| {
            s.links = |named| {
                let next = named.iter().cycle().skip(1);
                named.iter().zip(next).all(|(one, next)| one.from == next.to)
            }
        }),
        wrong("a chain either way round taken", |s| {
            s.links = |named| {
                let reversed: Vec<Constraint> = named.iter().rev().copied().collect();
                network::links(named) || network::links(&reversed)
            }
        }),
        wrong("numbers that are too large left out", |s| {
            s.is_chain = |s, of, chain| {
                let known: Vec<u32> = chain.iter().copied().filter(|&number| (number as usize) < of.len()).collect();
                is_chain(s, of, &known)
            }
        }),
        wrong("numbers cut to 16 bits", |s| {
            s.is_chain = |s, of, chain| is_chain(s, of, &chain.iter().map(|number| number & 0xFFFF).collect::<Vec<_>>())
        }),
        wrong("numbers that are too large read from 0 on", |s| {
            s.is_chain = |s, of, chain| {
                let count = of.len().max(1) as u32;
                is_chain(s, of, &chain.iter().map(|number| number % count).collect::<Vec<_>>())
            }
        }),
        wrong("the number of constraints taken for the last one", |s| {
            s.is_chain = |s, of, chain| {
                let last = |&number: &u32| if number as usize == of.len() { number.wrapping_sub(1) } else { number };
                is_chain(s, of, &chain.iter().map(last).collect::<Vec<_>>())
            }
        }),
        wrong("the least of parallel constraints in a sum", |s| {
            s.is_chain = |s, of, chain| {
                let least =
                    |one: &Constraint| of.iter().filter(|o| (o.from, o.to) == (one.from, one.to)).map(|o| o.most).min();
                named(of, chain).map_or(false, |named| {
                    let eased: Vec<Constraint> =
                        named.iter().map(|one| Constraint { most: least(one).unwrap_or(one.most), ..*one }).collect();
                    is_chain(s, &eased, &(0..eased.len() as u32).collect::<Vec<_>>())
                })
            }
        }),
        wrong("only the chain of our own solver taken", |s| {
            s.is_chain = |s, of, chain| is_chain(s, of, chain) && own_chain(of).map_or(false, |own| own == chain)
        }),
    ]
}

/// The chain that the right solver gives for these constraints.
fn own_chain(of: &[Constraint]) -> Option<Vec<u32>> {
    let words = of.iter().flat_map(|one| [one.from as i64, one.to as i64, one.most]).collect();
    let network = Arc::new(Network { events: LIMITS.events, words });
    let found = answer(&RIGHT, &Call { kind: Kind::Solve, network, times: Vec::new(), chain: vec![0; ALL_TIMES] });
    Some(found.chain[..found.number as usize].to_vec()).filter(|_| found.result == CHAIN)
}
