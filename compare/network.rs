//! Simple temporal networks, plainly: the solver, the test of times, the test of a chain, and what each refuses. Written from
//! the request alone. A `Solver` is a table of decisions, in which a wrong one replaces some; `RIGHT` has them as they are right.

use std::sync::Arc;

pub const TIMES: u32 = 0;
pub const CHAIN: u32 = 1;
pub const BROKEN: u32 = 2;
pub const NO_CHAIN: u32 = 3;
/// A refusal is told as its number plus this.
pub const REFUSED: u32 = 100;
pub const NO_ROOM: u32 = 15;
pub const OUT_OF_RANGE: u32 = 16;
pub const ABOVE_LIMIT: u32 = 27;

/// An answer has so many times, whatever the network.
pub const ALL_TIMES: usize = 128;
/// The words of a constraint: from, to, most.
pub const RECORD: usize = 3;

#[derive(Clone, Copy)]
pub struct Limits {
    pub events: u64,
    pub constraints: usize,
    pub least: i64,
    pub most: i64,
}

pub const LIMITS: Limits = Limits { events: 128, constraints: 2_048, least: -1_000_000_000, most: 1_000_000_000 };

/// A network as it is given: any number of events, and any words.
#[derive(Clone, Debug)]
pub struct Network {
    pub events: u64,
    pub words: Vec<i64>,
}

/// The time of `to` minus the time of `from` is at most `most`.
#[derive(Clone, Copy, Debug, PartialEq, Eq)]
pub struct Constraint {
    pub from: usize,
    pub to: usize,
    pub most: i64,
}

/// The calls, by the number that the driver has for each.
#[derive(Clone, Copy, Debug, PartialEq, Eq, PartialOrd, Ord)]
pub enum Kind {
    Solve,
    Times,
    Chain,
}

/// A call with all that it is lent. The solver is lent the chain, and no times.
#[derive(Clone, Debug)]
pub struct Call {
    pub kind: Kind,
    pub network: Arc<Network>,
    pub times: Vec<i64>,
    pub chain: Vec<u32>,
}

/// What a call gives. Of a test, the times are 0; the chain is what is in the words lent for it afterwards.
#[derive(Clone, Debug, PartialEq, Eq)]
pub struct Answer {
    pub result: u32,
    pub number: u32,
    pub times: [i64; ALL_TIMES],
    pub chain: Vec<u32>,
}

#[derive(Clone, Copy)]
pub struct Refusal {
    pub number: u32,
    pub at: usize,
}

pub enum Solution {
    Times(Vec<i64>),
    /// Numbers of constraints.
    Chain(Vec<usize>),
}

/// The words for a chain that the solver has. The tests need none.
pub type Room = Option<usize>;

#[derive(Clone, Copy)]
pub struct Solver {
    pub limits: Limits,
    // What is refused.
    pub refusal: fn(&Solver, &Network, Room) -> Option<Refusal>,
    pub above_limit: fn(&Solver, &Network) -> Option<Refusal>,
    pub out_of_range: fn(&Solver, &Network) -> Option<Refusal>,
    pub no_room: fn(&Network, Room) -> Option<Refusal>,
    pub count: fn(usize) -> usize,
    pub in_range: fn(&Solver, u64, &[i64]) -> bool,
    pub refuse: fn(Refusal, &mut Answer),
    // The solver.
    pub read: fn(&[i64]) -> Constraint,
    pub rounds: fn(usize) -> usize,
    pub after: fn(i128, i64) -> i128,
    pub solve: fn(&Solver, usize, &[Constraint]) -> Solution,
    pub chain_behind: fn(&[Option<usize>], &[Constraint], usize) -> Vec<usize>,
    pub give: fn(&Solver, usize, &[Constraint], &mut Answer),
    // The tests.
    pub broken: fn(&Solver, usize, &[Constraint], &[i64]) -> Option<usize>,
    pub keeps: fn(&Solver, &Constraint, &[i64]) -> bool,
    pub difference_kept: fn(i64, i64, i64) -> bool,
    pub is_chain: fn(&Solver, &[Constraint], &[u32]) -> bool,
    pub links: fn(&[Constraint]) -> bool,
    pub no_event_twice: fn(&[Constraint]) -> bool,
    pub is_negative: fn(&[Constraint]) -> bool,
}

pub const RIGHT: Solver = Solver {
    limits: LIMITS,
    refusal,
    above_limit,
    out_of_range,
    no_room,
    count,
    in_range,
    refuse,
    read,
    rounds,
    after,
    solve,
    chain_behind,
    give,
    broken,
    keeps,
    difference_kept,
    is_chain,
    links,
    no_event_twice,
    is_negative,
};

/// What a solver answers.
pub fn answer(s: &Solver, call: &Call) -> Answer {
    let mut answer = Answer { result: TIMES, number: 0, times: [0; ALL_TIMES], chain: call.chain.clone() };
    let room = if call.kind == Kind::Solve { Some(call.chain.len()) } else { None };
    if let Some(refusal) = (s.refusal)(s, &call.network, room) {
        (s.refuse)(refusal, &mut answer);
        return answer;
    }
    let events = call.network.events as usize;
    let constraints: Vec<Constraint> = call.network.words.chunks_exact(RECORD).map(s.read).collect();
    match call.kind {
        Kind::Solve => (s.give)(s, events, &constraints, &mut answer),
        Kind::Times => {
            if let Some(at) = (s.broken)(s, events, &constraints, &call.times) {
                answer.result = BROKEN;
                answer.number = at as u32;
            }
        }
        Kind::Chain => answer.result = if (s.is_chain)(s, &constraints, &call.chain) { CHAIN } else { NO_CHAIN },
    }
    answer
}

/// Whether an answer is right, given the one of the plain solver. Which chain is given may differ.
pub fn is_right(call: &Call, plain: &Answer, answer: &Answer) -> bool {
    if call.kind != Kind::Solve || plain.result != CHAIN {
        return answer == plain;
    }
    let length = answer.number as usize;
    answer.result == CHAIN
        && answer.times == [0; ALL_TIMES]
        && length <= answer.chain.len()
        && answer.chain.len() == call.chain.len()
        && answer.chain[length..] == call.chain[length..]
        && is_chain(&RIGHT, &constraints(&call.network), &answer.chain[..length])
}

/// The whole records of a network, which is not refused.
pub fn constraints(network: &Network) -> Vec<Constraint> {
    network.words.chunks_exact(RECORD).map(read).collect()
}

// ---- What is refused

pub fn refusal(s: &Solver, network: &Network, room: Room) -> Option<Refusal> {
    (s.above_limit)(s, network).or_else(|| (s.out_of_range)(s, network)).or_else(|| (s.no_room)(network, room))
}

pub fn above_limit(s: &Solver, network: &Network) -> Option<Refusal> {
    let is_above = network.events > s.limits.events || (s.count)(network.words.len()) > s.limits.constraints;
    Some(Refusal { number: ABOVE_LIMIT, at: 0 }).filter(|_| is_above)
}

/// The lowest constraint out of range. A record that is cut is out of range.
pub fn out_of_range(s: &Solver, network: &Network) -> Option<Refusal> {
    let records = network.words.chunks(RECORD).take((s.count)(network.words.len()));
    let at = records.map(|record| (s.in_range)(s, network.events, record)).position(|fits| !fits)?;
    Some(Refusal { number: OUT_OF_RANGE, at })
}

pub fn no_room(network: &Network, room: Room) -> Option<Refusal> {
    Some(Refusal { number: NO_ROOM, at: 0 }).filter(|_| room.map_or(false, |words| (words as u64) < network.events))
}

/// How many constraints so many words are: a record that is cut counts.
pub fn count(words: usize) -> usize {
    (words + RECORD - 1) / RECORD
}

pub fn is_event(number: i64, events: u64) -> bool {
    0 <= number && (number as u64) < events
}

pub fn in_range(s: &Solver, events: u64, record: &[i64]) -> bool {
    match *record {
        [from, to, most] => {
            is_event(from, events) && is_event(to, events) && s.limits.least <= most && most <= s.limits.most
        }
        _ => false,
    }
}

/// A refusal writes nothing to lent memory, and its times are 0.
pub fn refuse(refusal: Refusal, answer: &mut Answer) {
    answer.result = REFUSED + refusal.number;
    answer.number = refusal.at as u32;
}

// ---- The solver

pub fn read(record: &[i64]) -> Constraint {
    Constraint { from: record[0] as usize, to: record[1] as usize, most: record[2] }
}

/// A time without a chain comes by way of each event once at most, so after so many rounds no time changes.
pub fn rounds(events: usize) -> usize {
    events.saturating_sub(1)
}

pub fn after(time: i128, most: i64) -> i128 {
    time + i128::from(most)
}

/// Lowers each time that a constraint does not allow, from zero on, round by round. What lowers a time after the last round
/// lies behind a chain.
pub fn solve(s: &Solver, events: usize, constraints: &[Constraint]) -> Solution {
    let mut times = vec![0; events];
    let mut lowered_by = vec![None; events];
    for round in 0..=(s.rounds)(events) {
        let mut lowered = None;
        for (number, constraint) in constraints.iter().enumerate() {
            let allowed = (s.after)(times[constraint.from], constraint.most);
            if allowed < times[constraint.to] {
                times[constraint.to] = allowed;
                lowered_by[constraint.to] = Some(number);
                lowered = Some(constraint.to);
            }
        }
        match lowered {
            None => break,
            Some(event) if round == (s.rounds)(events) => {
                return Solution::Chain((s.chain_behind)(&lowered_by, constraints, event))
            }
            Some(_) => {}
        }
    }
    Solution::Times(times.into_iter().map(|time| time as i64).collect())
}

/// Goes back from an event to what lowered it, until it is on the chain for sure, and then once round.
pub fn chain_behind(lowered_by: &[Option<usize>], constraints: &[Constraint], event: usize) -> Vec<usize> {
    let behind = |event: usize| lowered_by[event].expect("what is behind was lowered too");
    let on_it = lowered_by.iter().fold(event, |event, _| constraints[behind(event)].from);
    let mut chain = vec![behind(on_it)];
    while constraints[chain[chain.len() - 1]].from != on_it {
        chain.push(behind(constraints[chain[chain.len() - 1]].from));
    }
    chain.reverse();
    chain
}

/// Writes what was found into an answer, which is that of zeros so far.
pub fn give(s: &Solver, events: usize, constraints: &[Constraint], answer: &mut Answer) {
    match (s.solve)(s, events, constraints) {
        Solution::Times(times) => answer.times[..events].copy_from_slice(&times),
        Solution::Chain(chain) => {
            answer.result = CHAIN;
            answer.number = chain.len() as u32;
            for (word, number) in answer.chain.iter_mut().zip(chain) {
                *word = number as u32;
            }
        }
    }
}

// ---- The tests

/// The lowest constraint that the times do not keep.
pub fn broken(s: &Solver, _: usize, constraints: &[Constraint], times: &[i64]) -> Option<usize> {
    constraints.iter().position(|constraint| !(s.keeps)(s, constraint, times))
}

/// An event past the end of the times has none, and a constraint on it is not kept.
pub fn keeps(s: &Solver, constraint: &Constraint, times: &[i64]) -> bool {
    match (times.get(constraint.from), times.get(constraint.to)) {
        (Some(&from), Some(&to)) => (s.difference_kept)(from, to, constraint.most),
        _ => false,
    }
}

pub fn difference_kept(from: i64, to: i64, most: i64) -> bool {
    i128::from(to) - i128::from(from) <= i128::from(most)
}

pub fn is_chain(s: &Solver, constraints: &[Constraint], chain: &[u32]) -> bool {
    let named: Option<Vec<Constraint>> =
        chain.iter().map(|&number| constraints.get(number as usize).copied()).collect();
    match named {
        Some(named) => !named.is_empty() && (s.links)(&named) && (s.no_event_twice)(&named) && (s.is_negative)(&named),
        None => false,
    }
}

/// Whether each ends where the next begins, and the last where the first does.
pub fn links(named: &[Constraint]) -> bool {
    let next = named.iter().cycle().skip(1);
    named.iter().zip(next).all(|(one, next)| one.to == next.from)
}

pub fn no_event_twice(named: &[Constraint]) -> bool {
    (0..named.len()).all(|at| named[..at].iter().all(|earlier| earlier.from != named[at].from))
}

pub fn is_negative(named: &[Constraint]) -> bool {
    named.iter().map(|constraint| i128::from(constraint.most)).sum::<i128>() < 0
}
