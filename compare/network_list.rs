//! The calls on networks in the list of cases: how they are written there, and what the program prints for each.
//!
//!   solve EVENTS room WORDS of NETWORK
//!   test-times EVENTS times TIMES of NETWORK
//!   test-chain EVENTS chain NUMBERS of NETWORK
//!
//! and the same for C, with c- in front. NETWORK has | between constraints, each of which is its words from, to and most, or some of them.
//! In place of a constraint may stand more of them:
//!
//!   line 128 by -5                   from each event to the next, each at most -5
//!   line-back 128 by -5              the same in the other order
//!   ring 128 sum 3                   line 128 by -1, and from the last event to the first what gives this sum
//!
//! NETWORK is also nothing, or repeat 2049 0 0 5: these words so many times. A call without it goes on with that of the call before it.
//! TIMES and NUMBERS may have 3 to 5 for 3 4 5.
//! What is spelled out stands alone: VERB EVENTS WORDS, the numbers after the events, and after a colon the words of the constraints,
//! which are to be repeated until there are so many.

use crate::answers::{row, WORD_MARK};
use crate::format::Refusal;
use crate::network::{
    self, constraints, Answer, Call, Kind, Network, ALL_TIMES, BROKEN, CHAIN, RECORD, REFUSED, RIGHT,
};
use crate::told::refusal;
use std::sync::Arc;

type Told<T> = Result<T, String>;

/// The words of constraints, and how many they are when they are repeated.
#[derive(Clone)]
pub struct Words {
    written: Vec<i64>,
    count: usize,
}

/// The kind of a call, the word before its numbers, and whether it is one for C.
fn kind(verb: &str) -> Option<(Kind, &'static str, bool)> {
    let name = verb.strip_prefix("c-").unwrap_or(verb);
    let (kind, before) = match name {
        "solve" => (Kind::Solve, "room"),
        "test-times" => (Kind::Times, "times"),
        "test-chain" => (Kind::Chain, "chain"),
        _ => return None,
    };
    Some((kind, before, name != verb))
}

pub fn is_call(verb: &str) -> bool {
    kind(verb).is_some()
}

fn number<T: std::str::FromStr>(text: &str) -> Told<T> {
    text.parse().map_err(|_| format!("'{}' is no such number", text))
}

fn numbers<T: std::str::FromStr>(words: &[&str]) -> Told<Vec<T>> {
    words.iter().map(|word| number(word)).collect()
}

fn joined(words: &[i64]) -> String {
    words.iter().map(i64::to_string).collect::<Vec<_>>().join(" ")
}

fn line(events: i64, most: i64) -> Vec<[i64; RECORD]> {
    (1..events).map(|to| [to - 1, to, most]).collect()
}

fn part(text: &str) -> Told<Vec<i64>> {
    let words: Vec<&str> = text.split_whitespace().collect();
    let records = match &words[..] {
        ["line", events, "by", most] => line(number(events)?, number(most)?),
        ["line-back", events, "by", most] => line(number(events)?, number(most)?).into_iter().rev().collect(),
        ["ring", events, "sum", sum] => {
            let last: i64 = number::<i64>(events)? - 1;
            let mut records = line(last + 1, -1);
            records.push([last, 0, number::<i64>(sum)? + last]);
            records
        }
        words => return numbers(words),
    };
    Ok(records.concat())
}

/// The constraints that the list names.
pub fn words(text: &str) -> Told<Words> {
    let words: Vec<&str> = text.split_whitespace().collect();
    let (written, times) = match &words[..] {
        ["nothing"] => (Vec::new(), 0),
        ["repeat", times, words @ ..] => (numbers(words)?, number(times)?),
        _ => (text.split('|').map(part).collect::<Told<Vec<_>>>()?.concat(), 1),
    };
    let count = times * written.len();
    Ok(Words { written, count })
}

/// The numbers of a call after its events, each from one to another spelled out.
fn counted(text: &str) -> Told<String> {
    let mut told = String::new();
    let mut last: i64 = 0;
    let mut is_to = false;
    for word in text.split_whitespace() {
        if word == "to" {
            is_to = true;
            continue;
        }
        let number = number(word)?;
        for one in if is_to { last + 1 } else { number }..=number {
            told += &format!(" {}", one);
        }
        (last, is_to) = (number, false);
    }
    Ok(told)
}

/// A call as the program reads it.
pub fn spelled(call: &str, words: &Words) -> Told<String> {
    let said: Vec<&str> = call.split_whitespace().collect();
    let (verb, events, before, besides) = match &said[..] {
        [verb, events, before, besides @ ..] => (verb, events, before, besides),
        _ => return Err(format!("'{}' is no call", call)),
    };
    match kind(verb) {
        Some((_, word, _)) if word == *before => {}
        _ => return Err(format!("'{}' has '{}' in front of its numbers", verb, before)),
    }
    let besides = counted(&besides.join(" "))?;
    Ok(format!("{} {} {}{}: {}", verb, events, words.count, besides, joined(&words.written)))
}

/// Whether each chain of the network has all the constraints of this one: no other one can be given.
fn is_only(network: &Network, chain: &[u32]) -> bool {
    let has_times_without = |number: &u32| {
        let mut words = network.words.clone();
        words.drain(RECORD * *number as usize..RECORD * (*number as usize + 1));
        let call = Call {
            kind: Kind::Solve,
            network: Arc::new(Network { events: network.events, words }),
            times: Vec::new(),
            chain: vec![0; ALL_TIMES],
        };
        network::answer(&RIGHT, &call).result == network::TIMES
    };
    chain.iter().all(has_times_without)
}

/// What the program prints of a chain. It does not tell which one was given.
fn chain_told(network: &Network, chain: &[u32]) -> Told<String> {
    if !is_only(network, chain) {
        return Err("another solver may give another chain".to_string());
    }
    let all = constraints(network);
    let sum: i64 = chain.iter().map(|&number| all[number as usize].most).sum();
    Ok(format!("sum {} tested: chain\n", sum))
}

fn times_told(times: &[i64]) -> String {
    match times.iter().rposition(|&time| time != 0) {
        None => "times: all 0\n".to_string(),
        Some(last) => {
            let rest = if last + 1 < times.len() { ", then 0" } else { "" };
            format!("times: {}{}\n", joined(&times[..=last]), rest)
        }
    }
}

fn first_line(kind: Kind, for_c: bool, answer: &Answer) -> String {
    match (answer.result, kind) {
        (result, _) if for_c => format!("result {} number {}\n", result, answer.number),
        (REFUSED.., _) => refusal(Refusal { number: answer.result - REFUSED, at: answer.number as usize }),
        (CHAIN, Kind::Solve) => format!("chain {}\n", answer.number),
        (CHAIN, _) => "chain\n".to_string(),
        (BROKEN, _) => format!("broken {}\n", answer.number),
        (_, Kind::Solve) => "times\n".to_string(),
        (_, Kind::Times) => "kept\n".to_string(),
        (_, Kind::Chain) => "no chain\n".to_string(),
    }
}

/// What the program prints for a call that is spelled out.
pub fn told(verb: &str, rest: &str) -> Told<String> {
    let (kind, _, for_c) = kind(verb).ok_or("no call on a network")?;
    let (front, written) = rest.split_once(':').ok_or("no constraints")?;
    let front: Vec<&str> = front.split_whitespace().collect();
    let (events, count, besides) = match &front[..] {
        [events, count, besides @ ..] => (number(events)?, number(count)?, besides),
        _ => return Err("no events".to_string()),
    };
    let written: Vec<i64> = numbers(&written.split_whitespace().collect::<Vec<_>>())?;
    let words = written.iter().cycle().take(count).copied().collect();
    let (times, chain) = match (kind, besides) {
        (Kind::Solve, [room]) => (Vec::new(), vec![WORD_MARK; number(room)?]),
        (Kind::Solve, _) => return Err("a chain has one length".to_string()),
        (Kind::Times, times) => (numbers(times)?, Vec::new()),
        (Kind::Chain, chain) => (Vec::new(), numbers(chain)?),
    };
    let call = Call { kind, network: Arc::new(Network { events, words }), times, chain };
    let answer = network::answer(&RIGHT, &call);
    let mut told = first_line(kind, for_c, &answer);
    if kind == Kind::Solve {
        let length = if answer.result == CHAIN { answer.number as usize } else { 0 };
        if length > 0 {
            told += &chain_told(&call.network, &answer.chain[..length])?;
        }
        told += &times_told(&answer.times);
        told += &format!("rest: {}", row(&answer.chain[length..]));
    }
    Ok(told)
}
