//! A solver of networks as one writes it for speed: what is given is looked at once, sums are of 64 bits, and a round that
//! changes nothing is the last.

use crate::network::{ABOVE_LIMIT, ALL_TIMES, CHAIN, LIMITS, NO_ROOM, OUT_OF_RANGE, RECORD, REFUSED, TIMES};
use crate::Answer;

/// As many as a byte has values, so that no index of that kind is past the end.
const SLOTS: usize = 256;

#[derive(Clone, Copy)]
struct Edge {
    from: u8,
    to: u8,
    most: i64,
}

fn refused(number: u32, at: usize) -> Answer {
    Answer { result: REFUSED + number, number: at as u32, times: [0; ALL_TIMES] }
}

fn edge(events: usize, record: &[i64]) -> Option<Edge> {
    match *record {
        [from, to, most] => {
            let events = 0..events as i64;
            let fits = events.contains(&from) && events.contains(&to) && (LIMITS.least..=LIMITS.most).contains(&most);
            Some(Edge { from: from as u8, to: to as u8, most }).filter(|_| fits)
        }
        _ => None,
    }
}

pub fn quick(events: usize, words: &[i64], chain: &mut [u32]) -> Answer {
    if events as u64 > LIMITS.events || words.len() > RECORD * LIMITS.constraints {
        return refused(ABOVE_LIMIT, 0);
    }
    let mut edges = Vec::with_capacity(LIMITS.constraints);
    for (at, record) in words.chunks(RECORD).enumerate() {
        match edge(events, record) {
            Some(edge) => edges.push(edge),
            None => return refused(OUT_OF_RANGE, at),
        }
    }
    if chain.len() < events {
        return refused(NO_ROOM, 0);
    }

    let mut times = [0i64; SLOTS];
    let mut lowered_by = [0u32; SLOTS];
    let mut lowered = None;
    for _ in 0..events {
        lowered = None;
        for (at, edge) in edges.iter().enumerate() {
            let allowed = times[edge.from as usize] + edge.most;
            if allowed < times[edge.to as usize] {
                times[edge.to as usize] = allowed;
                lowered_by[edge.to as usize] = at as u32;
                lowered = Some(edge.to);
            }
        }
        if lowered.is_none() {
            break;
        }
    }
    match lowered {
        None => {
            let mut answer = Answer { result: TIMES, number: 0, times: [0; ALL_TIMES] };
            answer.times[..events].copy_from_slice(&times[..events]);
            answer
        }
        Some(event) => {
            Answer { result: CHAIN, number: walked(&edges, &lowered_by, event, chain), times: [0; ALL_TIMES] }
        }
    }
}

/// Writes the chain that lies behind an event, and gives its length.
fn walked(edges: &[Edge], lowered_by: &[u32; SLOTS], event: u8, chain: &mut [u32]) -> u32 {
    let mut at = event;
    for _ in 0..ALL_TIMES {
        at = edges[lowered_by[at as usize] as usize].from;
    }
    let (first, mut length) = (at, 0);
    loop {
        let number = lowered_by[at as usize];
        chain[length] = number;
        length += 1;
        at = edges[number as usize].from;
        if at == first {
            break;
        }
    }
    chain[..length].reverse();
    length as u32
}
