//! The calls that explain a place, in the list of cases: how they are written there, and what the program prints for each.
//!
//!   meeting LEG OTHER of PLAN       the first instant at which both hold their link, and the repeats of each
//!   margin LEG PLACE of PLAN        the numbers of the rule at a place, and what is to spare
//!   nearest LEG PLACE of PLAN       the nearest offsets of the leg with which the place holds
//!
//! All is found by trying: each start of either leg over a whole cycle, one ns more or less,
//! and one offset after the other.

use crate::check::{places_of, Checker, Plain};
use crate::format::{refused, table, Outcome, Plan};
use crate::list::numbers;
use crate::paper::{HOP, NO_LEG, NO_PLACE, OVERLAPS, WINDOW};
use crate::rules::{arrival, divisor, sent, window_holds, Sent};
use crate::told::refusal;

pub fn is_call(verb: &str) -> bool {
    matches!(verb, "meeting" | "margin" | "nearest")
}

/// What the program prints for a call on a table.
pub fn told(verb: &str, rest: &str, given: &[u32]) -> Result<String, String> {
    let call = match verb {
        "meeting" => meeting,
        "margin" => margin,
        _ => nearest,
    };
    match numbers(rest)?[..] {
        [leg, other] => Ok(judged(given).and_then(|plan| call(&plan, leg, other)).unwrap_or_else(refusal)),
        _ => Err(format!("'{}' takes a leg and another number", verb)),
    }
}

fn judged(given: &[u32]) -> Outcome<Plan> {
    let plan = table(&Plain, given)?;
    Plain.judge(&plan)?;
    Ok(plan)
}

// ---- Meetings

fn meeting(plan: &Plan, leg: u32, other: u32) -> Outcome<String> {
    if leg.max(other) >= plan.legs.len() as u32 {
        return refused(NO_LEG, 0);
    }
    let (a, b) = (sent(&Plain, plan, leg as usize), sent(&Plain, plan, other as usize));
    let one_link = plan.legs[leg as usize].link == plan.legs[other as usize].link;
    let repeat = |leg: &Sent, x: u64| (x - leg.offset) / u64::from(leg.period);
    Ok(match first_meeting(&a, &b).filter(|_| one_link) {
        Some(x) => format!("met: repeats {} {} instant {}\n", repeat(&a, x), repeat(&b, x), x),
        None => "never\n".to_string(),
    })
}

/// Two legs that share an instant share one at which one of them starts.
fn first_meeting(a: &Sent, b: &Sent) -> Option<u64> {
    let common = u64::from(a.period) / u64::from(divisor(a.period, b.period)) * u64::from(b.period);
    let until = a.offset.max(b.offset) + common;
    let held = |leg: &Sent, x: u64| leg.offset <= x && (x - leg.offset) % u64::from(leg.period) < leg.hold;
    let first = |one: &Sent, other: &Sent| (one.offset..=until).step_by(one.period as usize).find(|x| held(other, *x));
    first(a, b).into_iter().chain(first(b, a)).min()
}

// ---- Margins

/// What is asked at a place: nothing, two sides, or that two legs take turns.
enum Numbers {
    Free,
    Sides { needs: u64, has: u64 },
    Turns { divisor: u64, after: u64, hold: u64, other: u64 },
}

fn there(plan: &Plan, leg: u32, place: u32) -> Outcome<()> {
    if leg >= plan.legs.len() as u32 || place >= places_of(leg) {
        return refused(NO_PLACE, 0);
    }
    Ok(())
}

fn numbers_at(plan: &Plan, leg: u32, place: u32) -> Numbers {
    let (at, precision) = (leg as usize, u64::from(plan.precision));
    let (a, stream) = (sent(&Plain, plan, at), &plan.streams[plan.legs[at].stream as usize]);
    if place >= OVERLAPS {
        return turns(plan, at, (place - OVERLAPS) as usize);
    }
    match place as usize {
        WINDOW => Numbers::Sides { needs: a.offset + a.hold, has: u64::from(a.period) },
        HOP if leg == stream.first_leg => Numbers::Free,
        HOP => Numbers::Sides { needs: arrival(&sent(&Plain, plan, at - 1), precision), has: a.start },
        _ if leg + 1 < stream.first_leg + stream.leg_count => Numbers::Free,
        _ => {
            let first = sent(&Plain, plan, stream.first_leg as usize);
            Numbers::Sides { needs: arrival(&a, precision), has: a.deadline + first.start }
        }
    }
}

fn turns(plan: &Plan, leg: usize, lower: usize) -> Numbers {
    let (a, b) = (sent(&Plain, plan, leg), sent(&Plain, plan, lower));
    if plan.legs[leg].link != plan.legs[lower].link {
        return Numbers::Free;
    }
    let divisor = u64::from(divisor(a.period, b.period));
    let after = (b.offset + divisor - a.offset % divisor) % divisor;
    Numbers::Turns { divisor, after, hold: a.hold, other: b.hold }
}

/// Whether the rule is kept where so many ns more, or fewer, are needed, of two legs by each.
fn kept(numbers: &Numbers, more: u64, fewer: u64) -> bool {
    match *numbers {
        Numbers::Free => true,
        Numbers::Sides { needs, has } => needs + more <= has + fewer,
        Numbers::Turns { divisor, after, hold, other } => {
            hold + more <= after + fewer && other + more + after <= divisor + fewer
        }
    }
}

fn margin(plan: &Plan, leg: u32, place: u32) -> Outcome<String> {
    there(plan, leg, place)?;
    let numbers = numbers_at(plan, leg, place);
    Ok(match numbers {
        Numbers::Free => "free\n".to_string(),
        Numbers::Sides { needs, has } => format!("needs {} has {} {}\n", needs, has, spare(&numbers)),
        Numbers::Turns { divisor, after, hold, other } => {
            format!("divisor {} after {} hold {} other {} {}\n", divisor, after, hold, other, spare(&numbers))
        }
    })
}

/// The fewest ns that are lacking; and where none are, one less than the fewest with which the rule is no longer kept.
fn spare(numbers: &Numbers) -> String {
    match (0..).find(|n| kept(numbers, 0, *n)) {
        Some(0) => format!("left {}", (1..).take_while(|n| kept(numbers, *n, 0)).count()),
        lacks => format!("lacks {}", lacks.unwrap_or(0)),
    }
}

// ---- Nearest offsets

fn stands(plan: &Plan, leg: u32, place: u32, offset: u32) -> bool {
    let mut moved = plan.clone();
    moved.legs[leg as usize].offset = offset;
    window_holds(&Plain, &sent(&Plain, &moved, leg as usize)) && kept(&numbers_at(&moved, leg, place), 0, 0)
}

fn nearest(plan: &Plan, leg: u32, place: u32) -> Outcome<String> {
    there(plan, leg, place)?;
    let (own, period) = (plan.legs[leg as usize].offset, sent(&Plain, plan, leg as usize).period);
    let stands = |offset: &u32| stands(plan, leg, place, *offset);
    let below = (0..own.min(period)).rev().find(stands);
    let above = (own.min(period) + 1..=period).find(stands);
    let told = |offset: Option<u32>| offset.map_or("none".to_string(), |offset| offset.to_string());
    Ok(format!("below {} above {}\n", told(below), told(above)))
}
