//! The plain explainer. It says where two legs first meet, what the rule at a place needs and has, which offsets are the nearest
//! with which that place holds, and which places of a plan are violated. It walks repeats and tries offsets, one after the other.

use crate::check::{places_of, rule_at, Bent, Checker, RIGHT as CHECKER};
use crate::explain_far::{by_remainders, from_candidates};
use crate::format::{refused, Outcome, Plan, Refusal};
use crate::paper::{DEADLINE, HOP, NO_LEG, NO_PLACE, OVERLAP, REFUSED, RULES, WINDOW};
use crate::rules::{arrival, divisor, sent};
use std::sync::Arc;

/// What is asked.
#[derive(Clone, Copy, Debug, PartialEq, Eq, PartialOrd, Ord)]
pub enum Kind {
    Meeting,
    Margin,
    Nearest,
    /// All violated places, through slices.
    Survey,
}

pub const KINDS: [Kind; 4] = [Kind::Meeting, Kind::Margin, Kind::Nearest, Kind::Survey];

/// A call: the plan, a leg, and the other leg, the place or the budget of each slice.
#[derive(Clone)]
pub struct Call {
    pub kind: Kind,
    pub plan: Arc<[u8]>,
    pub leg: u32,
    pub second: u32,
}

/// The struct with the most numbers has so many.
pub const NUMBERS: usize = 12;

/// What a call gives, as the structs for C have it, and the places of a survey: leg, place and result of each.
#[derive(Clone, Debug, PartialEq, Eq)]
pub struct Told {
    pub numbers: [u64; NUMBERS],
    pub places: Vec<u32>,
}

/// Where two legs meet: the last repeat of each that has begun, and when.
#[derive(Clone, Copy, Debug, PartialEq, Eq)]
pub struct Met {
    pub first: u64,
    pub second: u64,
    pub instant: u64,
}

/// The numbers of a rule at its place.
#[derive(Clone, Copy, Debug, PartialEq, Eq)]
pub enum Numbers {
    /// The rule asks nothing there.
    Free,
    Sides {
        needs: u64,
        has: u64,
    },
    Turns {
        divisor: u64,
        after: u64,
        hold: u64,
        other: u64,
    },
}

#[derive(Clone, Copy, Debug, PartialEq, Eq)]
pub enum Spare {
    Free,
    Left(u64),
    Lacks(u64),
}

/// The nearest offset below the leg's own, and the nearest above.
#[derive(Clone, Copy, Debug, PartialEq, Eq)]
pub struct Near {
    pub below: Option<u32>,
    pub above: Option<u32>,
}

/// A violated place.
#[derive(Clone, Copy, Debug, PartialEq, Eq)]
pub struct Violated {
    pub leg: u32,
    pub place: u32,
    pub result: u32,
}

#[derive(Clone, Debug, PartialEq, Eq)]
pub enum Answer {
    Refused(Refusal),
    Meeting(Option<Met>),
    Margin(usize, Numbers, Spare),
    Nearest(Near),
    Survey(Vec<Violated>),
}

/// The decisions of an explainer, each of which a wrong one can replace.
#[derive(Clone, Copy)]
pub struct Explainer {
    /// By these rules the plan is read and judged.
    pub checker: Bent,
    pub opened: fn(&Explainer, &Call) -> Outcome<Plan>,
    pub asked: fn(&Plan, &Call) -> Outcome<()>,
    pub slot: fn(&Explainer, &Plan, usize) -> Slot,
    pub meet: fn(&Slot, &Slot) -> Option<Met>,
    pub meeting: fn(&Explainer, &Plan, usize, usize) -> Option<Met>,
    pub window: fn(&Explainer, &Plan, usize) -> Numbers,
    pub hop: fn(&Explainer, &Plan, usize) -> Numbers,
    pub deadline: fn(&Explainer, &Plan, usize) -> Numbers,
    pub overlap: fn(&Explainer, &Plan, usize, usize) -> Numbers,
    pub spare: fn(Numbers) -> Spare,
    pub stands: fn(&Explainer, &Plan, usize, u32) -> bool,
    pub near: fn(&Explainer, &Plan, usize, u32) -> Near,
    pub survey: fn(&Explainer, &Plan) -> Vec<Violated>,
    pub told: fn(Answer, &Call) -> Told,
}

pub const RIGHT: Explainer = Explainer {
    checker: CHECKER,
    opened,
    asked,
    slot,
    meet,
    meeting,
    window,
    hop,
    deadline,
    overlap,
    spare,
    stands,
    near,
    survey,
    told,
};

/// What an explainer answers.
pub fn answer(e: &Explainer, call: &Call) -> Answer {
    match (e.opened)(e, call) {
        Ok(plan) => answer_of(e, &plan, call),
        Err(refusal) => Answer::Refused(refusal),
    }
}

fn answer_of(e: &Explainer, plan: &Plan, call: &Call) -> Answer {
    let leg = call.leg as usize;
    match call.kind {
        Kind::Meeting => Answer::Meeting((e.meeting)(e, plan, leg, call.second as usize)),
        Kind::Margin => {
            let numbers = numbers_at(e, plan, leg, call.second);
            Answer::Margin(rule_at(call.second).0, numbers, (e.spare)(numbers))
        }
        Kind::Nearest => Answer::Nearest((e.near)(e, plan, leg, call.second)),
        Kind::Survey => Answer::Survey((e.survey)(e, plan)),
    }
}

/// What an explainer tells.
pub fn tells(e: &Explainer, call: &Call) -> Told {
    (e.told)(answer(e, call), call)
}

// ---- Refusals

/// The refusals of the file, those of the shape, and at last 9 or 10.
pub fn opened(e: &Explainer, call: &Call) -> Outcome<Plan> {
    let plan = e.checker.read_plan(&call.plan)?;
    e.checker.judge(&plan)?;
    (e.asked)(&plan, call)?;
    Ok(plan)
}

/// Refusal 10 where a leg is not there, and 9 where a place is not. The end is no place.
pub fn asked(plan: &Plan, call: &Call) -> Outcome<()> {
    let has = |leg: u32| leg < plan.legs.len() as u32;
    match call.kind {
        Kind::Meeting if !has(call.leg) || !has(call.second) => refused(NO_LEG, 0),
        Kind::Margin | Kind::Nearest if !has(call.leg) || call.second >= places_of(call.leg) => refused(NO_PLACE, 0),
        _ => Ok(()),
    }
}

// ---- Meetings

/// When a leg holds its link: from its offset on, in each period once.
#[derive(Clone, Copy, Debug)]
pub struct Slot {
    pub offset: u64,
    pub period: u64,
    pub hold: u64,
}

impl Slot {
    /// When a repeat begins.
    pub fn begin(&self, repeat: u64) -> u64 {
        self.offset + repeat * self.period
    }

    /// The last repeat that has begun at an instant.
    pub fn begun(&self, instant: u64) -> Option<u64> {
        instant.checked_sub(self.offset).map(|since| since / self.period)
    }

    /// Whether the link is held at an instant at which this repeat is the last that has begun. It ends last, too.
    pub fn is_held(&self, repeat: u64, instant: u64) -> bool {
        instant < self.begin(repeat) + self.hold
    }
}

pub fn slot(e: &Explainer, plan: &Plan, leg: usize) -> Slot {
    let leg = sent(&e.checker, plan, leg);
    Slot { offset: leg.offset, period: leg.period.into(), hold: leg.hold }
}

pub fn meeting(e: &Explainer, plan: &Plan, leg: usize, other: usize) -> Option<Met> {
    if plan.legs[leg].link != plan.legs[other].link {
        return None;
    }
    (e.meet)(&(e.slot)(e, plan, leg), &(e.slot)(e, plan, other))
}

/// So many repeats are walked at the most.
const WALKED: u64 = 50_000;

/// How many repeats of both legs lie between two instants at which they stand to each other alike.
pub fn repeats_of_a_cycle(a: &Slot, b: &Slot) -> u64 {
    (a.period + b.period) / common(a, b)
}

pub fn common(a: &Slot, b: &Slot) -> u64 {
    divisor(a.period as u32, b.period as u32).into()
}

/// The least common multiple of both periods.
pub fn cycle(a: &Slot, b: &Slot) -> u64 {
    a.period / common(a, b) * b.period
}

pub fn is_walked(a: &Slot, b: &Slot) -> bool {
    repeats_of_a_cycle(a, b) <= WALKED
}

pub fn meet(a: &Slot, b: &Slot) -> Option<Met> {
    if is_walked(a, b) {
        by_walking(a, b)
    } else {
        by_remainders(a, b)
    }
}

/// Walks the repeats of both in the order of time, from the instant on at which both have begun, through one cycle. When two
/// legs begin to hold their link at once, one of them has just begun a repeat.
pub fn by_walking(a: &Slot, b: &Slot) -> Option<Met> {
    let mut instant = a.offset.max(b.offset);
    let end = instant + cycle(a, b);
    let (mut first, mut second) = (a.begun(instant)?, b.begun(instant)?);
    while instant < end {
        if a.is_held(first, instant) && b.is_held(second, instant) {
            return Some(Met { first, second, instant });
        }
        let (next_a, next_b) = (a.begin(first + 1), b.begin(second + 1));
        instant = next_a.min(next_b);
        first += u64::from(next_a == instant);
        second += u64::from(next_b == instant);
    }
    None
}

/// Looks at each instant from 0 on, and at each repeat.
pub fn by_instants(a: &Slot, b: &Slot) -> Option<Met> {
    let end = a.offset.max(b.offset) + cycle(a, b);
    (0..end).find(|&instant| holds_at(a, instant) && holds_at(b, instant)).map(|instant| Met {
        first: begun_at(a, instant),
        second: begun_at(b, instant),
        instant,
    })
}

fn holds_at(slot: &Slot, instant: u64) -> bool {
    let begins = (0..).map(|repeat| slot.begin(repeat)).take_while(|&begin| begin <= instant);
    begins.into_iter().any(|begin| instant < begin + slot.hold)
}

fn begun_at(slot: &Slot, instant: u64) -> u64 {
    (0..).take_while(|&repeat| slot.begin(repeat) <= instant).count() as u64 - 1
}

// ---- Margins

pub fn numbers_at(e: &Explainer, plan: &Plan, leg: usize, place: u32) -> Numbers {
    match rule_at(place) {
        (WINDOW, _) => (e.window)(e, plan, leg),
        (HOP, _) => (e.hop)(e, plan, leg),
        (DEADLINE, _) => (e.deadline)(e, plan, leg),
        (_, other) => (e.overlap)(e, plan, leg, other),
    }
}

pub fn first_of_its_stream(plan: &Plan, leg: usize) -> usize {
    plan.streams[plan.legs[leg].stream as usize].first_leg as usize
}

pub fn last_of_its_stream(plan: &Plan, leg: usize) -> usize {
    let stream = &plan.streams[plan.legs[leg].stream as usize];
    (stream.first_leg + stream.leg_count - 1) as usize
}

pub fn window(e: &Explainer, plan: &Plan, leg: usize) -> Numbers {
    let leg = sent(&e.checker, plan, leg);
    Numbers::Sides { needs: leg.offset + leg.hold, has: leg.period.into() }
}

pub fn hop(e: &Explainer, plan: &Plan, leg: usize) -> Numbers {
    if leg == first_of_its_stream(plan, leg) {
        return Numbers::Free;
    }
    let (previous, leg) = (sent(&e.checker, plan, leg - 1), sent(&e.checker, plan, leg));
    Numbers::Sides { needs: arrival(&previous, plan.precision.into()), has: leg.start }
}

pub fn deadline(e: &Explainer, plan: &Plan, leg: usize) -> Numbers {
    if leg != last_of_its_stream(plan, leg) {
        return Numbers::Free;
    }
    let (first, last) = (sent(&e.checker, plan, first_of_its_stream(plan, leg)), sent(&e.checker, plan, leg));
    Numbers::Sides { needs: arrival(&last, plan.precision.into()), has: last.deadline + first.start }
}

pub fn overlap(e: &Explainer, plan: &Plan, leg: usize, other: usize) -> Numbers {
    if plan.legs[leg].link != plan.legs[other].link {
        return Numbers::Free;
    }
    let (a, b) = (sent(&e.checker, plan, leg), sent(&e.checker, plan, other));
    let divisor = u64::from(divisor(a.period, b.period));
    let after = (b.offset as i64 - a.offset as i64).rem_euclid(divisor as i64) as u64;
    Numbers::Turns { divisor, after, hold: a.hold, other: b.hold }
}

pub fn spare(numbers: Numbers) -> Spare {
    match numbers {
        Numbers::Free => Spare::Free,
        Numbers::Sides { needs, has } => of_a_rest(has as i64 - needs as i64),
        Numbers::Turns { divisor, after, hold, other } => {
            let [before_other, after_other] = [after as i64 - hold as i64, (divisor - after) as i64 - other as i64];
            of_a_rest(before_other.min(after_other))
        }
    }
}

/// What is left, or lacks where the rest is below 0.
pub fn of_a_rest(rest: i64) -> Spare {
    if rest < 0 {
        Spare::Lacks(rest.unsigned_abs())
    } else {
        Spare::Left(rest as u64)
    }
}

// ---- Nearest offsets

/// Whether a leg keeps its window and a place of it holds, where it is.
pub fn stands(e: &Explainer, plan: &Plan, leg: usize, place: u32) -> bool {
    e.checker.holds(plan, leg, WINDOW as u32) && e.checker.holds(plan, leg, place)
}

/// In periods up to this every offset is tried.
const TRIED: u32 = 24_000;

pub fn is_tried(plan: &Plan, leg: usize) -> bool {
    plan.streams[plan.legs[leg].stream as usize].period <= TRIED
}

pub fn near(e: &Explainer, plan: &Plan, leg: usize, place: u32) -> Near {
    if is_tried(plan, leg) {
        by_trying(e, plan, leg, place)
    } else {
        from_candidates(e, plan, leg, place)
    }
}

/// Tries each offset from the leg's own outwards. None that is its period or more keeps the window.
pub fn by_trying(e: &Explainer, plan: &Plan, leg: usize, place: u32) -> Near {
    let own = plan.legs[leg].offset;
    let period = plan.streams[plan.legs[leg].stream as usize].period;
    let mut tried = plan.clone();
    let mut stands_at = |offset: &u32| {
        tried.legs[leg].offset = *offset;
        (e.stands)(e, &tried, leg, place)
    };
    let below = (0..own.min(period)).rev().find(&mut stands_at);
    let above = (own.saturating_add(1)..period).find(&mut stands_at);
    Near { below, above }
}

// ---- All violated places

pub fn survey(e: &Explainer, plan: &Plan) -> Vec<Violated> {
    let mut found = Vec::new();
    for leg in 0..plan.legs.len() as u32 {
        for place in 0..places_of(leg) {
            if !e.checker.holds(plan, leg as usize, place) {
                found.push(Violated { leg, place, result: RULES[rule_at(place).0].result });
            }
        }
    }
    found
}

// ---- In numbers

/// The result of two legs that meet.
pub const MET: u64 = 1;

pub fn told(answer: Answer, _: &Call) -> Told {
    let mut places = Vec::new();
    let numbers = match answer {
        Answer::Refused(refusal) => with(&[u64::from(REFUSED + refusal.number), refusal.at as u64]),
        Answer::Meeting(None) => with(&[]),
        Answer::Meeting(Some(Met { first, second, instant })) => with(&[MET, 0, first, second, instant]),
        Answer::Margin(rule, numbers, spare) => margin_told(rule, numbers, spare),
        Answer::Nearest(Near { below, above }) => {
            let [has_below, has_above] = [below, above].map(|offset| u64::from(offset.is_some()));
            let [below, above] = [below, above].map(|offset| u64::from(offset.unwrap_or(0)));
            with(&[0, 0, has_below, below, has_above, above])
        }
        Answer::Survey(found) => {
            places = found.iter().flat_map(|at| [at.leg, at.place, at.result]).collect();
            with(&[0, found.len() as u64])
        }
    };
    Told { numbers, places }
}

fn margin_told(rule: usize, numbers: Numbers, spare: Spare) -> [u64; NUMBERS] {
    let rule = u64::from(RULES[rule].result);
    let (result, left, lacks) = match spare {
        Spare::Free => (0, 0, 0),
        Spare::Left(left) => (0, left, 0),
        Spare::Lacks(lacks) => (rule, 0, lacks),
    };
    match numbers {
        Numbers::Free => with(&[result, 0, rule, 0, left, lacks]),
        Numbers::Sides { needs, has } => with(&[result, 0, rule, 1, left, lacks, needs, has]),
        Numbers::Turns { divisor, after, hold, other } => {
            with(&[result, 0, rule, 1, left, lacks, 0, 0, divisor, after, hold, other])
        }
    }
}

/// These numbers, and 0 for those that are not told.
pub fn with(first: &[u64]) -> [u64; NUMBERS] {
    let mut numbers = [0; NUMBERS];
    numbers[..first.len()].copy_from_slice(first);
    numbers
}

/// The rule of an answer's place.
pub fn is_overlap(place: u32) -> bool {
    rule_at(place).0 == OVERLAP
}
