//! One late move, plainly: of all places of a table, in their order, those that the request names for the moved leg are
//! looked at. Written from the request alone. A `Rechecker` is a table of decisions, in which a wrong one replaces some;
//! `RIGHT` has them as they are right.

use crate::check::{places_of, rule_at, whole, Bent, Checker, Plain, RIGHT as CHECKER};
use crate::format::{refused, Outcome, Plan, Refusal, Stream};
use crate::paper::{DEADLINE, HOP, NOTHING_VIOLATED, NO_LEG, OVERLAPS, REFUSED};
use std::sync::Arc;

/// A call: the plan, and the leg that was moved.
#[derive(Clone)]
pub struct Call {
    pub plan: Arc<[u8]>,
    pub leg: u32,
}

/// What a call gives, as the struct for C has it.
#[derive(Clone, Copy, Debug, PartialEq, Eq)]
pub struct Answer {
    pub result: u32,
    pub number: u32,
    pub leg: u32,
    pub place: u32,
}

/// A place of a table. The order is by leg, then by the second number.
#[derive(Clone, Copy, Debug, PartialEq, Eq, PartialOrd, Ord)]
pub struct Place {
    pub leg: usize,
    pub place: u32,
}

#[derive(Clone, Copy)]
pub struct Rechecker {
    /// By these rules the plan is read and judged, and each place is looked at.
    pub checker: Bent,
    pub opened: fn(&Rechecker, &Call) -> Outcome<(Plan, usize)>,
    pub moved_leg: fn(&Plan, u32) -> Outcome<usize>,
    pub listed: fn(&Plan, usize) -> Vec<Place>,
    pub holds: fn(&Rechecker, &Plan, usize, Place) -> bool,
    pub look: fn(&Rechecker, &Plan, usize, &[Place]) -> Answer,
    pub refuse: fn(Refusal, &Call) -> Answer,
}

pub const RIGHT: Rechecker = Rechecker { checker: CHECKER, opened, moved_leg, listed, holds, look, refuse };

/// What a rechecker answers.
pub fn answer(r: &Rechecker, call: &Call) -> Answer {
    match (r.opened)(r, call) {
        Ok((plan, moved)) => (r.look)(r, &plan, moved, &(r.listed)(&plan, moved)),
        Err(refusal) => (r.refuse)(refusal, call),
    }
}

/// The refusals of the file, those of the shape, and at last 10.
pub fn opened(r: &Rechecker, call: &Call) -> Outcome<(Plan, usize)> {
    let plan = r.checker.read_plan(&call.plan)?;
    r.checker.judge(&plan)?;
    let moved = (r.moved_leg)(&plan, call.leg)?;
    Ok((plan, moved))
}

/// Refusal 10.
pub fn moved_leg(plan: &Plan, leg: u32) -> Outcome<usize> {
    if leg >= plan.legs.len() as u32 {
        return refused(NO_LEG, 0);
    }
    Ok(leg as usize)
}

/// A refusal is told as its number plus 100, and its position.
pub fn refuse(refusal: Refusal, _: &Call) -> Answer {
    Answer { result: REFUSED + refusal.number, number: refusal.at as u32, leg: 0, place: 0 }
}

// ---- The list

/// All places of a table, in their order.
pub fn all_places(plan: &Plan) -> impl Iterator<Item = Place> {
    (0..plan.legs.len()).flat_map(|leg| (0..places_of(leg as u32)).map(move |place| Place { leg, place }))
}

/// The places that are looked at again, in the order of all places.
pub fn listed(plan: &Plan, moved: usize) -> Vec<Place> {
    let is_listed = |place: &Place| {
        is_own(moved, place)
            || is_overlap_with(moved, place)
            || is_next_hop(plan, moved, place)
            || is_deadline_of_its_stream(plan, moved, place)
    };
    all_places(plan).filter(is_listed).collect()
}

pub fn is_own(moved: usize, place: &Place) -> bool {
    place.leg == moved
}

/// An overlap of a later leg with the moved one. Those with earlier legs are the moved leg's own.
pub fn is_overlap_with(moved: usize, place: &Place) -> bool {
    place.place == OVERLAPS + moved as u32
}

pub fn is_next_hop(plan: &Plan, moved: usize, place: &Place) -> bool {
    let follows = place.leg == moved + 1 && plan.legs[place.leg].stream == plan.legs[moved].stream;
    follows && place.place == HOP as u32
}

/// It stands at the last leg of the stream, whichever leg of the stream was moved.
pub fn is_deadline_of_its_stream(plan: &Plan, moved: usize, place: &Place) -> bool {
    place.leg == last_of_its_stream(plan, moved) && place.place == DEADLINE as u32
}

fn stream_of(plan: &Plan, leg: usize) -> &Stream {
    &plan.streams[plan.legs[leg].stream as usize]
}

pub fn first_of_its_stream(plan: &Plan, leg: usize) -> usize {
    stream_of(plan, leg).first_leg as usize
}

pub fn last_of_its_stream(plan: &Plan, leg: usize) -> usize {
    let stream = stream_of(plan, leg);
    (stream.first_leg + stream.leg_count - 1) as usize
}

// ---- Looking

/// Whether the rule of a place holds there. The moved leg is at hand so that a wrong rechecker can pass places over.
pub fn holds(r: &Rechecker, plan: &Plan, _moved: usize, place: Place) -> bool {
    r.checker.holds(plan, place.leg, place.place)
}

/// Looks at places one after the other, up to the first that is violated.
pub fn look(r: &Rechecker, plan: &Plan, moved: usize, places: &[Place]) -> Answer {
    match places.iter().position(|&place| !(r.holds)(r, plan, moved, place)) {
        Some(at) => violated(r, places[at], at + 1),
        None => nothing_violated(places.len()),
    }
}

/// The rule of a place is violated; so many places were looked at, that one included.
pub fn violated(r: &Rechecker, Place { leg, place }: Place, number: usize) -> Answer {
    let result = r.checker.rules()[rule_at(place).0].result;
    Answer { result, number: number as u32, leg: leg as u32, place }
}

pub fn nothing_violated(number: usize) -> Answer {
    Answer { result: NOTHING_VIOLATED, number: number as u32, leg: 0, place: 0 }
}

// ---- Beside a whole check

/// A rule and the place where it is violated, or nothing violated. The number of places looked at is no part of it.
pub type Verdict = Option<(u32, Place)>;

/// The verdict of an answer that is no refusal.
pub fn verdict(answer: &Answer) -> Verdict {
    let Answer { result, leg, place, .. } = *answer;
    Some((result, Place { leg: leg as usize, place })).filter(|_| result != NOTHING_VIOLATED)
}

/// The verdict of a whole check of a well-formed plan.
pub fn whole_verdict(plan: &Plan) -> Verdict {
    let checked = whole(&Plain, plan);
    let place = Place { leg: checked.cursor.leg as usize, place: checked.cursor.place };
    Some((checked.result, place)).filter(|_| checked.result != NOTHING_VIOLATED)
}
