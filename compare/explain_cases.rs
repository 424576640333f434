//! The calls of a run that explain tables, in batches. A batch depends on the seed and its number alone.

use crate::admit_cases::damaged_file;
use crate::chance::Batch;
use crate::check::{places_of, Checker, Plain};
use crate::drafts::{accepted, accepted_a, large, medium, plan_a, to_an_edge};
use crate::explain::{answer, told, Answer, Call, Kind, Told, KINDS, RIGHT};
use crate::explain_drafts::{some_leg, some_other, some_table};
use crate::format::{plan_bytes, Plan};
use crate::paper::{HOP, LIMITS, OVERLAPS, WINDOW};
use std::sync::Arc;

/// The tables of a batch: well-formed ones, and then some that are refused, mostly. Every twentieth batch has a large one too.
pub const BATCH: usize = WELL_FORMED + BENT;
const WELL_FORMED: usize = 100;
const BENT: usize = 28;

/// A driver lends so many words at the most.
const MOST_WORDS: usize = 30_000;

/// A call, and what the plain explainer answers and tells.
pub struct Case {
    pub call: Call,
    pub answer: Answer,
    pub expected: Told,
}

impl Case {
    fn new(call: Call) -> Case {
        let answer = answer(&RIGHT, &call);
        let expected = told(answer.clone(), &call);
        Case { call, answer, expected }
    }

    /// So many words are lent for the places of a survey: those of one more than there are, as far as a driver lends so many.
    pub fn room(&self) -> usize {
        if self.call.kind == Kind::Survey {
            (self.expected.places.len() + 3).min(MOST_WORDS)
        } else {
            0
        }
    }
}

pub fn batch(seed: u64, number: u64) -> Vec<Case> {
    let mut batch = Batch::<Case>::new(seed, number);
    if number == 0 {
        batch.of_the_paper();
    }
    for _ in 0..WELL_FORMED {
        let plan = some_table(&mut batch.chance);
        batch.table(plan);
    }
    (0..BENT).for_each(|_| batch.bent());
    if number % 20 == 0 {
        let plan = large(&mut batch.chance);
        batch.table(plan);
    }
    batch.cases
}

impl Batch<Case> {
    fn make(&mut self, kind: Kind, plan: &Arc<[u8]>, leg: u32, second: u32) {
        self.cases.push(Case::new(Call { kind, plan: plan.clone(), leg, second }));
    }

    /// Margin and nearest offsets of a place, and where it is an overlap the meeting too.
    fn ask(&mut self, plan: &Arc<[u8]>, leg: u32, place: u32) {
        self.make(Kind::Margin, plan, leg, place);
        self.make(Kind::Nearest, plan, leg, place);
        if place >= OVERLAPS {
            self.make(Kind::Meeting, plan, leg, place - OVERLAPS);
        }
    }

    /// Questions on a table, and on the same one with a leg at the edge of a rule.
    fn table(&mut self, mut plan: Plan) {
        if Plain.judge(&plan).is_err() || plan.legs.is_empty() {
            self.ask(&plan_bytes(&plan).into(), 0, WINDOW as u32);
            return;
        }
        let bytes: Arc<[u8]> = plan_bytes(&plan).into();
        // Each slice reads the plan again, so a large one has few.
        let budget = if plan.legs.len() > 40 { 1_000_000 } else { self.chance.of(&[1, 2, 7, 100, 1_000_000]) };
        self.make(Kind::Survey, &bytes, 0, budget);
        for _ in 0..3 {
            self.pair(&bytes, &plan);
        }
        let leg = some_leg(&mut self.chance, &plan);
        let place = self.chance.from_to(WINDOW as u32, OVERLAPS - 1);
        self.ask(&bytes, leg as u32, place);
        let hop = (0..plan.legs.len())
            .rev()
            .find(|&leg| leg as u32 != plan.streams[plan.legs[leg].stream as usize].first_leg);
        if let Some(leg) = hop.filter(|_| self.chance.one_in(2)) {
            self.ask(&bytes, leg as u32, HOP as u32);
        }
        let (leg, place) = to_an_edge(&mut self.chance, &mut plan);
        self.ask(&plan_bytes(&plan).into(), leg, place);
    }

    /// Two legs, mostly of one link, and the place of their overlap.
    fn pair(&mut self, bytes: &Arc<[u8]>, plan: &Plan) {
        let leg = some_leg(&mut self.chance, plan);
        if self.chance.one_in(2) {
            if let Some(other) = some_other(&mut self.chance, plan, leg, true) {
                self.ask(bytes, leg as u32, OVERLAPS + other as u32);
            }
        } else if let Some(other) = some_other(&mut self.chance, plan, leg, false) {
            let other = if self.chance.one_in(30) { leg } else { other };
            self.make(Kind::Meeting, bytes, leg as u32, other as u32);
        }
    }

    /// Plan A and what one counts by hand of it, and files that are no plans.
    fn of_the_paper(&mut self) {
        for plan in [plan_a(), accepted_a()] {
            let bytes: Arc<[u8]> = plan_bytes(&plan).into();
            for leg in 0..5 {
                (0..6).for_each(|place| self.ask(&bytes, leg, place));
            }
            self.make(Kind::Survey, &bytes, 0, 1);
        }
        for bytes in [&[0; 5][..], &[], &[0x80, 0]] {
            for kind in KINDS {
                self.make(kind, &bytes.into(), 0, 0);
            }
        }
    }

    /// A plan that is refused for something, or a leg or a place that is not there, or both.
    fn bent(&mut self) {
        let chance = &mut self.chance;
        let plan = if chance.one_in(4) { medium(chance) } else { accepted(chance, 6, true) };
        let (mut damaged, mut misread) = (0, false);
        match chance.below(8) {
            0 | 1 => {}
            2 => misread = true,
            _ => damaged = chance.of(&[1, 1, 2]),
        }
        let (legs, any) = (plan.legs.len() as u32, chance.any_size());
        let present = chance.from_to(0, legs.max(1) - 1);
        let absent = [legs, legs, legs + 1, present | 1 << 16, LIMITS.legs, u32::MAX, any.max(legs)];
        let leg = if chance.one_in(2) { present } else { chance.of(&absent) };
        let other = if chance.one_in(2) { chance.from_to(0, legs.max(1) - 1) } else { chance.of(&absent) };
        let places = places_of(leg.min(LIMITS.legs));
        let beyond = [places, places, places + 1, places | 1 << 16, u32::MAX, any.max(places)];
        let place = if chance.one_in(3) { chance.from_to(0, places - 1) } else { chance.of(&beyond) };
        let place = if leg == legs && chance.one_in(2) { 0 } else { place };
        let bytes: Arc<[u8]> = damaged_file(chance, plan, damaged, misread).into();
        self.make(Kind::Meeting, &bytes, leg, other);
        let kind = self.chance.of(&[Kind::Margin, Kind::Nearest]);
        self.make(kind, &bytes, leg, place);
        if self.chance.one_in(3) {
            self.make(Kind::Survey, &bytes, 0, 10);
        }
        if self.chance.one_in(40) {
            let empty = Plan { links: Vec::new(), streams: Vec::new(), legs: Vec::new(), ..plan_a() };
            let bytes: Arc<[u8]> = plan_bytes(&empty).into();
            KINDS.into_iter().for_each(|kind| self.make(kind, &bytes, 0, 0));
        }
    }
}
