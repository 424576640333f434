//! The rechecks of a run, in batches. A batch depends on the seed and its number alone.

use crate::admit_cases::{damaged_file, violate};
use crate::admit_drafts::lined;
use crate::chance::Batch;
use crate::check::{whole, Checker, Plain};
use crate::drafts::{accepted, accepted_a, beyond, medium, one_link, plan_a, row, small, to_an_edge};
use crate::format::{plan_bytes, Plan};
use crate::paper::{LIMITS, NOTHING_VIOLATED, REFUSED};
use crate::recheck::{answer, Answer, Call, RIGHT};
use crate::recheck_drafts::{large, move_leg, some_leg, some_table};

/// The tables of a batch: accepted ones first, then some that are not, and some that are refused. Every fourth batch has a
/// large one too, and the first one those of the paper.
pub const BATCH: usize = ACCEPTED + OTHERS + BENT;
const ACCEPTED: usize = 104;
const OTHERS: usize = 12;
const BENT: usize = 12;

/// What is known of the table before the move.
#[derive(Clone, Copy, Debug, PartialEq, Eq, PartialOrd, Ord)]
pub enum Before {
    /// A whole check of it found nothing violated.
    Accepted,
    /// It comes from such a table by moves, each rechecked and clean.
    Clean,
    /// It comes so, but for the last moves, which were of this very leg and violated something.
    SameLeg,
    /// Another leg was moved than the one that is rechecked, or something was violated before.
    NotAccepted,
    /// Nothing: the plan may be refused.
    Unknown,
}

impl Before {
    /// Whether the table was accepted, but for the leg that is rechecked.
    pub fn has_premise(self) -> bool {
        matches!(self, Before::Accepted | Before::Clean | Before::SameLeg)
    }
}

/// A call, and what the plain rechecker answers.
pub struct Case {
    pub call: Call,
    pub expected: Answer,
    pub before: Before,
    /// Offset and period word of the leg before the move, where there was one.
    pub moved_from: Option<(u32, u32)>,
}

pub fn batch(seed: u64, number: u64) -> Vec<Case> {
    let mut batch = Batch::<Case>::new(seed, number);
    if number == 0 {
        batch.of_the_paper();
    }
    for _ in 0..ACCEPTED {
        let plan = some_table(&mut batch.chance);
        batch.table(plan);
    }
    for _ in 0..OTHERS {
        let plan = batch.not_accepted();
        batch.table(plan);
    }
    (0..BENT).for_each(|_| batch.bent());
    if number % 4 == 0 {
        let plan = large(&mut batch.chance);
        batch.table(plan);
    }
    batch.cases
}

/// The two words of a leg that a move sets.
fn words(plan: &Plan, leg: usize) -> (u32, u32) {
    (plan.legs[leg].offset, plan.legs[leg].periods)
}

impl Batch<Case> {
    fn make(&mut self, plan: Vec<u8>, leg: u32, before: Before, moved_from: Option<(u32, u32)>) -> Answer {
        let call = Call { plan: plan.into(), leg };
        let expected = answer(&RIGHT, &call);
        self.cases.push(Case { call, expected, before, moved_from });
        expected
    }

    /// Moves a leg and rechecks it. Says whether nothing is violated there.
    fn moved(&mut self, plan: &mut Plan, leg: usize, before: Before) -> bool {
        let from = words(plan, leg);
        move_leg(&mut self.chance, plan, leg);
        self.make(plan_bytes(plan), leg as u32, before, Some(from)).result == NOTHING_VIOLATED
    }

    /// Rechecks of moves of a table, one after the other.
    fn table(&mut self, mut plan: Plan) {
        if Plain.judge(&plan).is_err() || plan.legs.is_empty() {
            let leg = self.chance.any_size() % (2 * LIMITS.legs);
            self.make(plan_bytes(&plan), leg, Before::Unknown, None);
        } else if whole(&Plain, &plan).result == NOTHING_VIOLATED {
            self.chain(&mut plan);
        } else {
            for _ in 0..3 {
                let leg = some_leg(&mut self.chance, &plan);
                self.moved(&mut plan, leg, Before::NotAccepted);
            }
        }
    }

    /// Moves of an accepted table: any leg after a clean one, and after one that violates something the same leg again. At
    /// last another leg may be rechecked than the one that was moved.
    fn chain(&mut self, plan: &mut Plan) {
        let mut leg = some_leg(&mut self.chance, plan);
        let mut clean = self.moved(plan, leg, Before::Accepted);
        for _ in 0..self.chance.of(&[0, 0, 1, 2, 6]) {
            let before = if clean { Before::Clean } else { Before::SameLeg };
            leg = if clean { some_leg(&mut self.chance, plan) } else { leg };
            clean = self.moved(plan, leg, before);
        }
        if self.chance.one_in(4) {
            let other = some_leg(&mut self.chance, plan);
            let before = match (clean, other == leg) {
                (true, _) => Before::Clean,
                (false, true) => Before::SameLeg,
                (false, false) => Before::NotAccepted,
            };
            self.moved(plan, other, before);
        }
        if self.chance.one_in(8) {
            move_leg(&mut self.chance, plan, leg);
            let other = some_leg(&mut self.chance, plan) as u32;
            self.make(plan_bytes(plan), other, Before::NotAccepted, None);
        }
    }

    /// Plan A with leg 2 behind leg 0, which is accepted, and moves of it; and files that are no plans.
    fn of_the_paper(&mut self) {
        let plan = accepted_a();
        let moves =
            [(0, 0), (0, 1), (0, 600), (0, 672), (0, 49_328), (1, 1_175), (1, 1_176), (1, 1_177), (2, 671), (2, 672)];
        let more = [(2, 0), (2, 576), (2, 49_328), (2, 49_329), (2, 50_000), (2, u32::MAX)];
        for (leg, offset) in moves.into_iter().chain(more) {
            let from = words(&plan, leg);
            let mut moved = plan.clone();
            moved.revision += 1;
            moved.legs[leg].offset = offset;
            self.make(plan_bytes(&moved), leg as u32, Before::Accepted, Some(from));
        }
        for leg in 0..5 {
            self.make(plan_bytes(&plan_a()), leg, Before::Unknown, None);
        }
        for bytes in [&[0; 5][..], &[], &[0x80, 0]] {
            self.make(bytes.to_vec(), 0, Before::Unknown, None);
        }
    }

    /// A table in which something is violated, mostly.
    fn not_accepted(&mut self) -> Plan {
        let chance = &mut self.chance;
        let mut plan = match chance.below(8) {
            0 => medium(chance),
            1 => row(chance),
            2 => one_link(chance),
            3 | 4 => small(chance),
            _ => accepted(chance, 8, true),
        };
        match chance.below(4) {
            0 => beyond(chance, &mut plan),
            1 => drop(to_an_edge(chance, &mut plan)),
            _ => violate(chance, &mut plan),
        }
        plan
    }

    /// A plan that is refused for something, or a leg that is not there, or both.
    fn bent(&mut self) {
        let chance = &mut self.chance;
        let plan = if chance.one_in(2) { lined(chance).plan } else { accepted(chance, 6, true) };
        let (mut damaged, mut misread) = (0, false);
        match chance.below(8) {
            0 => {}
            1 | 2 => misread = true,
            _ => damaged = chance.of(&[1, 1, 2]),
        }
        let (legs, any) = (plan.legs.len() as u32, chance.any_size());
        let present = chance.from_to(0, legs.max(1) - 1);
        let absent = [legs, legs, legs + 1, legs + 2, present | 1 << 16, LIMITS.legs, u32::MAX, any.max(legs)];
        let leg = if chance.one_in(3) { present } else { chance.of(&absent) };
        let bytes = damaged_file(chance, plan, damaged, misread);
        self.make(bytes, leg, Before::Unknown, None);
        if self.chance.one_in(40) {
            let empty = Plan { links: Vec::new(), streams: Vec::new(), legs: Vec::new(), ..plan_a() };
            self.make(plan_bytes(&empty), leg, Before::Unknown, None);
        }
    }
}

/// Whether a call was refused.
pub fn is_refused(answer: &Answer) -> bool {
    answer.result > REFUSED
}
