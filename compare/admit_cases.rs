//! The admissions of a run, in batches. A batch depends on the seed and its number alone.

use crate::admit::{answer, enlarge, Answer, Call, Wanted, ADMITTED, NONE_YET, NO_SLOT, RIGHT};
use crate::admit_drafts::{along, full, lined, of_a_file, usual, Draft, SMALL};
use crate::chance::{Batch, Chance};
use crate::check::{whole, Checker, Plain};
use crate::damage::{above_a_limit, any_bytes, bend_route, damage_bytes, damage_table, double_links, shift_legs};
use crate::drafts::{longest_deadline, to_an_edge};
use crate::format::{encoded, is_whole, plan_bytes, Layout, Leg, Plan};
use crate::paper::{LIMITS, NOTHING_VIOLATED, NUMBER_BYTES, REFUSED};
use std::sync::Arc;

/// The streams of a batch: small ones first, then some that are refused for something, some of usual periods, and at last
/// one on a plan of a file or at the limits.
pub const BATCH: usize = SMALLS + BENT + USUAL + 1;
const SMALLS: usize = 45;
const BENT: usize = 12;
const USUAL: usize = 6;

/// A call, and what the plain admitter answers.
pub struct Case {
    pub call: Call,
    pub expected: Answer,
    /// Of a piece of an admission, the whole one's place in the batch.
    pub piece_of: Option<usize>,
}

pub fn batch(seed: u64, number: u64) -> Vec<Case> {
    let mut batch = Batch::<Case>::new(seed, number);
    for at in 0..SMALLS {
        let draft = SMALL[at % SMALL.len()](&mut batch.chance);
        batch.admit(draft);
    }
    (0..BENT).for_each(|_| batch.bent());
    for _ in 0..USUAL {
        let draft = usual(&mut batch.chance);
        batch.admit(draft);
    }
    let draft = if number % 2 == 0 { of_a_file(&mut batch.chance) } else { full(&mut batch.chance) };
    batch.admit(draft);
    batch.cases
}

/// The bytes that have to be lent for a new plan.
fn needed(plan: &Plan, wanted: &Wanted) -> usize {
    NUMBER_BYTES * enlarge(plan, wanted).words().len()
}

impl Batch<Case> {
    /// Makes a call, and gives its place in the batch.
    fn make(&mut self, call: Call, piece_of: Option<usize>) -> usize {
        let expected = answer(&RIGHT, &call);
        self.cases.push(Case { call, expected, piece_of });
        self.cases.len() - 1
    }

    /// A whole admission and, mostly, some of offsets between two.
    fn admit(&mut self, Draft { plan, wanted }: Draft) {
        let length = needed(&plan, &wanted) + self.chance.of(&[0, 0, 1, 40]);
        let new_plan = self.chance.bytes(length);
        let (plan, wanted) = (plan_bytes(&plan).into(), Arc::new(wanted));
        let at = self.make(Call { plan, wanted, between: None, new_plan }, None);
        if self.cases[at].expected.result >= REFUSED && self.chance.one_in(2) {
            return;
        }
        match self.chance.below(4) {
            0 => self.in_pieces(at),
            1 | 2 => self.between(at),
            _ => {}
        }
    }

    /// The whole call at this place, between two offsets.
    fn part(&mut self, at: usize, from: u32, until: u32, piece_of: Option<usize>) -> u32 {
        let call = Call { between: Some((from, until)), ..self.cases[at].call.clone() };
        let part = self.make(call, piece_of);
        self.cases[part].expected.result
    }

    /// One piece after the other, until one gives more than 'none yet'.
    fn in_pieces(&mut self, at: usize) {
        let (offset, period) = (self.cases[at].expected.offset, self.cases[at].call.wanted.period);
        let mut cuts: Vec<u32> = (0..self.chance.below(4)).map(|_| self.chance.from_to(0, period)).collect();
        let near = [offset, offset.saturating_add(1), period - 1, period];
        cuts.extend(near.into_iter().filter(|_| self.chance.one_in(3)));
        cuts.sort_unstable();
        cuts.push(self.chance.of(&[period, period.saturating_add(1), u32::MAX]));
        let mut from = 0;
        for until in cuts {
            if self.part(at, from, until, Some(at)) != NONE_YET {
                return;
            }
            from = until;
        }
    }

    /// From and until at what was found, at the period, the wrong way round, or anywhere.
    fn between(&mut self, at: usize) {
        let (offset, period) = (self.cases[at].expected.offset, self.cases[at].call.wanted.period);
        let any = [(); 2].map(|_| self.chance.from_to(0, period.saturating_add(1)));
        let (from, until) = match self.chance.below(12) {
            0 => (0, offset),
            1 => (0, offset + 1),
            2 => (offset, offset + 1),
            3 => (offset, period),
            4 => (offset + 1, period),
            5 => (offset + 1, any[0].saturating_add(offset + 1)),
            6 => (offset + 1, offset),
            7 => (offset, offset),
            8 => (period - 1, self.chance.of(&[period - 1, period, period.saturating_add(1)])),
            9 => (self.chance.of(&[period, u32::MAX]), self.chance.of(&[0, period - 1, period, u32::MAX])),
            10 => (0, self.chance.of(&[0, period - 1, period])),
            _ => (any[0], any[1]),
        };
        self.part(at, from, until, None);
    }

    // ---- What is refused

    /// A call with one thing wrong with it or several, so that their order shows.
    fn bent(&mut self) {
        let chance = &mut self.chance;
        let Draft { mut plan, mut wanted } = lined(chance);
        let (mut short, mut damaged, mut misread) = (false, 0, false);
        for _ in 0..chance.of(&[1, 1, 2, 2, 3]) {
            match chance.below(14) {
                0 | 1 => misread = true,
                2 | 3 => damaged += chance.of(&[1, 1, 2]),
                4 => plan.revision = u32::MAX,
                5..=8 => bend_stream(chance, &plan, &mut wanted),
                9 | 10 => short = true,
                11 => wanted.deadline = wanted.deadline.min(1),
                _ => violate(chance, &mut plan),
            }
        }
        if chance.one_in(40) {
            plan = Plan { links: Vec::new(), streams: Vec::new(), legs: Vec::new(), ..plan };
        }
        let bytes = damaged_file(chance, plan, damaged, misread);
        // Where the plan does not read, any length will do.
        let (old, needed) = Plain.read_plan(&bytes).map_or((300, 400), |plan| {
            let ready = plan_bytes(&enlarge(&plan, &wanted)).len();
            (chance.of(&[NUMBER_BYTES * plan.words().len(), ready, ready + 2]), needed(&plan, &wanted))
        });
        let length = match chance.below(6) {
            _ if !short => needed + chance.of(&[0, 0, 0, 1, 9]),
            0 => old,
            1 => chance.below(needed),
            2 => 0,
            _ => needed - 1,
        };
        let new_plan = chance.bytes(length.min(100_000));
        let any = [(); 2].map(|_| chance.of(&[0, 1, 700, 3_000, u32::MAX]));
        let between = Some((any[0], any[1])).filter(|_| chance.one_in(3));
        self.make(Call { plan: bytes.into(), wanted: Arc::new(wanted), between, new_plan }, None);
    }
}

/// The file of a plan, its table damaged so many times, and now and then its bytes.
pub fn damaged_file(chance: &mut Chance, mut plan: Plan, damaged: u32, misread: bool) -> Vec<u8> {
    let mut words_too = 0;
    for _ in 0..damaged {
        match chance.below(8) {
            0 => bend_route(chance, &mut plan),
            1 => shift_legs(chance, &mut plan),
            2 => double_links(chance, &mut plan),
            3 => plan.legs.iter_mut().take(1).for_each(|leg| leg.periods = LIMITS.periods + 1),
            _ => words_too += 1,
        }
    }
    let mut words = plan.words();
    for _ in 0..words_too {
        // A header that no longer fits the rest is damaged enough.
        if is_whole(&words) {
            damage_table(chance, &mut words);
        }
    }
    let mut bytes = encoded(&words);
    if misread {
        match chance.below(8) {
            0 => bytes = any_bytes(chance),
            1 | 2 => bytes = above_a_limit(chance, Layout::Second),
            _ => damage_bytes(chance, &mut bytes),
        }
    }
    bytes
}

/// Takes a table to the edge of rules until one is violated, or lets two legs on one link start at once.
pub fn violate(chance: &mut Chance, plan: &mut Plan) {
    if chance.one_in(2) && !plan.legs.is_empty() {
        let at = chance.below(plan.legs.len());
        let beside: Vec<Leg> = plan.legs[..at].iter().filter(|leg| leg.link == plan.legs[at].link).copied().collect();
        if !beside.is_empty() {
            // A period later its hop holds.
            let leg = &mut plan.legs[at];
            *leg = Leg { offset: chance.of(&beside).offset, periods: (leg.periods + 1).min(LIMITS.periods), ..*leg };
        }
    }
    for _ in 0..8 {
        if whole(&Plain, plan).result != NOTHING_VIOLATED {
            return;
        }
        to_an_edge(chance, plan);
    }
}

/// Takes a stream to the edge of one of its limits, on its right side or on its wrong one, or spoils its route.
fn bend_stream(chance: &mut Chance, plan: &Plan, wanted: &mut Wanted) {
    let (links, most) = (plan.links.len() as u32, LIMITS.route.1);
    match chance.below(12) {
        0 => wanted.route.clear(),
        1 => wanted.route = along(plan, 0..chance.of(&[most, most + 1])),
        2 => wanted.route = vec![chance.below(plan.links.len()) as u32; chance.of(&[20, 2_048, 2_049, 9_000])],
        3 => {
            let link = chance.of(&[links, links, links + 1, links | 1 << 16, links - 1, u32::MAX]);
            let at = chance.below(wanted.route.len() + 1);
            wanted.route.truncate(at);
            wanted.route.push(link);
        }
        4 => {
            let route = along(plan, 0..most);
            let (at, cut) = (1 + chance.below(6), chance.below(2));
            wanted.route = [&route[..at], &route[(at + 1 + cut).min(7)..]].concat();
        }
        5 => wanted.route.reverse(),
        6 | 7 => {
            // Along the line, and back to its first node, or to the one after it.
            let (last, to) = (chance.from_to(2, most - 1), chance.from_to(0, 1));
            let back = plan.links.iter().position(|link| (link.from, link.to) == (last, to));
            wanted.route = along(plan, 0..last);
            wanted.route.push(back.expect("there are links back") as u32);
        }
        8 => {
            wanted.period = chance.of(&[0, 1, LIMITS.period.1, LIMITS.period.1 + 1, u32::MAX]);
            wanted.deadline = wanted.deadline.min(longest_deadline(wanted.period.max(1)));
        }
        9 => {
            let longest = longest_deadline(wanted.period);
            wanted.deadline = chance.of(&[0, longest, longest.saturating_add(1), longest.saturating_add(2), u32::MAX]);
        }
        10 => wanted.octets = chance.of(&[0, LIMITS.octets.0 - 1, LIMITS.octets.0]),
        _ => wanted.octets = chance.of(&[LIMITS.octets.1, LIMITS.octets.1 + 1, 65_536 + 64, u32::MAX]),
    }
}

/// Whether a call asks for all offsets and found one, or found that there is none.
pub fn is_admission(case: &Case) -> bool {
    let result = case.expected.result;
    case.call.between.is_none() && (result == ADMITTED || result == REFUSED + NO_SLOT)
}
