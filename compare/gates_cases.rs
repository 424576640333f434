//! The calls for gate lists of a run, in batches. A batch depends on the seed and its number alone.

use crate::admit::NOT_ACCEPTED;
use crate::admit_cases::{damaged_file, violate};
use crate::admit_drafts::{lined, shuffle};
use crate::chance::{Batch, Chance};
use crate::check::{Checker, Plain};
use crate::damage::{any_bytes, damage_bytes};
use crate::drafts::{accepted_a, medium, plan_a, row, small, to_an_edge};
use crate::format::{encoded, plan_bytes, Plan};
use crate::gates::{
    answer, is_accepted, Answer, Asked, Call, HELD, IDLE, LONG_CYCLE, MANY_PAIRS, MOST_CYCLE, MOST_PAIRS, NO_LINK,
    PAIR_WORDS, RIGHT,
};
use crate::gates_drafts::{both_limits, large, long_cycle, many_pairs, without_legs, SMALL};
use crate::gates_quick::{beyond, cycle, file_of, on_link};
use crate::gates_seen::{together, AFTER_SHAPE, OF_SHAPE};
use crate::paper::{
    ABOVE_LIMIT, BAD_FORM, ENDS_EARLY, GRANTED, LEFT_OVER, LEG_WRONG, LIMITS, LINK_RANGE, LINK_TWICE, NO_ROOM,
    STREAM_WRONG,
};
use std::sync::Arc;

/// The tables of a batch: those with short cycles first, then some near the limits, some without legs, some that are not
/// accepted, and some that are refused for several things at once. Every fourth batch has a large one too, and the first one
/// those of the paper. Besides, each batch has list files that are read.
pub const BATCH: usize = SMALLS + NEAR_LIMITS + WITHOUT_LEGS + OTHERS + BENT;
const SMALLS: usize = 160;
const NEAR_LIMITS: usize = 18;
const WITHOUT_LEGS: usize = 2;
const OTHERS: usize = 12;
const BENT: usize = 64;
const READ: usize = 60;
/// Of a table so many links are asked for at the most.
const MOST_LINKS: usize = 5;
/// No longer buffer is lent.
const MOST_ROOM: usize = 40_000;

/// A call, and what the plain teller answers.
pub struct Case {
    pub call: Call,
    pub expected: Answer,
    /// The refusals after the shape that are due, whichever of them is told. Of a damaged plan: those due before the damage.
    pub due: Vec<u32>,
}

pub fn batch(seed: u64, number: u64) -> Vec<Case> {
    let mut batch = Batch::<Case>::new(seed, number);
    if number == 0 {
        batch.of_the_paper();
    }
    for at in 0..SMALLS {
        let plan = SMALL[at % SMALL.len()](&mut batch.chance);
        batch.table(&plan);
    }
    for at in 0..NEAR_LIMITS {
        let plan = [long_cycle, many_pairs][at % 2](&mut batch.chance);
        batch.table(&plan);
    }
    for _ in 0..WITHOUT_LEGS {
        let plan = without_legs(&mut batch.chance);
        batch.table(&plan);
    }
    for _ in 0..OTHERS {
        let plan = not_accepted(&mut batch.chance);
        batch.table(&plan);
    }
    (0..BENT).for_each(|_| batch.bent());
    (0..READ).for_each(|_| batch.any_file());
    // Not the first one, in which all that is wrong is still at large.
    if number % 4 == 3 {
        let plan = large(&mut batch.chance);
        batch.table(&plan);
    }
    batch.cases
}

/// What is known of a link of a well-formed plan, whatever is refused.
pub struct Facts {
    /// None where no leg is on it, and where it is far beyond the limit.
    pub cycle: Option<u64>,
    /// None where the cycle has too many holds to be told.
    pub pairs: Option<usize>,
    pub bytes: usize,
    pub has_legs: bool,
}

impl Facts {
    pub fn of(plan: &Plan, link: u32) -> Facts {
        let legs = on_link(plan, link);
        let list = if legs.is_empty() { Some(Vec::new()) } else { beyond(&legs) };
        let bytes = list.as_ref().map_or(0, |list| file_of(list).len());
        Facts { cycle: cycle(&legs), pairs: list.map(|list| list.len()), bytes, has_legs: !legs.is_empty() }
    }

    fn due(&self, plan: &Plan, link: u32, room: usize) -> Vec<u32> {
        let is_long = self.has_legs && self.cycle.map_or(true, |cycle| cycle > MOST_CYCLE);
        let all = [
            (link as usize >= plan.links.len(), NO_LINK),
            (!is_accepted(&Plain, plan), NOT_ACCEPTED),
            (is_long, LONG_CYCLE),
            (self.pairs.map_or(false, |pairs| pairs > MOST_PAIRS), MANY_PAIRS),
            (self.has_legs && room < self.bytes.max(PAIR_WORDS), NO_ROOM),
        ];
        all.into_iter().filter(|(is_due, _)| *is_due).map(|(_, number)| number).collect()
    }
}

/// A table in which something is violated, mostly.
fn not_accepted(chance: &mut Chance) -> Plan {
    let mut plan = match chance.below(8) {
        0 => medium(chance),
        1 => row(chance),
        2 => small(chance),
        3 => lined(chance).plan,
        at => SMALL[at](chance),
    };
    match chance.below(4) {
        0 => drop(to_an_edge(chance, &mut plan)),
        _ if Plain.judge(&plan).is_ok() => violate(chance, &mut plan),
        _ => {}
    }
    plan
}

/// A table of one of these families.
fn some_of(chance: &mut Chance, families: &[fn(&mut Chance) -> Plan]) -> Plan {
    let family = chance.of(families);
    family(chance)
}

/// The file of a plan, to which one thing was done for which it is refused with this number.
fn misshaped(chance: &mut Chance, mut plan: Plan, number: u32) -> Vec<u8> {
    let (links, streams, legs) = (plan.links.len(), plan.streams.len(), plan.legs.len());
    match number {
        LINK_RANGE if links > 0 => {
            let link = &mut plan.links[chance.below(links)];
            match chance.below(4) {
                0 => link.ns_per_octet = chance.of(&[0, 1, 7, 9, 79, 81, 799, 801]),
                1 => link.propagation = LIMITS.propagation + 1,
                2 => link.to = link.from,
                _ => link.from = LIMITS.node + 1,
            }
        }
        LINK_TWICE if links > 0 => {
            let twin = plan.links[chance.below(links)];
            plan.links.push(twin);
        }
        STREAM_WRONG if streams > 0 => {
            let stream = &mut plan.streams[chance.below(streams)];
            match chance.below(4) {
                0 => stream.octets = chance.of(&[LIMITS.octets.0 - 1, LIMITS.octets.1 + 1]),
                1 => stream.period = chance.of(&[0, LIMITS.period.1 + 1]),
                2 => stream.deadline = 0,
                _ => stream.first_leg += 1,
            }
        }
        LEG_WRONG if legs > 0 => {
            let leg = &mut plan.legs[chance.below(legs)];
            match chance.below(3) {
                0 => leg.periods = LIMITS.periods + 1,
                1 => leg.link = links as u32,
                _ => leg.stream += 1,
            }
        }
        _ => {}
    }
    let mut words = plan.words();
    if number == ABOVE_LIMIT {
        let (at, most) = chance.of(&[(1, LIMITS.links), (2, LIMITS.streams), (3, LIMITS.legs), (4, LIMITS.precision)]);
        words[at] = most + 1;
    }
    let mut bytes = encoded(&words);
    match number {
        ENDS_EARLY => bytes.truncate(bytes.len() - 1 - chance.below(3)),
        BAD_FORM => {
            let at = chance.below(words.len());
            let before = encoded(&words[..at]).len();
            bytes.splice(
                before..before,
                chance.of(&[&[0x80, 0][..], &[0xFF, 0xFF, 0xFF, 0xFF, 0x10], &[0x81, 0x80, 0]]).iter().copied(),
            );
        }
        LEFT_OVER => bytes.extend(chance.of(&[&[0][..], &[0x80], &[1, 2, 3]])),
        _ => {}
    }
    bytes
}

/// The link that most legs are on.
fn fullest(plan: &Plan) -> u32 {
    let legs_on = |link: &u32| plan.legs.iter().filter(|leg| leg.link == *link).count();
    (0..plan.links.len() as u32).max_by_key(legs_on).unwrap_or(0)
}

/// A link that is not there.
fn some_absent(chance: &mut Chance, plan: &Plan) -> u32 {
    let links = plan.links.len() as u32;
    let present = chance.from_to(0, links.max(1) - 1);
    let any = chance.any_size().max(links);
    chance.of(&[links, links, links + 1, present | 1 << 8, present | 1 << 16, 1 << 31, u32::MAX, any]).max(links)
}

/// The sides of a room: just enough, more, less, and none.
fn some_room(chance: &mut Chance, needed: usize) -> usize {
    let less = chance.below(needed + 1);
    let room = match chance.below(8) {
        0..=2 => needed,
        3 | 4 => needed + chance.of(&[1, 2, 40]),
        5 => needed + 500,
        6 => needed.saturating_sub(1),
        _ => chance.of(&[0, less]),
    };
    room.min(MOST_ROOM)
}

impl Batch<Case> {
    fn make(&mut self, call: Call, due: Vec<u32>) -> &Answer {
        let expected = answer(&RIGHT, &call);
        self.cases.push(Case { call, expected, due });
        &self.cases[self.cases.len() - 1].expected
    }

    /// Asks for the list of a link, and now and then reads it back.
    fn gates(&mut self, file: Arc<[u8]>, link: u32, room: usize, due: Vec<u32>) {
        let list = self.chance.bytes(room);
        let call = Call { asked: Asked::Gates(link), file, list, words: Vec::new() };
        let written = self.make(call, due);
        if written.result == GRANTED {
            let file = written.list[..written.number as usize].to_vec();
            if self.chance.one_in(3) {
                self.read(file);
            }
        }
    }

    /// Reads a list file into words, mostly as many as it has.
    fn read(&mut self, file: Vec<u8>) {
        let count = file.iter().filter(|byte| **byte < 0x80).count();
        let room = some_room(&mut self.chance, count);
        let words = (0..room).map(|_| self.chance.word()).collect();
        self.make(Call { asked: Asked::Read, file: file.into(), list: Vec::new(), words }, Vec::new());
    }

    /// Asks for links of a table: for those with legs, or for some of many, and now and then for one without legs and for one
    /// that is not there.
    fn table(&mut self, plan: &Plan) {
        let file: Arc<[u8]> = plan_bytes(plan).into();
        let links = plan.links.len() as u32;
        let is_used = |link: &u32| plan.legs.iter().any(|leg| leg.link == *link);
        let (mut asked, unused): (Vec<u32>, Vec<u32>) = (0..links).partition(is_used);
        shuffle(&mut self.chance, &mut asked);
        asked.truncate(MOST_LINKS);
        if !unused.is_empty() && (asked.is_empty() || self.chance.one_in(4)) {
            asked.push(self.chance.of(&unused));
        }
        if links == 0 || self.chance.one_in(20) {
            asked.push(some_absent(&mut self.chance, plan));
        }
        for link in asked {
            self.link(plan, file.clone(), link);
        }
    }

    /// Asks for one link of a plan, which may be none.
    fn link(&mut self, plan: &Plan, file: Arc<[u8]>, link: u32) {
        if Plain.judge(plan).is_err() {
            return self.gates(file, link, 100, Vec::new());
        }
        let facts = Facts::of(plan, link);
        let room = some_room(&mut self.chance, facts.bytes);
        self.gates(file, link, room, facts.due(plan, link, room));
    }

    /// Plan A, which is not accepted; with leg 2 behind leg 0, which is; and files that are no plans.
    fn of_the_paper(&mut self) {
        for plan in [plan_a(), accepted_a()] {
            for link in 0..4 {
                for room in [0, 1, 7, 8, 9, 23, 24, 25, 26, 60] {
                    let due = Facts::of(&plan, link).due(&plan, link, room);
                    self.gates(plan_bytes(&plan).into(), link, room, due);
                }
            }
        }
        for bytes in [&[0; 5][..], &[], &[0x80, 0]] {
            self.gates(bytes.into(), 0, 0, Vec::new());
        }
        for bytes in [&[][..], &[0x80, 0x01], &[0x80, 0x01, 0x05], &[0x80], &[0x7F, 0x80, 0x00], &[0x7F, 0x80]] {
            self.read(bytes.to_vec());
        }
    }

    /// A call with two things wrong with it or more, mostly, so that their order shows.
    fn bent(&mut self) {
        let chance = &mut self.chance;
        let (first, second) = chance.of(&together());
        let mut wrong = vec![first, second];
        if chance.one_in(4) {
            wrong.push(chance.of(&AFTER_SHAPE));
        }
        let is_wrong = |number: u32| wrong.contains(&number);
        let mut plan = match (is_wrong(LONG_CYCLE), is_wrong(MANY_PAIRS)) {
            (true, true) => both_limits(chance),
            (true, false) => long_cycle(chance),
            (false, true) => many_pairs(chance),
            (false, false) if chance.one_in(3) => lined(chance).plan,
            (false, false) => some_of(chance, &SMALL),
        };
        if is_wrong(NOT_ACCEPTED) {
            violate(chance, &mut plan);
        }
        let link = if is_wrong(NO_LINK) { some_absent(chance, &plan) } else { fullest(&plan) };
        let facts = Facts::of(&plan, link);
        let room = match chance.below(4) {
            _ if !is_wrong(NO_ROOM) => facts.bytes + chance.of(&[0, 0, 1, 100]),
            0 => 0,
            1 => chance.below(facts.bytes + 1),
            _ => facts.bytes.saturating_sub(1),
        };
        let room = room.min(MOST_ROOM);
        let due = facts.due(&plan, link, room);
        let file = match OF_SHAPE.contains(&first) {
            false => plan_bytes(&plan),
            true if chance.one_in(3) => {
                let (damaged, misread) = chance.of(&[(1, false), (2, false), (0, true), (1, true)]);
                damaged_file(chance, plan, damaged, misread)
            }
            true => misshaped(chance, plan, first),
        };
        self.gates(file.into(), link, room, due);
    }

    /// Reads a file of any numbers, and now and then damages it before.
    fn any_file(&mut self) {
        let chance = &mut self.chance;
        let many = [MOST_PAIRS - 1, MOST_PAIRS, MOST_PAIRS + 1, 3 * MOST_PAIRS];
        let count = if chance.one_in(12) { chance.of(&many) } else { chance.below(12) };
        let any_mask = [0, 1, IDLE, HELD, 255, 256, u32::MAX];
        let words: Vec<u32> = (0..count)
            .flat_map(|at| {
                let usual = [IDLE, HELD][at % PAIR_WORDS];
                let mask = if chance.one_in(4) { chance.of(&any_mask) } else { usual };
                let (any, one) = (chance.any_size(), chance.of(&[0, 1, 127, 128, 16_383, 16_384, u32::MAX]));
                [mask, if chance.one_in(3) { one } else { any }]
            })
            .collect();
        let mut bytes = encoded(&words);
        match chance.below(8) {
            0 => bytes = encoded(&words[..words.len().saturating_sub(1)]),
            1 => {
                let cut = chance.below(bytes.len() + 1);
                bytes.truncate(cut);
            }
            2 | 3 => (0..chance.of(&[1, 1, 2])).for_each(|_| damage_bytes(chance, &mut bytes)),
            4 if chance.one_in(2) => bytes = any_bytes(chance),
            _ => {}
        }
        self.read(bytes);
    }
}
