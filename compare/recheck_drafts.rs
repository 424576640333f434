//! Accepted tables, and moves of one leg: a little later or sooner, to the edge of some rule, or anywhere.

use crate::admit_drafts::{add, full, lined, of_a_file, usual, Draft, SMALL};
use crate::chance::Chance;
use crate::check::Plain;
use crate::drafts::{self, start_at};
use crate::format::{Leg, Plan};
use crate::paper::LIMITS;
use crate::recheck::{first_of_its_stream, last_of_its_stream};
use crate::rules::{arrival, divisor, sent, Sent};

/// A table that is accepted, with a leg at the least, and mostly with several.
pub fn some_table(chance: &mut Chance) -> Plan {
    let plan = match chance.below(48) {
        0..=17 => {
            let streams = 3 + chance.below(40);
            let late = chance.one_in(2);
            drafts::accepted(chance, streams, late)
        }
        18..=29 => enlarged(chance, lined),
        30..=33 => enlarged(chance, usual),
        at => enlarged(chance, SMALL[at % SMALL.len()]),
    };
    match plan.legs.len() {
        0 => some_table(chance),
        1 if !chance.one_in(6) => some_table(chance),
        _ => plan,
    }
}

/// The table of a draft, mostly with the stream that is wanted.
fn enlarged(chance: &mut Chance, draft: impl Fn(&mut Chance) -> Draft) -> Plan {
    let Draft { mut plan, wanted } = draft(chance);
    if !chance.one_in(4) {
        let from = chance.from_to(0, wanted.period - 1);
        add(&mut plan, &wanted, from);
    }
    plan
}

/// A plan of a file, mostly without its last streams, or one at the limits. It need not be accepted, nor be a plan.
pub fn large(chance: &mut Chance) -> Plan {
    match chance.below(4) {
        0 => full(chance).plan,
        1 => drafts::full_line(chance),
        _ => of_a_file(chance).plan,
    }
}

/// Any leg, often the first or the last, and often one in the middle of its stream.
pub fn some_leg(chance: &mut Chance, plan: &Plan) -> usize {
    let any = chance.below(plan.legs.len());
    match chance.below(12) {
        0 => 0,
        1 => plan.legs.len() - 1,
        2..=4 => {
            let (first, last) = (first_of_its_stream(plan, any), last_of_its_stream(plan, any));
            if last > first + 1 {
                first + 1 + chance.below(last - first - 1)
            } else {
                any
            }
        }
        _ => any,
    }
}

// ---- Moves

/// How far legs are often moved, in ns.
const SHIFTS: [i64; 4] = [500, 1_000, 10_000, 20_000];

/// Moves a leg, and raises the revision where it can rise. Now and then the leg stays where it is, or the revision does.
pub fn move_leg(chance: &mut Chance, plan: &mut Plan, leg: usize) {
    plan.revision = plan.revision.saturating_add(chance.of(&[1, 1, 1, 0]));
    let before = plan.legs[leg];
    to_somewhere(chance, plan, leg);
    if plan.legs[leg] == before && !chance.one_in(12) {
        let by = chance.of(&SHIFTS) * chance.of(&[-1, 1]);
        set_offset(plan, leg, i64::from(before.offset) + by);
    }
}

fn to_somewhere(chance: &mut Chance, plan: &mut Plan, leg: usize) {
    let (now, beside) = (known(plan, leg), chance.of(&[0, 0, 1]));
    match chance.below(19) {
        0..=2 => {
            let by = chance.of(&SHIFTS) * chance.of(&[-1, 1]);
            set_offset(plan, leg, now.offset as i64 + by)
        }
        3 | 4 => {
            let by = chance.of(&SHIFTS) * chance.of(&[-1, 1]);
            set_start(plan, leg, now.start as i64 + by)
        }
        5..=8 => beside_another(chance, plan, leg, beside),
        9 => set_offset(plan, leg, i64::from(now.period) - now.hold as i64 + beside),
        10 => after_the_one_before(plan, leg, beside),
        11 => before_the_next(plan, leg, beside),
        12 | 13 => to_the_deadline(plan, leg, beside),
        14 | 15 => {
            let offset = chance.from_to(0, now.period - 1);
            set_offset(plan, leg, offset.into())
        }
        16 => {
            let offset = chance.any_size();
            set_offset(plan, leg, offset.into())
        }
        17 => plan.legs[leg].periods = chance.from_to(0, LIMITS.periods),
        _ => {
            let [offset, periods] = [now.period - 1, LIMITS.periods].map(|most| chance.from_to(0, most));
            plan.legs[leg] = Leg { offset, periods, ..plan.legs[leg] };
        }
    }
}

fn known(plan: &Plan, leg: usize) -> Sent {
    sent(&Plain, plan, leg)
}

fn set_offset(plan: &mut Plan, leg: usize, offset: i64) {
    plan.legs[leg].offset = offset.clamp(0, u32::MAX.into()) as u32;
}

/// Lets a leg start at a time, in the period which that lies in.
fn set_start(plan: &mut Plan, leg: usize, start: i64) {
    start_at(plan, leg, start.max(0) as u64);
}

/// How long after its start a leg's frame is there.
fn way(plan: &Plan, leg: usize) -> i64 {
    let leg = known(plan, leg);
    (arrival(&leg, plan.precision.into()) - leg.start) as i64
}

/// Right after the leg before it in its stream, or so much sooner.
fn after_the_one_before(plan: &mut Plan, leg: usize, sooner: i64) {
    if leg > first_of_its_stream(plan, leg) {
        let start = known(plan, leg - 1).start as i64 + way(plan, leg - 1);
        set_start(plan, leg, start - sooner);
    }
}

/// So that it arrives just when the next leg of its stream starts, or so much later.
fn before_the_next(plan: &mut Plan, leg: usize, later: i64) {
    if leg < last_of_its_stream(plan, leg) {
        let start = known(plan, leg + 1).start as i64 - way(plan, leg);
        set_start(plan, leg, start + later);
    }
}

/// So that its stream just keeps its deadline, or misses it by so much. It is a first leg or a last one.
fn to_the_deadline(plan: &mut Plan, leg: usize, missed: i64) {
    let (first, last) = (first_of_its_stream(plan, leg), last_of_its_stream(plan, leg));
    let deadline = known(plan, leg).deadline as i64;
    if leg == last {
        let start = deadline + known(plan, first).start as i64 - way(plan, leg);
        set_start(plan, leg, start + missed);
    } else if leg == first {
        let start = known(plan, last).start as i64 + way(plan, last) - deadline;
        set_start(plan, leg, start - missed);
    }
}

/// Beside another leg of its link, so that the two touch or share so much, or just onto it.
fn beside_another(chance: &mut Chance, plan: &mut Plan, leg: usize, shared: i64) {
    let on_its_link = |other: &usize| *other != leg && plan.legs[*other].link == plan.legs[leg].link;
    let others: Vec<usize> = (0..plan.legs.len()).filter(on_its_link).collect();
    if others.is_empty() {
        return;
    }
    let (now, other) = (known(plan, leg), known(plan, chance.of(&others)));
    let touching = match chance.below(5) {
        0 => other.offset as i64,
        1 | 2 => other.offset as i64 + other.hold as i64 - shared,
        _ => other.offset as i64 - now.hold as i64 + shared,
    };
    let common = i64::from(divisor(now.period, other.period));
    // In any repeat of its period.
    let times = chance.below(now.period as usize / common as usize) as i64;
    set_offset(plan, leg, touching.rem_euclid(common) + times * common);
    if chance.one_in(2) {
        next_period(plan, leg);
    }
}

/// Where a leg starts before the frame of the one before it is there, it goes as many periods later as its hop asks.
fn next_period(plan: &mut Plan, leg: usize) {
    while leg > first_of_its_stream(plan, leg)
        && plan.legs[leg].periods < LIMITS.periods
        && known(plan, leg).start < arrival(&known(plan, leg - 1), plan.precision.into())
    {
        plan.legs[leg].periods += 1;
    }
}
