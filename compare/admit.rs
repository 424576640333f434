//! A slot for a new stream, plainly: the first offsets are tried one after the other, each by the rules of the plain checker
//! on the enlarged table. Written from the request alone. An `Admitter` is a table of decisions, in which a wrong one
//! replaces some; `RIGHT` has them as they are right.

use crate::admit_jump;
use crate::check::{places_of, whole, Bent, Checker, Plain, RIGHT as CHECKER};
use crate::format::{plan_bytes, refused, table, Leg, Outcome, Plan, Refusal, Stream};
use crate::paper::{LAST_REVISION, LIMITS, NOTHING_VIOLATED, NO_ROOM, NUMBER_BYTES, REFUSED};
use crate::rules::{arrival, sent, Sent};
use std::ops::Range;
use std::sync::Arc;

pub const ADMITTED: u32 = 0;
/// None of the offsets that were asked for fits, and there are higher ones.
pub const NONE_YET: u32 = 1;
pub const NO_SLOT: u32 = 18;
pub const NOT_ACCEPTED: u32 = 19;
/// A stream that would break the limits or the shape.
pub const BAD_STREAM: u32 = 20;

/// Up to this period each offset is tried. For longer ones the search goes by jumps.
pub const MOST_TRIED: u32 = 20_000;
/// An enlarged table of so many legs is checked whole for each offset. Of a larger one, whose old legs were found accepted,
/// only the new legs are asked.
pub const WHOLE_LEGS: usize = 8;

/// A stream that is to be admitted.
#[derive(Clone, Debug)]
pub struct Wanted {
    pub route: Vec<u32>,
    pub period: u32,
    pub deadline: u32,
    pub octets: u32,
}

/// A call with all that it is lent. One between two offsets looks from the first up to the second, without it.
#[derive(Clone)]
pub struct Call {
    pub plan: Arc<[u8]>,
    pub wanted: Arc<Wanted>,
    pub between: Option<(u32, u32)>,
    /// What lies in the lent buffer before the call.
    pub new_plan: Vec<u8>,
}

impl Call {
    /// The offsets that are asked for: all, where none are named.
    pub fn asked(&self) -> (u32, u32) {
        self.between.unwrap_or((0, u32::MAX))
    }
}

#[derive(Clone, Debug, PartialEq, Eq)]
pub struct Answer {
    pub result: u32,
    pub number: u32,
    pub offset: u32,
    pub new_plan: Vec<u8>,
}

/// What is found where nothing is refused.
pub enum Found {
    /// The enlarged table, and the first offset.
    Slot(Plan, u32),
    /// None so far: the next offset that was not looked at.
    NoneYet(u32),
}

/// A refusal after the shape, by the table and the call.
pub type Test = fn(&Admitter, &Plan, &Call) -> Outcome<()>;

#[derive(Clone, Copy)]
pub struct Admitter {
    /// By these rules the table is read, judged and checked,
    pub table: Bent,
    /// and by these the enlarged one is judged and laid.
    pub enlarged: Bent,
    // What is refused.
    pub order: &'static [Test],
    pub can_rise: fn(&Plan) -> bool,
    pub keeps_shape: fn(&Admitter, &Plan) -> bool,
    pub bytes_needed: fn(&Plan, &Plan) -> u64,
    pub is_accepted: fn(&Admitter, &Plan) -> bool,
    pub none: fn(u32, u32) -> Outcome<Found>,
    pub refuse: fn(Refusal, &mut Answer),
    // The enlarged table.
    pub enlarge: fn(&Plan, &Wanted) -> Plan,
    pub lay: fn(&Admitter, &mut Plan, u64) -> bool,
    pub carried: fn(u64, u64) -> (u64, u64),
    pub next_start: fn(&Admitter, &Plan, usize, u64) -> u64,
    pub is_too_late: fn(u64) -> bool,
    // The search.
    pub offsets: fn(u32, u32, u32) -> Range<u64>,
    pub search: fn(&Admitter, &mut Plan, Range<u64>) -> Option<u64>,
    pub fits: fn(&Admitter, &Plan) -> bool,
    pub give: fn(Plan, u32, &mut Answer),
}

pub const RIGHT: Admitter = Admitter {
    table: CHECKER,
    enlarged: CHECKER,
    order: &[rises, keeps_limits, has_room, accepts],
    can_rise,
    keeps_shape,
    bytes_needed,
    is_accepted,
    none,
    refuse,
    enlarge,
    lay,
    carried,
    next_start,
    is_too_late,
    offsets,
    search,
    fits: |_, plan| fits(&Plain, plan),
    give,
};

/// The one that goes by jumps whatever the period is.
pub const JUMPING: Admitter = Admitter { search: admit_jump::search, ..RIGHT };

/// What an admitter answers.
pub fn answer(a: &Admitter, call: &Call) -> Answer {
    let mut answer = Answer { result: ADMITTED, number: 0, offset: 0, new_plan: call.new_plan.clone() };
    match admitted(a, call) {
        Err(refusal) => (a.refuse)(refusal, &mut answer),
        Ok(Found::Slot(plan, offset)) => (a.give)(plan, offset, &mut answer),
        Ok(Found::NoneYet(next)) => answer = Answer { result: NONE_YET, offset: next, ..answer },
    }
    answer
}

/// The refusals of the file, those of the shape, the others in their order, and at last the search.
pub fn admitted(a: &Admitter, call: &Call) -> Outcome<Found> {
    let plan = a.table.read_plan(&call.plan)?;
    a.table.judge(&plan)?;
    for test in a.order {
        test(a, &plan, call)?;
    }
    found(a, &plan, call)
}

/// The least of the offsets asked for that fits.
pub fn found(a: &Admitter, plan: &Plan, call: &Call) -> Outcome<Found> {
    let mut enlarged = (a.enlarge)(plan, &call.wanted);
    let (from, until) = call.asked();
    match (a.search)(a, &mut enlarged, (a.offsets)(call.wanted.period, from, until)) {
        Some(offset) => {
            (a.lay)(a, &mut enlarged, offset);
            Ok(Found::Slot(enlarged, offset as u32))
        }
        None => (a.none)(call.wanted.period, until),
    }
}

/// A refusal is told as its number plus 100 and its position. Nothing is written.
pub fn refuse(refusal: Refusal, answer: &mut Answer) {
    answer.result = REFUSED + refusal.number;
    answer.number = refusal.at as u32;
}

/// The file of the enlarged table goes to the first bytes of the lent buffer.
pub fn give(plan: Plan, offset: u32, answer: &mut Answer) {
    let bytes = plan_bytes(&plan);
    answer.new_plan[..bytes.len()].copy_from_slice(&bytes);
    answer.number = bytes.len() as u32;
    answer.offset = offset;
}

// ---- What is refused

fn refused_unless(holds: bool, number: u32) -> Outcome<()> {
    if holds {
        Ok(())
    } else {
        refused(number, 0)
    }
}

/// Refusal 11.
pub fn rises(a: &Admitter, plan: &Plan, _: &Call) -> Outcome<()> {
    refused_unless((a.can_rise)(plan), LAST_REVISION)
}

pub fn can_rise(plan: &Plan) -> bool {
    plan.revision < u32::MAX
}

/// Refusal 20.
pub fn keeps_limits(a: &Admitter, plan: &Plan, call: &Call) -> Outcome<()> {
    refused_unless((a.keeps_shape)(a, &(a.enlarge)(plan, &call.wanted)), BAD_STREAM)
}

/// Whether an enlarged table is one by its limits and its shape.
pub fn keeps_shape(a: &Admitter, enlarged: &Plan) -> bool {
    table(&a.enlarged, &enlarged.words()).map_or(false, |plan| a.enlarged.judge(&plan).is_ok())
}

/// Refusal 15.
pub fn has_room(a: &Admitter, plan: &Plan, call: &Call) -> Outcome<()> {
    let needed = (a.bytes_needed)(plan, &(a.enlarge)(plan, &call.wanted));
    refused_unless(call.new_plan.len() as u64 >= needed, NO_ROOM)
}

/// Room for the enlarged table whatever its words are.
pub fn bytes_needed(_: &Plan, enlarged: &Plan) -> u64 {
    NUMBER_BYTES as u64 * enlarged.words().len() as u64
}

/// Refusal 19.
pub fn accepts(a: &Admitter, plan: &Plan, _: &Call) -> Outcome<()> {
    refused_unless((a.is_accepted)(a, plan), NOT_ACCEPTED)
}

pub fn is_accepted(a: &Admitter, plan: &Plan) -> bool {
    whole(&a.table, plan).result == NOTHING_VIOLATED
}

/// Refusal 18, but where offsets below the period were not asked for.
pub fn none(period: u32, until: u32) -> Outcome<Found> {
    if until < period {
        Ok(Found::NoneYet(until))
    } else {
        refused(NO_SLOT, 0)
    }
}

// ---- The enlarged table

/// The table with the new stream and its legs last, all at 0 so far, and its revision one higher.
pub fn enlarge(plan: &Plan, wanted: &Wanted) -> Plan {
    let Wanted { period, deadline, octets, .. } = *wanted;
    let (stream, first_leg) = (plan.streams.len() as u32, plan.legs.len() as u32);
    let mut enlarged = Plan { revision: plan.revision.wrapping_add(1), ..plan.clone() };
    enlarged.streams.push(Stream { period, deadline, octets, first_leg, leg_count: wanted.route.len() as u32 });
    enlarged.legs.extend(wanted.route.iter().map(|&link| Leg { stream, link, offset: 0, periods: 0 }));
    enlarged
}

/// The last stream of a table, which is the new one.
pub fn newest(plan: &Plan) -> &Stream {
    plan.streams.last().expect("a stream was added")
}

/// The numbers of the legs of the last stream.
pub fn new_legs(plan: &Plan) -> Range<usize> {
    newest(plan).first_leg as usize..plan.legs.len()
}

/// Lays the legs of the last stream from a first offset on, without waiting. Says whether none lies too many periods late.
pub fn lay(a: &Admitter, plan: &mut Plan, first_offset: u64) -> bool {
    let period = u64::from(newest(plan).period);
    let mut start = first_offset;
    for leg in new_legs(plan) {
        let (offset, periods) = (a.carried)(start, period);
        if (a.is_too_late)(periods) {
            return false;
        }
        plan.legs[leg] = Leg { offset: offset as u32, periods: periods as u32, ..plan.legs[leg] };
        start = (a.next_start)(a, plan, leg, start);
    }
    true
}

/// The offset of a start, and the whole periods before it.
pub fn carried(start: u64, period: u64) -> (u64, u64) {
    (start % period, start / period)
}

/// When the leg after this one starts, which starts then itself: once its hop rule allows.
pub fn next_start(a: &Admitter, plan: &Plan, leg: usize, start: u64) -> u64 {
    arrival(&Sent { start, ..sent(&a.enlarged, plan, leg) }, plan.precision.into())
}

pub fn is_too_late(periods: u64) -> bool {
    periods > LIMITS.periods.into()
}

// ---- The search

/// The offsets asked for that lie below the period.
pub fn offsets(period: u32, from: u32, until: u32) -> Range<u64> {
    from.into()..until.min(period).into()
}

pub fn search(a: &Admitter, plan: &mut Plan, offsets: Range<u64>) -> Option<u64> {
    if newest(plan).period > MOST_TRIED {
        return admit_jump::search(a, plan, offsets);
    }
    each(a, plan, offsets)
}

/// Tries one offset after the other.
pub fn each(a: &Admitter, plan: &mut Plan, mut offsets: Range<u64>) -> Option<u64> {
    offsets.find(|&offset| (a.lay)(a, plan, offset) && (a.fits)(a, plan))
}

/// Whether nothing is violated in an enlarged table whose old legs were found accepted.
pub fn fits<C: Checker>(c: &C, plan: &Plan) -> bool {
    if plan.legs.len() <= WHOLE_LEGS {
        return whole(c, plan).result == NOTHING_VIOLATED;
    }
    new_legs(plan).all(|leg| (0..places_of(leg as u32)).all(|place| c.holds(plan, leg, place)))
}
