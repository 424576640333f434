//! Start, slice and move, and the calls for C. Plain code: one loop over the places in order.

use crate::format::{
    self, cursor_bytes, plan_bytes, refused, Cursor, Layout, Leg, Link, Move, Outcome, Plan, Refusal, Stream,
};
use crate::paper::{
    Limits, Rule, CURSOR_BYTES, DEADLINE, GRANTED, HEADER_WORDS, HOP, LAST_REVISION, LIMITS, NOTHING_VIOLATED, NO_LEG,
    NO_PLACE, OVERLAP, OVERLAPS, PAUSED, REFUSED, RULES, STALE, TOO_LATE, WINDOW,
};
use crate::reasons;
use crate::rules::{self, sent, Sent};
use crate::shape;

/// What a slice gives.
#[derive(Clone, Copy, Debug, PartialEq, Eq)]
pub struct Sliced {
    pub result: u32,
    pub cursor: Cursor,
    pub steps: u32,
}

/// How many bytes a move for C is lent.
#[derive(Clone, Copy)]
pub struct Lent {
    pub new_plan: usize,
    pub out: usize,
}

/// The decisions of a checker, each with the function that decides right. `Plain` takes these; `Bent` has a table of them,
/// in which a wrong checker replaces some.
macro_rules! decisions {
    ($($name:ident($($word:ident: $kind:ty),*) -> $gives:ty = $right:path;)*) => {
        pub trait Checker: Sized {
            fn limits(&self) -> &Limits {
                &LIMITS
            }
            fn rules(&self) -> &[Rule; RULES.len()] {
                &RULES
            }
            $(#[inline]
            fn $name(&self, $($word: $kind),*) -> $gives {
                $right(self, $($word),*)
            })*
        }

        #[derive(Clone, Copy)]
        pub struct Bent {
            pub limits: Limits,
            pub rules: [Rule; RULES.len()],
            $(pub $name: fn(&Bent, $($kind),*) -> $gives),*
        }

        /// The decisions as they are right.
        pub const RIGHT: Bent = Bent { limits: LIMITS, rules: RULES, $($name: $right),* };

        impl Checker for Bent {
            fn limits(&self) -> &Limits {
                &self.limits
            }
            fn rules(&self) -> &[Rule; RULES.len()] {
                &self.rules
            }
            $(fn $name(&self, $($word: $kind),*) -> $gives {
                (self.$name)(self, $($word),*)
            })*
        }
    };
}

decisions! {
    // The reader.
    number(bytes: &[u8], start: usize) -> Outcome<(u32, usize)> = format::number;
    read_plan(bytes: &[u8]) -> Outcome<Plan> = format::read_plan;
    read_first(bytes: &[u8]) -> Outcome<Plan> = format::read_first;
    read_cursor(bytes: &[u8]) -> Outcome<Cursor> = format::read_cursor;
    plan_ends(at: usize, length: usize) -> Outcome<()> = format::ends;
    first_ends(at: usize, length: usize) -> Outcome<()> = format::ends;
    cursor_ends(at: usize, length: usize) -> Outcome<()> = format::ends;
    // The shape.
    judge(plan: &Plan) -> Outcome<()> = shape::judge;
    links_in_range(links: &[Link]) -> Outcome<()> = shape::links_in_range;
    link_in_range(link: &Link) -> bool = shape::link_in_range;
    links_differ(links: &[Link]) -> Outcome<()> = shape::links_differ;
    streams(plan: &Plan) -> Outcome<()> = shape::streams;
    stream_in_range(stream: &Stream) -> bool = shape::stream_in_range;
    legs(plan: &Plan) -> Outcome<()> = shape::legs;
    leg_in_range(plan: &Plan, leg: &Leg, stream: u32) -> bool = shape::leg_in_range;
    goes_on(met: &[u32], link: &Link) -> bool = shape::goes_on;
    // The rules.
    start(plan: &Plan, leg: usize) -> u64 = rules::start;
    wire_time(octets: u32, ns_per_octet: u32) -> u64 = rules::wire_time;
    hold_time(octets: u32, ns_per_octet: u32) -> u64 = rules::hold_time;
    window_holds(leg: &Sent) -> bool = rules::window_holds;
    hop_holds(leg: &Sent, previous: &Sent, precision: u64) -> bool = rules::hop_holds;
    deadline_holds(last: &Sent, first: &Sent, precision: u64) -> bool = rules::deadline_holds;
    apart(a: &Sent, b: &Sent) -> bool = rules::apart;
    // Places, slices and moves.
    places(legs: u64) -> u64 = places;
    holds(plan: &Plan, leg: usize, place: u32) -> bool = holds;
    slice(plan: &Plan, from: Cursor, budget: u32) -> Sliced = slice;
    fits(plan: &Plan, cursor: Cursor) -> Outcome<()> = fits;
    moved(plan: &mut Plan, cursor: Cursor, wanted: Move) -> Outcome<Cursor> = moved;
    // What is said of a refusal.
    cause_told(refusal: u32, causes: &[Option<String>]) -> Option<String> = reasons::cause_told;
    numbered(records: &str, count: usize) -> Option<String> = reasons::numbered;
    unread(bytes: &[u8], layout: Layout, refusal: Refusal) -> String = reasons::unread;
    name(layout: Layout, header: &[u32; HEADER_WORDS], before: usize) -> String = reasons::name;
    is_too_long(bytes: &[u8], at: usize) -> bool = reasons::is_too_long;
    ends_in_first(bytes: &[u8]) -> bool = reasons::ends_in_first;
    twin(links: &[Link], at: usize) -> Option<usize> = reasons::twin;
    legs_before(plan: &Plan, stream: usize) -> u64 = reasons::legs_before;
    last_leg(stream: &Stream) -> u64 = reasons::last_leg;
    owner(plan: &Plan, leg: usize) -> usize = reasons::owner;
    met(plan: &Plan, first: usize, leg: usize) -> Vec<u32> = reasons::met;
    // The calls for C.
    room(least: usize, lent: usize) -> Outcome<()> = format::room;
    opened(plan: &[u8], cursor: &[u8], lent: usize) -> Outcome<(Plan, Cursor)> = opened;
    granted(plan: &[u8], cursor: &[u8], wanted: Move, lent: Lent) -> Outcome<(Vec<u8>, Cursor)> = granted;
    converted(old: &[u8], lent: usize) -> Outcome<Vec<u8>> = converted;
    refuse(refusal: Refusal, lent: &mut [u8]) -> u64 = refuse;
    give(lent: &mut [u8], bytes: &[u8]) -> () = give;
}

/// The right checker.
pub struct Plain;

impl Checker for Plain {}

// ---- Places

/// How many places a leg has.
pub fn places_of(leg: u32) -> u32 {
    OVERLAPS + leg
}

/// How many places a table of so many legs has.
pub fn places<C: Checker>(_: &C, legs: u64) -> u64 {
    legs * legs.saturating_sub(1) / 2 + u64::from(OVERLAPS) * legs
}

/// How many places lie before one.
pub fn places_before(cursor: Cursor) -> u64 {
    places(&Plain, u64::from(cursor.leg)) + u64::from(cursor.place)
}

/// The next place. The end is place 0 of the leg after the last.
pub fn next(cursor: Cursor) -> Cursor {
    if cursor.place + 1 < places_of(cursor.leg) {
        return Cursor { place: cursor.place + 1, ..cursor };
    }
    Cursor { leg: cursor.leg + 1, place: 0, ..cursor }
}

/// The rule of a place, and for an overlap the other leg.
pub fn rule_at(place: u32) -> (usize, usize) {
    if place >= OVERLAPS {
        return (OVERLAP, (place - OVERLAPS) as usize);
    }
    (place as usize, 0)
}

/// Whether the rule of a place holds there. A rule that does not concern its place does.
#[inline]
pub fn holds<C: Checker>(c: &C, plan: &Plan, leg: usize, place: u32) -> bool {
    let (rule, other) = rule_at(place);
    let frame = |leg| sent(c, plan, leg);
    if rule == OVERLAP {
        return plan.legs[leg].link != plan.legs[other].link || c.apart(&frame(leg), &frame(other));
    }
    own_holds(c, plan, leg, rule, frame)
}

/// Whether a rule of a leg alone holds, by the frames of its stream.
#[inline]
pub fn own_holds<C: Checker>(c: &C, plan: &Plan, leg: usize, rule: usize, frame: impl Fn(usize) -> Sent) -> bool {
    let stream = &plan.streams[plan.legs[leg].stream as usize];
    let first = stream.first_leg as usize;
    let precision = u64::from(plan.precision);
    match rule {
        WINDOW => c.window_holds(&frame(leg)),
        HOP => leg == first || c.hop_holds(&frame(leg), &frame(leg - 1), precision),
        DEADLINE => {
            leg + 1 != first + stream.leg_count as usize || c.deadline_holds(&frame(leg), &frame(first), precision)
        }
        _ => unreachable!("there is no other rule"),
    }
}

// ---- Start, slice and move

/// The cursor that a start of a well-formed plan gives.
pub fn begin(plan: &Plan) -> Cursor {
    Cursor { revision: plan.revision, leg: 0, place: 0 }
}

/// Looks at places in order. The cursor is a place of the plan or its end.
pub fn slice<C: Checker>(c: &C, plan: &Plan, from: Cursor, budget: u32) -> Sliced {
    let legs = plan.legs.len() as u32;
    let (mut cursor, mut steps) = (from, 0);
    while cursor.leg < legs && steps < budget {
        steps += 1;
        if !c.holds(plan, cursor.leg as usize, cursor.place) {
            return Sliced { result: c.rules()[rule_at(cursor.place).0].result, cursor, steps };
        }
        cursor = next(cursor);
    }
    Sliced { result: if cursor.leg < legs { PAUSED } else { NOTHING_VIOLATED }, cursor, steps }
}

/// A start, and a slice with enough budget: what a whole check of a well-formed plan gives.
pub fn whole<C: Checker>(c: &C, plan: &Plan) -> Sliced {
    c.slice(plan, begin(plan), u32::MAX)
}

/// Refusals 8 and 9.
pub fn fits<C: Checker>(_: &C, plan: &Plan, cursor: Cursor) -> Outcome<()> {
    if cursor.revision != plan.revision {
        return refused(STALE, 0);
    }
    let legs = plan.legs.len() as u32;
    let is_place = cursor.leg < legs && cursor.place < places_of(cursor.leg);
    let is_end = cursor.leg == legs && cursor.place == 0;
    if !is_place && !is_end {
        return refused(NO_PLACE, 0);
    }
    Ok(())
}

/// Sets one leg's offset and its period word. The cursor goes back to that leg where it had passed it.
pub fn moved<C: Checker>(c: &C, plan: &mut Plan, cursor: Cursor, wanted: Move) -> Outcome<Cursor> {
    if wanted.leg as usize >= plan.legs.len() {
        return refused(NO_LEG, 0);
    }
    if plan.revision == u32::MAX {
        return refused(LAST_REVISION, 0);
    }
    if wanted.periods > c.limits().periods {
        return refused(TOO_LATE, 0);
    }
    plan.revision += 1;
    let leg = &mut plan.legs[wanted.leg as usize];
    *leg = Leg { offset: wanted.offset, periods: wanted.periods, ..*leg };
    let (leg, place) = (cursor.leg, cursor.place).min((wanted.leg, 0));
    Ok(Cursor { revision: plan.revision, leg, place })
}

// ---- The calls for C

/// A result in the low 32 bits and a number in the high ones.
pub fn packed(result: u32, number: u64) -> u64 {
    u64::from(result) | number << 32
}

/// What a slice and a move begin with.
pub fn opened<C: Checker>(c: &C, plan: &[u8], cursor: &[u8], lent: usize) -> Outcome<(Plan, Cursor)> {
    let (plan, cursor) = (c.read_plan(plan)?, c.read_cursor(cursor)?);
    c.room(CURSOR_BYTES, lent)?;
    c.judge(&plan)?;
    c.fits(&plan, cursor)?;
    Ok((plan, cursor))
}

/// The number that a refusal gives. The lent memory is at hand so that a wrong checker can spoil it.
pub fn refuse<C: Checker>(_: &C, refusal: Refusal, _lent: &mut [u8]) -> u64 {
    packed(REFUSED + refusal.number, refusal.at as u64)
}

pub fn give<C: Checker>(_: &C, lent: &mut [u8], bytes: &[u8]) {
    lent[..bytes.len()].copy_from_slice(bytes);
}

pub fn host_start<C: Checker>(c: &C, plan: &[u8], out: &mut [u8]) -> u64 {
    let opened = || {
        let plan = c.read_plan(plan)?;
        c.room(CURSOR_BYTES, out.len())?;
        c.judge(&plan)?;
        Ok(plan)
    };
    match opened() {
        Err(refusal) => c.refuse(refusal, out),
        Ok(plan) => {
            c.give(out, &cursor_bytes(begin(&plan)));
            packed(GRANTED, c.places(plan.legs.len() as u64))
        }
    }
}

pub fn host_slice<C: Checker>(c: &C, plan: &[u8], cursor: &[u8], budget: u32, out: &mut [u8]) -> u64 {
    match c.opened(plan, cursor, out.len()) {
        Err(refusal) => c.refuse(refusal, out),
        Ok((plan, cursor)) => {
            let sliced = c.slice(&plan, cursor, budget);
            c.give(out, &cursor_bytes(sliced.cursor));
            packed(sliced.result, u64::from(sliced.steps))
        }
    }
}

/// The new plan file and the cursor that a move gives.
pub fn granted<C: Checker>(c: &C, plan: &[u8], cursor: &[u8], wanted: Move, lent: Lent) -> Outcome<(Vec<u8>, Cursor)> {
    let (mut plan, cursor) = c.opened(plan, cursor, lent.out)?;
    let cursor = c.moved(&mut plan, cursor, wanted)?;
    let bytes = plan_bytes(&plan);
    c.room(bytes.len(), lent.new_plan)?;
    Ok((bytes, cursor))
}

pub fn host_move<C: Checker>(
    c: &C,
    plan: &[u8],
    cursor: &[u8],
    wanted: Move,
    new_plan: &mut [u8],
    out: &mut [u8],
) -> u64 {
    let lent = Lent { new_plan: new_plan.len(), out: out.len() };
    match c.granted(plan, cursor, wanted, lent) {
        Err(refusal) => c.refuse(refusal, out),
        Ok((bytes, cursor)) => {
            c.give(new_plan, &bytes);
            c.give(out, &cursor_bytes(cursor));
            packed(GRANTED, bytes.len() as u64)
        }
    }
}

/// The file of today that a plan file of the first layout becomes: the refusals of its reader, and 15 by its own length.
pub fn converted<C: Checker>(c: &C, old: &[u8], lent: usize) -> Outcome<Vec<u8>> {
    let bytes = plan_bytes(&c.read_first(old)?);
    c.room(bytes.len(), lent)?;
    Ok(bytes)
}

pub fn host_convert<C: Checker>(c: &C, old: &[u8], file: &mut [u8]) -> u64 {
    match c.converted(old, file.len()) {
        Err(refusal) => c.refuse(refusal, file),
        Ok(bytes) => {
            c.give(file, &bytes);
            packed(GRANTED, bytes.len() as u64)
        }
    }
}
