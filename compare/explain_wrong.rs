//! Explainers that are wrong on purpose, each in one thing. The comparison has to catch every one.

use crate::check::{places_of, Checker};
use crate::explain::{
    asked, common, cycle, deadline, first_of_its_stream, hop, last_of_its_stream, meet, meeting, near, of_a_rest,
    opened, overlap, slot, spare, stands, survey, told, with, Answer, Call, Explainer, Kind, Met, Near, Numbers, Slot,
    Spare, Told, Violated, MET, RIGHT,
};
use crate::format::{refused, Outcome, Plan, Refusal};
use crate::paper::{
    DEADLINE, HOP, LEG_WRONG, LINK_RANGE, LINK_TWICE, NO_LEG, NO_PLACE, OVERLAP, OVERLAPS, REFUSED, RULES, STALE,
    STREAM_WRONG, WINDOW,
};
use crate::rules::{self, arrival, sent};

pub struct Wrong {
    pub name: String,
    pub explainer: Explainer,
    /// The kind of call that has to catch it, where it is not any.
    pub of: Option<Kind>,
}

/// The right explainer, bent in one thing.
fn wrong(name: &str, bend: impl Fn(&mut Explainer)) -> Wrong {
    let mut explainer = RIGHT;
    bend(&mut explainer);
    Wrong { name: name.to_string(), explainer, of: None }
}

/// The same for several kinds of calls, each of which has to catch it.
fn each(kinds: &[Kind], name: &str, bend: impl Fn(&mut Explainer)) -> Vec<Wrong> {
    let one = |&kind| Wrong { of: Some(kind), ..wrong(&format!("{:?}: {}", kind, name), &bend) };
    kinds.iter().map(one).collect()
}

pub fn all() -> Vec<Wrong> {
    let meetings = [slots(), meets(), pairs()];
    let margins = [windows(), hops(), deadlines(), overlaps(), spares()];
    let others = [offsets(), surveys(), times(), refusals(), telling()];
    meetings.into_iter().chain(margins).chain(others).flatten().collect()
}

// ---- Meetings

fn slots() -> Vec<Wrong> {
    vec![
        wrong("the period word counted in a meeting", |e| {
            e.slot = |e, plan, leg| Slot { offset: sent(&e.checker, plan, leg).start, ..slot(e, plan, leg) }
        }),
        wrong("slots before the offset counted", |e| {
            e.slot = |e, plan, leg| {
                let slot = slot(e, plan, leg);
                Slot { offset: slot.offset % slot.period, ..slot }
            }
        }),
        wrong("slots closed at their end", |e| {
            e.slot = |e, plan, leg| {
                let slot = slot(e, plan, leg);
                Slot { hold: slot.hold + 1, ..slot }
            }
        }),
        wrong("slots open at their beginning", |e| {
            e.slot = |e, plan, leg| {
                let slot = slot(e, plan, leg);
                Slot { offset: slot.offset + 1, hold: slot.hold - 1, ..slot }
            }
        }),
        wrong("the deadline for the period of a meeting", |e| {
            e.slot = |e, plan, leg| Slot { period: sent(&e.checker, plan, leg).deadline, ..slot(e, plan, leg) }
        }),
    ]
}

/// The first meeting, with something changed.
fn changed(a: &Slot, b: &Slot, change: impl Fn(Met) -> Met) -> Option<Met> {
    meet(a, b).map(change)
}

/// Each instant of one cycle at which a repeat begins and both hold the link, in the order of time, as far as they are walked.
fn all_meetings(a: &Slot, b: &Slot) -> Vec<Met> {
    let mut instant = a.offset.max(b.offset);
    let end = instant + cycle(a, b);
    let mut found = Vec::new();
    for _ in 0..20_000 {
        let (first, second) = match (a.begun(instant), b.begun(instant)) {
            (Some(first), Some(second)) if instant < end => (first, second),
            _ => break,
        };
        if a.is_held(first, instant) && b.is_held(second, instant) {
            found.push(Met { first, second, instant });
        }
        instant = a.begin(first + 1).min(b.begin(second + 1));
    }
    found
}

fn meets() -> Vec<Wrong> {
    vec![
        wrong("the latest meeting of a cycle", |e| e.meet = |a, b| all_meetings(a, b).pop()),
        wrong("the second meeting, where there is one", |e| {
            e.meet = |a, b| {
                let found = all_meetings(a, b);
                found.get(1).or(found.first()).copied().or_else(|| meet(a, b))
            }
        }),
        wrong("a meeting one cycle later", |e| {
            e.meet = |a, b| {
                let more = |slot: &Slot| cycle(a, b) / slot.period;
                changed(a, b, |met| Met {
                    first: met.first + more(a),
                    second: met.second + more(b),
                    instant: met.instant + cycle(a, b),
                })
            }
        }),
        wrong("the repeats of a meeting exchanged", |e| {
            e.meet = |a, b| changed(a, b, |met| Met { first: met.second, second: met.first, ..met })
        }),
        wrong("repeats counted from 1", |e| {
            e.meet = |a, b| changed(a, b, |met| Met { first: met.first + 1, second: met.second + 1, ..met })
        }),
        wrong("the first repeat that still holds the link, not the last that has begun", |e| {
            e.meet = |a, b| {
                changed(a, b, |met| {
                    let holding = |slot: &Slot| (0..).find(|&repeat| slot.is_held(repeat, met.instant)).unwrap_or(0);
                    let far = met.first.max(met.second) > 2_000;
                    if far {
                        met
                    } else {
                        Met { first: holding(a), second: holding(b), ..met }
                    }
                })
            }
        }),
        wrong("the instant at which the earlier repeat began", |e| {
            e.meet = |a, b| changed(a, b, |met| Met { instant: a.begin(met.first).min(b.begin(met.second)), ..met })
        }),
        wrong("the last shared instant", |e| {
            e.meet = |a, b| {
                changed(a, b, |met| Met {
                    instant: (a.begin(met.first) + a.hold).min(b.begin(met.second) + b.hold) - 1,
                    ..met
                })
            }
        }),
        wrong("the instant counted in the period of the first leg", |e| {
            e.meet = |a, b| changed(a, b, |met| Met { instant: met.instant % a.period, ..met })
        }),
        wrong("the instant in 32 bits", |e| {
            e.meet = |a, b| changed(a, b, |met| Met { instant: met.instant & 0xFFFF_FFFF, ..met })
        }),
        wrong("repeats in 16 bits", |e| {
            e.meet = |a, b| changed(a, b, |met| Met { first: met.first & 0xFFFF, second: met.second & 0xFFFF, ..met })
        }),
        wrong("repeat 0 of both alone", |e| e.meet = |a, b| meet(a, b).filter(|met| (met.first, met.second) == (0, 0))),
        wrong("a cycle from instant 0 on alone", |e| {
            e.meet = |a, b| meet(a, b).filter(|met| met.instant < cycle(a, b))
        }),
        wrong("no meeting where the second leg begins", |e| {
            e.meet = |a, b| {
                let found = all_meetings(a, b);
                found.into_iter().find(|met| a.begin(met.first) == met.instant)
            }
        }),
        wrong("no meeting where the first leg begins", |e| {
            e.meet = |a, b| {
                let found = all_meetings(a, b);
                found.into_iter().find(|met| b.begin(met.second) == met.instant)
            }
        }),
        wrong("no meeting but where both begin", |e| {
            e.meet = |a, b| {
                let both = |met: &Met| a.begin(met.first) == met.instant && b.begin(met.second) == met.instant;
                all_meetings(a, b).into_iter().find(both)
            }
        }),
        wrong("the hold of the first leg for both", |e| e.meet = |a, b| meet(a, &Slot { hold: a.hold, ..*b })),
        wrong("the hold of the second leg for both", |e| e.meet = |a, b| meet(&Slot { hold: b.hold, ..*a }, b)),
        wrong("the period of the first leg for both", |e| e.meet = |a, b| meet(a, &Slot { period: a.period, ..*b })),
        wrong("the period of the second leg for both", |e| e.meet = |a, b| meet(&Slot { period: b.period, ..*a }, b)),
        wrong("a hold cut off at the end of its period", |e| {
            e.meet = |a, b| {
                let cut = |slot: &Slot| {
                    let left = slot.period.saturating_sub(slot.offset % slot.period);
                    Slot { hold: slot.hold.min(left), ..*slot }
                };
                meet(&cut(a), &cut(b))
            }
        }),
        wrong("never where the cycle is longer than a word", |e| {
            e.meet = |a, b| meet(a, b).filter(|_| cycle(a, b) <= u64::from(u32::MAX))
        }),
        wrong("never after 10,000 repeats", |e| {
            e.meet = |a, b| meet(a, b).filter(|met| met.first.max(met.second) <= 10_000)
        }),
        wrong("never where the periods are coprime", |e| e.meet = |a, b| meet(a, b).filter(|_| common(a, b) > 1)),
        wrong("never where the periods are equal", |e| e.meet = |a, b| meet(a, b).filter(|_| a.period != b.period)),
    ]
}

fn pairs() -> Vec<Wrong> {
    vec![
        wrong("links not looked at", |e| {
            e.meeting = |e, plan, leg, other| (e.meet)(&(e.slot)(e, plan, leg), &(e.slot)(e, plan, other))
        }),
        wrong("a leg never meets itself", |e| {
            e.meeting = |e, plan, leg, other| meeting(e, plan, leg, other).filter(|_| leg != other)
        }),
        wrong("the lower leg told first", |e| {
            e.meeting = |e, plan, leg, other| meeting(e, plan, leg.min(other), leg.max(other))
        }),
        wrong("only lower legs met", |e| {
            e.meeting = |e, plan, leg, other| meeting(e, plan, leg, other).filter(|_| other <= leg)
        }),
        wrong("the leg before the other one met", |e| {
            e.meeting = |e, plan, leg, other| meeting(e, plan, leg, other.saturating_sub(1))
        }),
    ]
}

// ---- Margins

fn windows() -> Vec<Wrong> {
    vec![
        wrong("the period word counted in the window", |e| {
            e.window = |e, plan, leg| {
                let leg = sent(&e.checker, plan, leg);
                Numbers::Sides { needs: leg.start + leg.hold, has: leg.period.into() }
            }
        }),
        wrong("the offset counted in its period", |e| {
            e.window = |e, plan, leg| {
                let leg = sent(&e.checker, plan, leg);
                Numbers::Sides { needs: leg.offset % u64::from(leg.period) + leg.hold, has: leg.period.into() }
            }
        }),
        wrong("the window without the gap", |e| {
            e.window = |e, plan, leg| {
                let leg = sent(&e.checker, plan, leg);
                Numbers::Sides { needs: leg.offset + leg.wire, has: leg.period.into() }
            }
        }),
        wrong("the window by the deadline", |e| {
            e.window = |e, plan, leg| {
                let leg = sent(&e.checker, plan, leg);
                Numbers::Sides { needs: leg.offset + leg.hold, has: leg.deadline }
            }
        }),
    ]
}

/// The hop of a leg that has one, by another count of what it needs.
fn hop_by(e: &Explainer, plan: &Plan, leg: usize, needs: impl Fn(&rules::Sent, &rules::Sent) -> u64) -> Numbers {
    match hop(e, plan, leg) {
        Numbers::Sides { has, .. } => {
            let (previous, own) = (sent(&e.checker, plan, leg - 1), sent(&e.checker, plan, leg));
            Numbers::Sides { needs: needs(&previous, &own), has }
        }
        free => free,
    }
}

fn hops() -> Vec<Wrong> {
    vec![
        wrong("the gap in the hop", |e| {
            e.hop = |e, plan, leg| {
                let precision = u64::from(plan.precision);
                hop_by(e, plan, leg, |previous, _| arrival(previous, precision) + previous.hold - previous.wire)
            }
        }),
        wrong("the hop without the precision", |e| {
            e.hop = |e, plan, leg| hop_by(e, plan, leg, |previous, _| arrival(previous, 0))
        }),
        wrong("the hop without the propagation", |e| {
            e.hop = |e, plan, leg| {
                let precision = u64::from(plan.precision);
                hop_by(e, plan, leg, |previous, _| arrival(previous, precision) - previous.propagation)
            }
        }),
        wrong("the hop by the propagation of the own link", |e| {
            e.hop = |e, plan, leg| {
                let precision = u64::from(plan.precision);
                let needs = |before: &rules::Sent, own: &rules::Sent| {
                    arrival(before, precision) + own.propagation - before.propagation
                };
                hop_by(e, plan, leg, needs)
            }
        }),
        wrong("the hop by the offset of the leg before", |e| {
            e.hop = |e, plan, leg| {
                let precision = u64::from(plan.precision);
                hop_by(e, plan, leg, |before, _| arrival(before, precision) + before.offset - before.start)
            }
        }),
        wrong("the hop by the own offset", |e| {
            e.hop = |e, plan, leg| match hop(e, plan, leg) {
                Numbers::Sides { needs, .. } => Numbers::Sides { needs, has: plan.legs[leg].offset.into() },
                free => free,
            }
        }),
        wrong("the hop from the first leg", |e| {
            e.hop = |e, plan, leg| match hop(e, plan, leg) {
                Numbers::Sides { has, .. } => {
                    let first = sent(&e.checker, plan, first_of_its_stream(plan, leg));
                    Numbers::Sides { needs: arrival(&first, plan.precision.into()), has }
                }
                free => free,
            }
        }),
        wrong("the hop of a first leg asked", |e| {
            e.hop = |e, plan, leg| {
                let previous = match leg.checked_sub(1) {
                    Some(previous) => sent(&e.checker, plan, previous),
                    None => return Numbers::Free,
                };
                let has = sent(&e.checker, plan, leg).start;
                Numbers::Sides { needs: arrival(&previous, plan.precision.into()), has }
            }
        }),
        wrong("the hop of a last leg not asked", |e| {
            e.hop = |e, plan, leg| {
                if leg == last_of_its_stream(plan, leg) {
                    Numbers::Free
                } else {
                    hop(e, plan, leg)
                }
            }
        }),
    ]
}

/// The deadline of a last leg, with its two sides changed.
fn deadline_by(e: &Explainer, plan: &Plan, leg: usize, change: impl Fn(u64, u64) -> (u64, u64)) -> Numbers {
    match deadline(e, plan, leg) {
        Numbers::Sides { needs, has } => {
            let (needs, has) = change(needs, has);
            Numbers::Sides { needs, has }
        }
        free => free,
    }
}

fn deadlines() -> Vec<Wrong> {
    vec![
        wrong("the deadline from instant 0", |e| {
            e.deadline = |e, plan, leg| {
                let due = sent(&e.checker, plan, leg).deadline;
                deadline_by(e, plan, leg, |needs, _| (needs, due))
            }
        }),
        wrong("the deadline from the offset of the first leg", |e| {
            e.deadline = |e, plan, leg| {
                let first = sent(&e.checker, plan, first_of_its_stream(plan, leg));
                deadline_by(e, plan, leg, |needs, has| (needs, has + first.offset - first.start))
            }
        }),
        wrong("the deadline from the start of the last leg", |e| {
            e.deadline = |e, plan, leg| {
                let own = sent(&e.checker, plan, leg);
                deadline_by(e, plan, leg, |needs, _| (needs, own.deadline + own.start))
            }
        }),
        wrong("the gap in the deadline", |e| {
            e.deadline = |e, plan, leg| {
                let own = sent(&e.checker, plan, leg);
                deadline_by(e, plan, leg, |needs, has| (needs + own.hold - own.wire, has))
            }
        }),
        wrong("the deadline without the precision", |e| {
            e.deadline = |e, plan, leg| {
                let precision = u64::from(plan.precision);
                deadline_by(e, plan, leg, |needs, has| (needs - precision, has))
            }
        }),
        wrong("the deadline without the propagation", |e| {
            e.deadline = |e, plan, leg| {
                let propagation = sent(&e.checker, plan, leg).propagation;
                deadline_by(e, plan, leg, |needs, has| (needs - propagation, has))
            }
        }),
        wrong("the period for the deadline", |e| {
            e.deadline = |e, plan, leg| {
                let own = sent(&e.checker, plan, leg);
                deadline_by(e, plan, leg, |needs, has| (needs, has + u64::from(own.period) - own.deadline))
            }
        }),
        wrong("both sides of the deadline without the first start", |e| {
            e.deadline = |e, plan, leg| {
                let first = sent(&e.checker, plan, first_of_its_stream(plan, leg)).start;
                deadline_by(e, plan, leg, |needs, has| (needs.saturating_sub(first), has - first))
            }
        }),
        wrong("the deadline asked of every leg", |e| {
            e.deadline = |e, plan, leg| {
                let (first, own) =
                    (sent(&e.checker, plan, first_of_its_stream(plan, leg)), sent(&e.checker, plan, leg));
                Numbers::Sides { needs: arrival(&own, plan.precision.into()), has: own.deadline + first.start }
            }
        }),
        wrong("the deadline of an only leg not asked", |e| {
            e.deadline = |e, plan, leg| {
                if leg == first_of_its_stream(plan, leg) {
                    Numbers::Free
                } else {
                    deadline(e, plan, leg)
                }
            }
        }),
    ]
}

/// The turns of two legs of one link, changed.
fn turns(e: &Explainer, plan: &Plan, leg: usize, other: usize, change: impl Fn([u64; 4]) -> [u64; 4]) -> Numbers {
    match overlap(e, plan, leg, other) {
        Numbers::Turns { divisor, after, hold, other } => {
            let [divisor, after, hold, other] = change([divisor, after, hold, other]);
            Numbers::Turns { divisor, after, hold, other }
        }
        free => free,
    }
}

/// The turns by another divisor.
fn by_divisor(e: &Explainer, plan: &Plan, leg: usize, other: usize, divisor: u64) -> Numbers {
    let [a, b] = [leg, other].map(|leg| plan.legs[leg].offset as i64);
    let after = (b - a).rem_euclid(divisor as i64) as u64;
    turns(e, plan, leg, other, |[_, _, hold, other]| [divisor, after, hold, other])
}

fn period_of(plan: &Plan, leg: usize) -> u32 {
    plan.streams[plan.legs[leg].stream as usize].period
}

fn overlaps() -> Vec<Wrong> {
    vec![
        wrong("the divisor of another pair", |e| {
            e.overlap = |e, plan, leg, other| {
                let divisor = rules::divisor(period_of(plan, leg), period_of(plan, 0));
                by_divisor(e, plan, leg, other, divisor.into())
            }
        }),
        wrong("the lesser period for the divisor", |e| {
            e.overlap = |e, plan, leg, other| {
                let least = period_of(plan, leg).min(period_of(plan, other));
                by_divisor(e, plan, leg, other, least.into())
            }
        }),
        wrong("the period of the leg for the divisor", |e| {
            e.overlap = |e, plan, leg, other| by_divisor(e, plan, leg, other, period_of(plan, leg).into())
        }),
        wrong("the period of the other leg for the divisor", |e| {
            e.overlap = |e, plan, leg, other| by_divisor(e, plan, leg, other, period_of(plan, other).into())
        }),
        wrong("the least common multiple for the divisor", |e| {
            e.overlap = |e, plan, leg, other| {
                let cycle = cycle(&slot(e, plan, leg), &slot(e, plan, other));
                by_divisor(e, plan, leg, other, cycle)
            }
        }),
        wrong("another common divisor", |e| {
            e.overlap = |e, plan, leg, other| {
                let greatest = rules::divisor(period_of(plan, leg), period_of(plan, other));
                let divisor = if greatest % 2 == 0 { greatest / 2 } else { greatest };
                by_divisor(e, plan, leg, other, divisor.into())
            }
        }),
        wrong("after and the rest of the divisor exchanged", |e| {
            e.overlap = |e, plan, leg, other| {
                turns(e, plan, leg, other, |[divisor, after, hold, other]| [divisor, divisor - after, hold, other])
            }
        }),
        wrong("after counted from the other leg", |e| {
            e.overlap = |e, plan, leg, other| {
                turns(e, plan, leg, other, |[divisor, after, hold, other]| {
                    [divisor, (divisor - after) % divisor, hold, other]
                })
            }
        }),
        wrong("the whole divisor for after 0", |e| {
            e.overlap = |e, plan, leg, other| {
                turns(e, plan, leg, other, |[divisor, after, hold, other]| {
                    [divisor, if after == 0 { divisor } else { after }, hold, other]
                })
            }
        }),
        wrong("after by the difference of the offsets alone", |e| {
            e.overlap = |e, plan, leg, other| {
                let apart = plan.legs[leg].offset.abs_diff(plan.legs[other].offset);
                turns(e, plan, leg, other, |[divisor, _, hold, other]| {
                    [divisor, u64::from(apart) % divisor, hold, other]
                })
            }
        }),
        wrong("the period word times 1,000 ns counted in the overlap", |e| {
            e.overlap = |e, plan, leg, other| {
                let late = 1_000 * u64::from(plan.legs[other].periods);
                turns(e, plan, leg, other, |[divisor, after, hold, other]| {
                    [divisor, (after + late) % divisor, hold, other]
                })
            }
        }),
        wrong("hold and other exchanged", |e| {
            e.overlap = |e, plan, leg, other| {
                turns(e, plan, leg, other, |[divisor, after, hold, other]| [divisor, after, other, hold])
            }
        }),
        wrong("the hold of the leg for both in the overlap", |e| {
            e.overlap = |e, plan, leg, other| {
                turns(e, plan, leg, other, |[divisor, after, hold, _]| [divisor, after, hold, hold])
            }
        }),
        wrong("an overlap asked of legs on different links", |e| {
            e.overlap = |e, plan, leg, other| {
                let mut moved = plan.clone();
                moved.legs[other].link = moved.legs[leg].link;
                overlap(e, &moved, leg, other)
            }
        }),
        wrong("an overlap of legs of one stream not asked", |e| {
            e.overlap = |e, plan, leg, other| {
                let is_next = leg == other + 1;
                if is_next {
                    Numbers::Free
                } else {
                    overlap(e, plan, leg, other)
                }
            }
        }),
        wrong("the overlap with the next lower leg", |e| {
            e.overlap = |e, plan, leg, other| overlap(e, plan, leg, other.saturating_sub(1))
        }),
    ]
}

/// What is to spare between two legs that take turns, by another count of what is left before the other leg and after it.
fn turned(numbers: Numbers, rest: impl Fn(i64, i64) -> i64) -> Spare {
    match numbers {
        Numbers::Turns { divisor, after, hold, other } => {
            of_a_rest(rest(after as i64 - hold as i64, divisor as i64 - after as i64 - other as i64))
        }
        _ => spare(numbers),
    }
}

/// What is lacking counted otherwise.
fn lacking(numbers: Numbers, lacks: impl Fn(i64, i64) -> i64) -> Spare {
    match (numbers, spare(numbers)) {
        (Numbers::Turns { divisor, after, hold, other }, Spare::Lacks(_)) => {
            let (before, after) = (hold as i64 - after as i64, other as i64 + after as i64 - divisor as i64);
            Spare::Lacks(lacks(before, after).unsigned_abs())
        }
        (_, spare) => spare,
    }
}

fn spares() -> Vec<Wrong> {
    vec![
        wrong("the spare of an overlap as the greater of both", |e| {
            e.spare = |numbers| match (spare(numbers), turned(numbers, i64::max)) {
                (Spare::Left(_), greater) => greater,
                (spare, _) => spare,
            }
        }),
        wrong("the spare of an overlap as the sum of both", |e| {
            e.spare = |numbers| match (spare(numbers), turned(numbers, |before, after| before + after)) {
                (Spare::Left(_), sum) => sum,
                (spare, _) => spare,
            }
        }),
        wrong("the spare before the other leg alone", |e| e.spare = |numbers| turned(numbers, |before, _| before)),
        wrong("the spare after the other leg alone", |e| e.spare = |numbers| turned(numbers, |_, after| after)),
        wrong("an overlap kept where one side is", |e| e.spare = |numbers| turned(numbers, i64::max)),
        wrong("what lacks as the lesser of both", |e| e.spare = |numbers| lacking(numbers, i64::min)),
        wrong("what lacks as the sum of both", |e| {
            e.spare = |numbers| lacking(numbers, |before, after| before.max(0) + after.max(0))
        }),
        wrong("what lacks before the other leg first", |e| {
            e.spare = |numbers| lacking(numbers, |before, after| if before > 0 { before } else { after })
        }),
        wrong("nothing to spare taken for violated", |e| {
            e.spare = |numbers| match spare(numbers) {
                Spare::Left(0) => Spare::Lacks(0),
                spare => spare,
            }
        }),
        wrong("1 ns too little taken for kept", |e| {
            e.spare = |numbers| match spare(numbers) {
                Spare::Lacks(1) => Spare::Left(0),
                spare => spare,
            }
        }),
        wrong("what lacks 1 ns less", |e| {
            e.spare = |numbers| match spare(numbers) {
                Spare::Lacks(lacks) => Spare::Lacks(lacks - 1),
                spare => spare,
            }
        }),
        wrong("what is left 1 ns more", |e| {
            e.spare = |numbers| match spare(numbers) {
                Spare::Left(left) => Spare::Left(left + 1),
                spare => spare,
            }
        }),
        wrong("spares in 32 bits", |e| {
            e.spare = |numbers| match spare(numbers) {
                Spare::Lacks(lacks) => Spare::Lacks(lacks & 0xFFFF_FFFF),
                Spare::Left(left) => Spare::Left(left & 0xFFFF_FFFF),
                Spare::Free => Spare::Free,
            }
        }),
    ]
}

// ---- Nearest offsets

/// The offsets at which a leg stands, in their order, where every one is tried.
fn standing(e: &Explainer, plan: &Plan, leg: usize, place: u32) -> Vec<u32> {
    let mut tried = plan.clone();
    let mut stands_at = |offset: &u32| {
        tried.legs[leg].offset = *offset;
        stands(e, &tried, leg, place)
    };
    (0..period_of(plan, leg).min(30_000)).filter(&mut stands_at).collect()
}

fn offsets() -> Vec<Wrong> {
    vec![
        wrong("nearest offsets without the window", |e| {
            e.stands = |e, plan, leg, place| e.checker.holds(plan, leg, place)
        }),
        wrong("nearest offsets without the place", |e| {
            e.stands = |e, plan, leg, _| e.checker.holds(plan, leg, WINDOW as u32)
        }),
        wrong("nearest offsets with all places of the leg", |e| {
            e.stands = |e, plan, leg, _| (0..places_of(leg as u32)).all(|place| e.checker.holds(plan, leg, place))
        }),
        wrong("nearest offsets with the hop too", |e| {
            e.stands = |e, plan, leg, place| stands(e, plan, leg, place) && e.checker.holds(plan, leg, HOP as u32)
        }),
        wrong("nearest offsets with the next hop too", |e| {
            e.stands = |e, plan, leg, place| {
                let is_last = leg == last_of_its_stream(plan, leg);
                stands(e, plan, leg, place) && (is_last || e.checker.holds(plan, leg + 1, HOP as u32))
            }
        }),
        wrong("nearest offsets with the deadline of the stream too", |e| {
            e.stands = |e, plan, leg, place| {
                let last = last_of_its_stream(plan, leg);
                stands(e, plan, leg, place) && e.checker.holds(plan, last, DEADLINE as u32)
            }
        }),
        wrong("nearest offsets by the overlap without the gap", |e| {
            e.stands = |e, plan, leg, place| {
                let mut wired = *e;
                wired.checker.hold_time = rules::wire_time;
                e.checker.holds(plan, leg, WINDOW as u32) && wired.checker.holds(plan, leg, place)
            }
        }),
        wrong("the window of a nearest offset without the gap", |e| {
            e.stands = |e, plan, leg, place| {
                let mut wired = *e;
                wired.checker.hold_time = rules::wire_time;
                wired.checker.holds(plan, leg, WINDOW as u32) && e.checker.holds(plan, leg, place)
            }
        }),
        wrong("a nearest offset not at the end of the window", |e| {
            e.stands = |e, plan, leg, place| {
                let own = sent(&e.checker, plan, leg);
                stands(e, plan, leg, place) && own.offset + own.hold < own.period.into()
            }
        }),
        wrong("a nearest offset not at 0", |e| {
            e.stands = |e, plan, leg, place| stands(e, plan, leg, place) && plan.legs[leg].offset > 0
        }),
        wrong("nearest offsets with the period word 0", |e| {
            e.near = |e, plan, leg, place| {
                let mut early = plan.clone();
                early.legs[leg].periods = 0;
                near(e, &early, leg, place)
            }
        }),
        wrong("nearest offsets with the next period word", |e| {
            e.near = |e, plan, leg, place| {
                let mut late = plan.clone();
                late.legs[leg].periods = (late.legs[leg].periods + 1).min(7);
                near(e, &late, leg, place)
            }
        }),
        wrong("nearest offsets with any period word", |e| {
            e.near = |e, plan, leg, place| {
                let all = (0..8).map(|periods| {
                    let mut other = plan.clone();
                    other.legs[leg].periods = periods;
                    near(e, &other, leg, place)
                });
                let all: Vec<Near> = all.collect();
                Near {
                    below: all.iter().filter_map(|near| near.below).max(),
                    above: all.iter().filter_map(|near| near.above).min(),
                }
            }
        }),
        wrong("a nearest offset that may stay where it is", |e| {
            e.near = |e, plan, leg, place| {
                let found = near(e, plan, leg, place);
                let own = Some(plan.legs[leg].offset).filter(|_| stands(e, plan, leg, place));
                Near { below: own.or(found.below), above: own.or(found.above) }
            }
        }),
        wrong("a nearest offset above that may stay where it is", |e| {
            e.near = |e, plan, leg, place| {
                let own = Some(plan.legs[leg].offset).filter(|_| stands(e, plan, leg, place));
                let found = near(e, plan, leg, place);
                Near { above: own.or(found.above), ..found }
            }
        }),
        wrong("nowhere else where the place holds already", |e| {
            e.near = |e, plan, leg, place| {
                if stands(e, plan, leg, place) {
                    return Near { below: None, above: None };
                }
                near(e, plan, leg, place)
            }
        }),
        wrong("below and above exchanged", |e| {
            e.near = |e, plan, leg, place| {
                let Near { below, above } = near(e, plan, leg, place);
                Near { below: above, above: below }
            }
        }),
        wrong("the nearer of both alone", |e| {
            e.near = |e, plan, leg, place| {
                let (found, own) = (near(e, plan, leg, place), plan.legs[leg].offset);
                match (found.below, found.above) {
                    (Some(below), Some(above)) if own - below <= above - own => Near { above: None, ..found },
                    (Some(_), Some(_)) => Near { below: None, ..found },
                    _ => found,
                }
            }
        }),
        wrong("the lowest offset and the highest", |e| {
            e.near = |e, plan, leg, place| {
                let (all, own) = (standing(e, plan, leg, place), plan.legs[leg].offset);
                Near {
                    below: all.first().copied().filter(|&offset| offset < own),
                    above: all.last().copied().filter(|&offset| offset > own),
                }
            }
        }),
        wrong("round the end of the period", |e| {
            e.near = |e, plan, leg, place| {
                let all = standing(e, plan, leg, place);
                let found = near(e, plan, leg, place);
                Near { below: found.below.or(all.last().copied()), above: found.above.or(all.first().copied()) }
            }
        }),
        wrong("how far to move told for the offset", |e| {
            e.near = |e, plan, leg, place| {
                let (found, own) = (near(e, plan, leg, place), plan.legs[leg].offset);
                Near { below: found.below.map(|below| own - below), above: found.above.map(|above| above - own) }
            }
        }),
        wrong("the offset counted from the leg's own in its period", |e| {
            e.near = |e, plan, leg, place| {
                let mut own = plan.clone();
                own.legs[leg].offset %= period_of(plan, leg);
                near(e, &own, leg, place)
            }
        }),
        wrong("nothing below from beyond the period", |e| {
            e.near = |e, plan, leg, place| {
                let found = near(e, plan, leg, place);
                Near { below: found.below.filter(|_| plan.legs[leg].offset < period_of(plan, leg)), ..found }
            }
        }),
        wrong("nothing that is further off than a hold time", |e| {
            e.near = |e, plan, leg, place| {
                let (found, own) = (near(e, plan, leg, place), sent(&e.checker, plan, leg));
                let is_near = |offset: &u32| u64::from(*offset).abs_diff(own.offset) <= own.hold;
                Near { below: found.below.filter(is_near), above: found.above.filter(is_near) }
            }
        }),
        wrong("the deadline of an only leg from where it was", |e| {
            e.near = |e, plan, leg, place| {
                let found = near(e, plan, leg, place);
                if place != DEADLINE as u32 || first_of_its_stream(plan, leg) != leg {
                    return found;
                }
                match deadline(e, plan, leg) {
                    Numbers::Sides { needs, has } if needs <= has => found,
                    Numbers::Sides { needs, has } => {
                        let due = i64::from(plan.legs[leg].offset) - (needs - has) as i64;
                        Near { below: Some(due.max(0) as u32).filter(|_| due >= 0), above: None }
                    }
                    _ => found,
                }
            }
        }),
        wrong("the other leg moved in place of the leg", |e| {
            e.near = |e, plan, leg, place| {
                if place < OVERLAPS {
                    return near(e, plan, leg, place);
                }
                let other = (place - OVERLAPS) as usize;
                let mut turned = plan.clone();
                turned.legs.swap(leg, other);
                near(e, &turned, leg, place)
            }
        }),
        wrong("by tries that end 1 ns before the last of the window", |e| {
            e.near = |e, plan, leg, place| {
                let found = near(e, plan, leg, place);
                let own = sent(&e.checker, plan, leg);
                let is_last = |offset: &u32| u64::from(*offset) + own.hold == own.period.into();
                Near { above: found.above.filter(|offset| !is_last(offset)), ..found }
            }
        }),
    ]
}

// ---- Surveys

fn surveys() -> Vec<Wrong> {
    /// The right survey without some places.
    fn without(e: &Explainer, plan: &Plan, is_out: impl Fn(&[Violated], &Violated) -> bool) -> Vec<Violated> {
        let mut found: Vec<Violated> = Vec::new();
        for at in survey(e, plan) {
            if !is_out(&found, &at) {
                found.push(at);
            }
        }
        found
    }
    vec![
        wrong("a survey of the first place alone", |e| {
            e.survey = |e, plan| without(e, plan, |found, _| !found.is_empty())
        }),
        wrong("a survey of the first place of each leg", |e| {
            e.survey = |e, plan| without(e, plan, |found, at| found.iter().any(|other| other.leg == at.leg))
        }),
        wrong("a survey of the first place of each rule", |e| {
            e.survey = |e, plan| without(e, plan, |found, at| found.iter().any(|other| other.result == at.result))
        }),
        wrong("a survey that leaves out the place after a violated one", |e| {
            e.survey = |e, plan| {
                without(e, plan, |found, at| {
                    found.last().map_or(false, |last| (last.leg, last.place + 1) == (at.leg, at.place))
                })
            }
        }),
        wrong("a survey without the last place of a leg", |e| {
            e.survey = |e, plan| without(e, plan, |_, at| at.place + 1 == places_of(at.leg))
        }),
        wrong("a survey without the last leg", |e| {
            e.survey = |e, plan| without(e, plan, |_, at| at.leg as usize + 1 == plan.legs.len())
        }),
        wrong("a survey by rule", |e| {
            e.survey = |e, plan| {
                let mut found = survey(e, plan);
                found.sort_by_key(|at| at.result);
                found
            }
        }),
        wrong("a survey from the last place on", |e| e.survey = |e, plan| survey(e, plan).into_iter().rev().collect()),
        wrong("a survey with each overlap at both legs", |e| {
            e.survey = |e, plan| {
                let mut found = survey(e, plan);
                let is_overlap = |at: &&Violated| at.result == RULES[OVERLAP].result;
                let turned = |at: &Violated| Violated { leg: at.place - OVERLAPS, place: OVERLAPS + at.leg, ..*at };
                let more: Vec<Violated> = found.iter().filter(is_overlap).map(turned).collect();
                found.extend(more);
                found.sort_by_key(|at| (at.leg, at.place));
                found
            }
        }),
        wrong("a survey that names the other leg", |e| {
            e.survey = |e, plan| {
                let other = |at: Violated| Violated { place: at.place.saturating_sub(OVERLAPS), ..at };
                survey(e, plan).into_iter().map(other).collect()
            }
        }),
    ]
}

// ---- Times that all calls share

fn times() -> Vec<Wrong> {
    let all = [Kind::Meeting, Kind::Margin, Kind::Nearest, Kind::Survey];
    let mut found = each(&all, "the wire time for the hold time", |e| e.checker.hold_time = rules::wire_time);
    found.extend(each(&all, "a gap of 11 octets", |e| {
        e.checker.hold_time = |c, octets, rate| rules::hold_time(c, octets, rate) - u64::from(rate)
    }));
    found.extend(each(&all, "the gap counted twice", |e| {
        e.checker.hold_time = |c, octets, rate| rules::hold_time(c, octets, rate) + 12 * u64::from(rate)
    }));
    found.extend(each(&all, "8 ns per octet on every link", |e| {
        e.checker.hold_time = |c, octets, _| rules::hold_time(c, octets, 8);
        e.checker.wire_time = |c, octets, _| rules::wire_time(c, octets, 8);
    }));
    let wired = [Kind::Margin, Kind::Nearest, Kind::Survey];
    found.extend(each(&wired, "the hold time for the wire time", |e| e.checker.wire_time = rules::hold_time));
    found.extend(each(&wired, "starts without period words", |e| {
        e.checker.start = |_, plan, leg| plan.legs[leg].offset.into()
    }));
    found.extend(each(&wired, "starts one period later", |e| {
        e.checker.start = |c, plan, leg| {
            let more = u64::from(plan.legs[leg].periods > 0);
            rules::start(c, plan, leg) + more * u64::from(plan.streams[plan.legs[leg].stream as usize].period)
        }
    }));
    found
}

// ---- Refusals

const ASKING: [Kind; 2] = [Kind::Margin, Kind::Nearest];
const THREE: [Kind; 3] = [Kind::Meeting, Kind::Margin, Kind::Nearest];

/// 9 or 10 comes before these.
fn asked_before(e: &Explainer, call: &Call, late: &[u32]) -> Outcome<Plan> {
    let found = opened(e, call);
    match &found {
        Err(refusal) if late.contains(&refusal.number) => {
            let plan = e.checker.read_plan(&call.plan)?;
            asked(&plan, call)?;
            found
        }
        _ => found,
    }
}

fn has_leg(plan: &Plan, leg: u32) -> bool {
    (leg as usize) < plan.legs.len()
}

fn refusals() -> Vec<Wrong> {
    let mut found = vec![
        wrong("9 and 10 exchanged", |e| {
            e.asked = |plan, call| {
                asked(plan, call).map_err(|refusal| Refusal { number: NO_PLACE + NO_LEG - refusal.number, ..refusal })
            }
        }),
        wrong("the first leg alone looked for", |e| {
            e.asked = |plan, call| match call.kind {
                Kind::Meeting if has_leg(plan, call.leg) => Ok(()),
                _ => asked(plan, call),
            };
            e.meeting = |e, plan, leg, other| meeting(e, plan, leg, other.min(plan.legs.len() - 1));
        }),
        wrong("the second leg alone looked for", |e| {
            e.asked = |plan, call| match call.kind {
                Kind::Meeting if has_leg(plan, call.second) => Ok(()),
                _ => asked(plan, call),
            };
            e.meeting = |e, plan, leg, other| meeting(e, plan, leg.min(plan.legs.len() - 1), other);
        }),
        wrong("a leg and itself refused with 10", |e| {
            e.asked = |plan, call| match call.kind {
                Kind::Meeting if call.leg == call.second => refused(NO_LEG, 0),
                _ => asked(plan, call),
            }
        }),
        wrong("a higher other leg refused with 10", |e| {
            e.asked = |plan, call| match call.kind {
                Kind::Meeting if call.leg < call.second => refused(NO_LEG, 0),
                _ => asked(plan, call),
            }
        }),
        wrong("legs on different links refused with 10", |e| {
            e.asked = |plan, call| {
                asked(plan, call)?;
                let link = |leg: u32| plan.legs[leg as usize].link;
                match call.kind {
                    Kind::Meeting if link(call.leg) != link(call.second) => refused(NO_LEG, 0),
                    _ => Ok(()),
                }
            }
        }),
        wrong("10 at the leg", |e| {
            e.asked = |plan, call| match asked(plan, call) {
                Err(Refusal { number: NO_LEG, .. }) => refused(NO_LEG, call.leg as usize),
                other => other,
            }
        }),
        wrong("10 at 1 for the second leg", |e| {
            e.asked = |plan, call| match asked(plan, call) {
                Err(Refusal { number: NO_LEG, .. }) => refused(NO_LEG, usize::from(has_leg(plan, call.leg))),
                other => other,
            }
        }),
        wrong("never where a leg is not there", |e| {
            e.told = |answer, call| match answer {
                Answer::Refused(Refusal { number: NO_LEG, .. }) => told(Answer::Meeting(None), call),
                answer => told(answer, call),
            }
        }),
        wrong("legs by their low 16 bits", |e| {
            e.asked = |plan, call| asked(plan, &Call { leg: call.leg & 0xFFFF, ..call.clone() });
            e.meeting = |e, plan, leg, other| meeting(e, plan, leg & 0xFFFF, other);
        }),
    ];
    found.extend(each(&ASKING, "10 in place of 9 where the leg is not there", |e| {
        e.asked = |plan, call| match asked(plan, call) {
            Err(Refusal { number: NO_PLACE, at }) if !has_leg(plan, call.leg) => refused(NO_LEG, at),
            other => other,
        }
    }));
    found.extend(each(&ASKING, "the overlap with itself taken for a place", |e| {
        e.asked = |plan, call| match asked(plan, call) {
            Err(_) if has_leg(plan, call.leg) && call.second == places_of(call.leg) => Ok(()),
            other => other,
        }
    }));
    found.extend(each(&ASKING, "the last place of a leg refused", |e| {
        e.asked = |plan, call| match asked(plan, call) {
            Ok(()) if call.kind != Kind::Meeting && call.second > 2 && call.second + 1 == places_of(call.leg) => {
                refused(NO_PLACE, 0)
            }
            other => other,
        }
    }));
    found.extend(each(&ASKING, "a place where nothing is asked refused", |e| {
        e.asked = |plan, call| {
            asked(plan, call)?;
            let is_first = first_of_its_stream(plan, call.leg as usize) == call.leg as usize;
            match call.kind {
                Kind::Margin | Kind::Nearest if is_first && call.second == HOP as u32 => refused(NO_PLACE, 0),
                _ => Ok(()),
            }
        }
    }));
    found.extend(each(&ASKING, "places by the number of all legs", |e| {
        e.asked = |plan, call| match asked(plan, call) {
            Err(_) if has_leg(plan, call.leg) && call.second < places_of(plan.legs.len() as u32) => Ok(()),
            other => other,
        }
    }));
    found.extend(each(&ASKING, "9 at the place", |e| {
        e.asked = |plan, call| match asked(plan, call) {
            Err(Refusal { number: NO_PLACE, .. }) => refused(NO_PLACE, call.second as usize),
            other => other,
        }
    }));
    found.extend(each(&ASKING, "the end taken for a place that holds", |e| {
        e.told = |answer, call| match answer {
            Answer::Refused(Refusal { number: NO_PLACE, .. }) if call.second == 0 => {
                Told { numbers: with(&[]), places: Vec::new() }
            }
            answer => told(answer, call),
        }
    }));
    found.extend(each(&THREE, "8 in place of it", |e| {
        e.asked = |plan, call| asked(plan, call).map_err(|refusal| Refusal { number: STALE, ..refusal })
    }));
    found.extend(each(&THREE, "9 or 10 before 7", |e| e.opened = |e, call| asked_before(e, call, &[LEG_WRONG])));
    found.extend(each(&THREE, "9 or 10 before 6", |e| e.opened = |e, call| asked_before(e, call, &[STREAM_WRONG])));
    found.extend(each(&THREE, "9 or 10 before 5", |e| e.opened = |e, call| asked_before(e, call, &[LINK_TWICE])));
    found.extend(each(&THREE, "9 or 10 before 4", |e| e.opened = |e, call| asked_before(e, call, &[LINK_RANGE])));
    found.extend(each(&THREE, "bytes left over taken", |e| e.checker.plan_ends = |_, _, _| Ok(())));
    found.extend(each(&THREE, "links not judged", |e| e.checker.links_in_range = |_, _| Ok(())));
    found.extend(each(&THREE, "equal links taken", |e| e.checker.links_differ = |_, _| Ok(())));
    found.extend(each(&THREE, "streams not judged", |e| e.checker.streams = |_, _| Ok(())));
    found.extend(each(&THREE, "legs not judged", |e| e.checker.legs = |_, _| Ok(())));
    found.extend(each(&THREE, "a plan that is not accepted refused with 19", |e| {
        e.opened = |e, call| {
            let plan = opened(e, call)?;
            if survey(e, &plan).is_empty() {
                Ok(plan)
            } else {
                refused(19, 0)
            }
        }
    }));
    found.extend(each(&THREE, "all refusals at 0", |e| {
        e.told = |answer, call| match answer {
            Answer::Refused(refusal) => told(Answer::Refused(Refusal { at: 0, ..refusal }), call),
            answer => told(answer, call),
        }
    }));
    found.extend(each(&THREE, "refusals without the 100", |e| {
        e.told = |answer, call| {
            let mut told = told(answer, call);
            told.numbers[0] %= u64::from(REFUSED);
            told
        }
    }));
    found
}

// ---- What is told

/// The right answer in numbers, changed.
fn retold(answer: Answer, call: &Call, change: impl Fn(&mut [u64])) -> Told {
    let mut told = told(answer, call);
    change(&mut told.numbers);
    told
}

fn telling() -> Vec<Wrong> {
    vec![
        wrong("result 0 of legs that meet", |e| {
            e.told = |answer, call| match answer {
                Answer::Meeting(_) => retold(answer, call, |numbers| numbers[0] = 0),
                _ => told(answer, call),
            }
        }),
        wrong("result 5 of legs that meet", |e| {
            e.told = |answer, call| match answer {
                Answer::Meeting(_) => retold(answer, call, |numbers| numbers[0] *= 5),
                _ => told(answer, call),
            }
        }),
        wrong("result 1 of legs that never meet", |e| {
            e.told = |answer, call| match answer {
                Answer::Meeting(None) => Told { numbers: with(&[MET]), places: Vec::new() },
                _ => told(answer, call),
            }
        }),
        wrong("result 0 of a violated place", |e| {
            e.told = |answer, call| match answer {
                Answer::Margin(..) => retold(answer, call, |numbers| numbers[0] = 0),
                _ => told(answer, call),
            }
        }),
        wrong("the rule as the result of a place that holds", |e| {
            e.told = |answer, call| match answer {
                Answer::Margin(..) => retold(answer, call, |numbers| numbers[0] = numbers[2]),
                _ => told(answer, call),
            }
        }),
        wrong("the rule not told where it is kept", |e| {
            e.told = |answer, call| match answer {
                Answer::Margin(..) => retold(answer, call, |numbers| numbers[2] = numbers[0]),
                _ => told(answer, call),
            }
        }),
        wrong("rules counted from 0", |e| {
            e.told = |answer, call| match answer {
                Answer::Margin(..) => retold(answer, call, |numbers| numbers[2] -= 2),
                _ => told(answer, call),
            }
        }),
        wrong("asked where the rule asks nothing", |e| {
            e.told = |answer, call| match answer {
                Answer::Margin(..) => retold(answer, call, |numbers| numbers[3] = 1),
                _ => told(answer, call),
            }
        }),
        wrong("not asked where the place holds", |e| {
            e.told = |answer, call| match answer {
                Answer::Margin(_, _, Spare::Left(_)) => retold(answer, call, |numbers| numbers[3] = 0),
                _ => told(answer, call),
            }
        }),
        wrong("left and lacks exchanged", |e| {
            e.told = |answer, call| match answer {
                Answer::Margin(..) => retold(answer, call, |numbers| numbers.swap(4, 5)),
                _ => told(answer, call),
            }
        }),
        wrong("needs and has exchanged", |e| {
            e.told = |answer, call| match answer {
                Answer::Margin(..) => retold(answer, call, |numbers| numbers.swap(6, 7)),
                _ => told(answer, call),
            }
        }),
        wrong("needs and has of an overlap told", |e| {
            e.told = |answer, call| match answer {
                Answer::Margin(OVERLAP, ..) => retold(answer, call, |numbers| numbers[6] = numbers[10]),
                _ => told(answer, call),
            }
        }),
        wrong("the own offset told where there is none below", |e| {
            e.told = |answer, call| match answer {
                Answer::Nearest(Near { below: None, .. }) => {
                    retold(answer, call, |numbers| numbers[3] = u32::MAX.into())
                }
                _ => told(answer, call),
            }
        }),
        wrong("an offset of 0 taken for none", |e| {
            e.told = |answer, call| match answer {
                Answer::Nearest(Near { below: Some(0), .. }) => retold(answer, call, |numbers| numbers[2] = 0),
                _ => told(answer, call),
            }
        }),
        wrong("result 1 where there is no offset", |e| {
            e.told = |answer, call| match answer {
                Answer::Nearest(Near { below: None, above: None }) => retold(answer, call, |numbers| numbers[0] = 1),
                _ => told(answer, call),
            }
        }),
        wrong("the rule told with a refusal", |e| {
            e.told = |answer, call| match answer {
                Answer::Refused(_) if call.kind == Kind::Margin => retold(answer, call, |numbers| numbers[2] = 2),
                _ => told(answer, call),
            }
        }),
    ]
}
