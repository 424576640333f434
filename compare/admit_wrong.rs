//! Admitters that are wrong on purpose, each in one thing. The comparison has to catch every one.

use crate::admit::{
    self, accepts, bytes_needed, carried, each, enlarge, fits, found, give, has_room, keeps_limits, lay, new_legs,
    newest, next_start, none, refuse, rises, Admitter, Answer, Call, Found, Test, Wanted, BAD_STREAM, MOST_TRIED,
    NO_SLOT, RIGHT,
};
use crate::admit_jump::{conditions, least, Conditions, Forbidden};
use crate::check::{self, whole, Bent, Plain, RIGHT as CHECKER};
use crate::format::{plan_bytes, refused, table_words, Leg, Outcome, Plan, Refusal, Stream};
use crate::paper::{
    Limits, GAP, HEADER_WORDS, LAST_REVISION, LIMITS, LINK_TWICE, NOTHING_VIOLATED, NO_ROOM, NUMBER_BYTES, OVERLAPS,
    PREAMBLE, REFUSED, WINDOW,
};
use crate::rules::{self, arrival, divisor, sent, Sent};
use crate::shape;
use std::ops::Range;

pub struct Wrong {
    pub name: String,
    pub admitter: Admitter,
}

/// The right admitter, bent in one thing.
fn wrong(name: &str, bend: impl Fn(&mut Admitter)) -> Wrong {
    let mut admitter = RIGHT;
    bend(&mut admitter);
    Wrong { name: name.to_string(), admitter }
}

/// The right admitter, but that the enlarged table is checked by a bent rule.
fn ruled(name: &str, bend: impl Fn(&mut Bent)) -> Wrong {
    wrong(name, |a| rule(a, &bend))
}

fn rule(a: &mut Admitter, bend: impl Fn(&mut Bent)) {
    bend(&mut a.enlarged);
    a.fits = |a, plan| fits(&a.enlarged, plan);
}

/// The right admitter, but that it lays legs so that their hops need not hold.
fn laid(name: &str, bend: impl Fn(&mut Admitter)) -> Wrong {
    wrong(name, |a| {
        rule(a, |c| c.hop_holds = |_, _, _, _| true);
        bend(a)
    })
}

pub fn all() -> Vec<Wrong> {
    let found = [searches(), jumps(), legs(), windows(), deadlines(), overlaps()];
    let refused = [readers(), orders(), rooms(), streams(), accepted()];
    let given = [tables(), answers(), between()];
    found.into_iter().chain(refused).chain(given).flatten().collect()
}

// ---- The search

fn hold_of_first(plan: &Plan) -> u64 {
    sent(&Plain, plan, new_legs(plan).start).hold
}

/// Tries the multiples of a number alone, where offsets are tried.
fn multiples(a: &Admitter, plan: &mut Plan, mut offsets: Range<u64>, of: u64) -> Option<u64> {
    if newest(plan).period > MOST_TRIED {
        return admit::search(a, plan, offsets);
    }
    offsets.find(|&offset| offset % of == 0 && each(a, plan, offset..offset + 1).is_some())
}

fn searches() -> Vec<Wrong> {
    vec![
        wrong("the offset one late", |a| {
            a.search = |a, plan, offsets| admit::search(a, plan, offsets).map(|offset| offset + 1)
        }),
        wrong("the offset one early", |a| {
            a.search = |a, plan, offsets| admit::search(a, plan, offsets).map(|offset| offset.saturating_sub(1))
        }),
        wrong("offset 0 passed over", |a| {
            a.search = |a, plan, offsets| admit::search(a, plan, offsets.start.max(1)..offsets.end)
        }),
        wrong("the second offset that fits", |a| {
            a.search = |a, plan, offsets| {
                let first = admit::search(a, plan, offsets.clone())?;
                admit::search(a, plan, first + 1..offsets.end).or(Some(first))
            }
        }),
        wrong("the last of the first offsets that fit in a row", |a| {
            a.search = |a, plan, offsets| {
                let first = admit::search(a, plan, offsets.clone())?;
                let next = (first + 1..offsets.end).take(40_000);
                let row = next.take_while(|&next| admit::search(a, plan, next..next + 1).is_some());
                Some(row.last().unwrap_or(first))
            }
        }),
        wrong("18 where the last offset that the first window allows would do", |a| {
            a.search = |a, plan, offsets| {
                let last = u64::from(newest(plan).period).saturating_sub(hold_of_first(plan));
                admit::search(a, plan, offsets.start..offsets.end.min(last))
            }
        }),
        wrong("even offsets alone", |a| a.search = |a, plan, offsets| multiples(a, plan, offsets, 2)),
        wrong("offsets of whole octets alone", |a| a.search = |a, plan, offsets| multiples(a, plan, offsets, 8)),
        wrong("offsets in the first half of the period alone", |a| {
            a.offsets = |period, from, until| admit::offsets(period / 2, from, until)
        }),
        wrong("offsets from the period on too", |a| {
            a.offsets = |period, from, until| from.into()..u64::from(until).min(2 * u64::from(period))
        }),
        wrong("0 where no offset fits", |a| a.search = |a, plan, offsets| admit::search(a, plan, offsets).or(Some(0))),
    ]
}

/// The search by jumps, over other rows.
fn jumped(plan: &Plan, offsets: Range<u64>, bend: impl Fn(&mut Forbidden)) -> Option<u64> {
    let mut asked = conditions(plan)?;
    asked.forbidden.iter_mut().for_each(bend);
    least(&asked, offsets)
}

/// The same, without some rows: the windows of so many legs of the route come first.
fn jumped_over(plan: &Plan, offsets: Range<u64>, keep: impl Fn(usize) -> bool) -> Option<u64> {
    let mut asked = conditions(plan)?;
    let mut at = 0;
    asked.forbidden.retain(|_| (keep(at), at += 1).0);
    least(&asked, offsets)
}

fn jumps() -> Vec<Wrong> {
    vec![
        wrong("jumps one short", |a| a.search = |_, plan, offsets| jumped(plan, offsets, |row| row.count -= 1)),
        wrong("jumps one long", |a| a.search = |_, plan, offsets| jumped(plan, offsets, |row| row.count += 1)),
        wrong("rows that begin one late", |a| {
            a.search = |_, plan, offsets| {
                jumped(plan, offsets, |row| (row.count, row.shift) = (row.count - 1, row.shift + row.divisor - 1))
            }
        }),
        wrong("rows that begin at the old leg", |a| {
            a.search = |_, plan, offsets| {
                let hold = hold_of_first(plan) - 1;
                jumped(plan, offsets, |row| {
                    if row.count > hold {
                        (row.count, row.shift) = (row.count - hold, row.shift + hold * (row.divisor - 1));
                    }
                })
            }
        }),
        wrong("one sweep alone", |a| {
            a.search = |_, plan, offsets| {
                let asked = conditions(plan)?;
                let one = |offset, row: &Forbidden| {
                    let row = Conditions { forbidden: vec![*row], end: u64::MAX };
                    least(&row, offset..u64::MAX).unwrap_or(u64::MAX)
                };
                let end = asked.end.min(offsets.end);
                Some(asked.forbidden.iter().fold(offsets.start, one)).filter(|&offset| offset < end)
            }
        }),
        wrong("18 where two holds fill the divisor", |a| {
            a.search = |_, plan, offsets| {
                let is_full = |row: &Forbidden| row.count + 1 >= row.divisor;
                conditions(plan)
                    .filter(|asked| !asked.forbidden.iter().any(is_full))
                    .and_then(|asked| least(&asked, offsets))
            }
        }),
        wrong("rows by the new period in place of the divisor", |a| {
            a.search = |_, plan, offsets| {
                let period = u64::from(newest(plan).period);
                jumped(plan, offsets, |row| row.divisor = period)
            }
        }),
        wrong("the last row forgotten", |a| {
            a.search = |_, plan, offsets| {
                let rows = conditions(plan)?.forbidden.len();
                jumped_over(plan, offsets, |at| at + 1 < rows)
            }
        }),
        wrong("the window of the last leg forgotten", |a| {
            a.search = |_, plan, offsets| jumped_over(plan, offsets, |at| at + 1 != new_legs(plan).len())
        }),
        wrong("rows of the first old leg alone", |a| {
            a.search = |_, plan, offsets| jumped_over(plan, offsets, |at| at <= new_legs(plan).len())
        }),
        wrong("jumps past the eighth period", |a| {
            a.search = |_, plan, offsets| least(&Conditions { end: u64::MAX, ..conditions(plan)? }, offsets)
        }),
    ]
}

// ---- The legs

/// When the next leg starts, without some of what comes before it.
fn earlier(a: &Admitter, plan: &Plan, leg: usize, start: u64, by: fn(&Plan, &Sent) -> u64) -> u64 {
    next_start(a, plan, leg, start) - by(plan, &sent(&Plain, plan, leg))
}

/// The link of the leg after this one, or of this one where it is the last.
fn link_after(plan: &Plan, leg: usize) -> usize {
    plan.legs.get(leg + 1).map_or(plan.legs[leg].link, |next| next.link) as usize
}

/// Lays the legs right, and then gives each another word.
fn laid_with(a: &Admitter, plan: &mut Plan, offset: u64, word: impl Fn(&[Leg], usize) -> u32) -> bool {
    let fits = lay(a, plan, offset);
    let first = new_legs(plan).start;
    let before = plan.legs[first..].to_vec();
    for at in 0..before.len() {
        plan.legs[first + at].periods = word(&before, at);
    }
    fits
}

fn legs() -> Vec<Wrong> {
    vec![
        laid("a start of exactly T not carried", |a| {
            a.carried = |start, period| if start == period { (start, 0) } else { carried(start, period) }
        }),
        laid("a start of exactly a whole number of periods not carried", |a| {
            a.carried = |start, period| match start.checked_sub(1) {
                Some(before) => (before % period + 1, before / period),
                None => (0, 0),
            }
        }),
        laid("a start carried once at the most", |a| {
            a.carried = |start, period| if start < period { (start, 0) } else { (start - period, 1) }
        }),
        laid("no start carried", |a| a.carried = |start, _| (start, 0)),
        laid("the word of a carried start left at 0", |a| a.carried = |start, period| (start % period, 0)),
        wrong("the first leg a period late", |a| {
            a.lay = |a, plan, offset| laid_with(a, plan, offset, |legs, at| legs[at].periods + 1)
        }),
        wrong("the word of the first leg as that of the last", |a| {
            a.lay = |a, plan, offset| {
                laid_with(a, plan, offset, |legs, at| legs[if at == 0 { legs.len() - 1 } else { at }].periods)
            }
        }),
        laid("words one too low", |a| {
            a.lay = |a, plan, offset| laid_with(a, plan, offset, |legs, at| legs[at].periods.saturating_sub(1))
        }),
        laid("words above 7 cut to 7", |a| {
            a.carried = |start, period| (start % period, (start / period).min(7));
        }),
        laid("a word of 8 admitted", |a| a.is_too_late = |periods| periods > 8),
        wrong("a word of 7 refused", |a| a.is_too_late = |periods| periods > 6),
        laid("hop without the clock precision", |a| {
            a.next_start = |a, plan, leg, start| earlier(a, plan, leg, start, |plan, _| plan.precision.into())
        }),
        laid("hop with twice the clock precision", |a| {
            a.next_start = |a, plan, leg, start| next_start(a, plan, leg, start) + u64::from(plan.precision)
        }),
        laid("hop without the propagation", |a| {
            a.next_start = |a, plan, leg, start| earlier(a, plan, leg, start, |_, sent| sent.propagation)
        }),
        laid("hop without the wire time", |a| {
            a.next_start = |a, plan, leg, start| earlier(a, plan, leg, start, |_, sent| sent.wire)
        }),
        laid("hop with the hold time in place of the wire time", |a| {
            a.next_start = |a, plan, leg, start| {
                let Sent { hold, wire, .. } = sent(&Plain, plan, leg);
                next_start(a, plan, leg, start) + hold - wire
            }
        }),
        laid("hop with the propagation of the next link", |a| {
            a.next_start = |a, plan, leg, start| {
                let next = plan.links[link_after(plan, leg)].propagation;
                earlier(a, plan, leg, start, |_, sent| sent.propagation) + u64::from(next)
            }
        }),
        laid("hop with the rate of the next link", |a| {
            a.next_start = |a, plan, leg, start| {
                let next = plan.links[link_after(plan, leg)].ns_per_octet;
                let wire = rules::wire_time(&Plain, newest(plan).octets, next);
                earlier(a, plan, leg, start, |_, sent| sent.wire) + wire
            }
        }),
        laid("legs one ns after their hops allow", |a| {
            a.next_start = |a, plan, leg, start| next_start(a, plan, leg, start) + 1
        }),
        laid("legs that wait for the next period where their window is violated", |a| {
            a.next_start = |a, plan, leg, start| {
                let (next, period) = (next_start(a, plan, leg, start), u64::from(newest(plan).period));
                let hold = (newest(plan).octets + PREAMBLE + GAP) * plan.links[link_after(plan, leg)].ns_per_octet;
                if next % period + u64::from(hold) > period {
                    next / period * period + period
                } else {
                    next
                }
            }
        }),
        laid("all legs at the first offset", |a| a.next_start = |_, _, _, start| start),
    ]
}

// ---- The rules

fn is_new_first(plan: &Plan, leg: usize) -> bool {
    leg == new_legs(plan).start
}

fn windows() -> Vec<Wrong> {
    vec![
        ruled("window not asked", |c| c.window_holds = |_, _| true),
        ruled("window not asked of later legs", |c| {
            c.holds = |c, plan, leg, place| {
                place == WINDOW as u32 && !is_new_first(plan, leg) || check::holds(c, plan, leg, place)
            }
        }),
        ruled("window not asked of the first leg", |c| {
            c.holds = |c, plan, leg, place| {
                place == WINDOW as u32 && is_new_first(plan, leg) || check::holds(c, plan, leg, place)
            }
        }),
        ruled("window without the gap", |c| c.window_holds = |_, leg| leg.offset + leg.wire <= u64::from(leg.period)),
        ruled("window one ns too short", |c| c.window_holds = |_, leg| leg.offset + leg.hold < u64::from(leg.period)),
        ruled("window with the arrival", |c| {
            c.window_holds = |_, leg| leg.offset + leg.hold + leg.propagation <= u64::from(leg.period)
        }),
        ruled("window in the first period alone", |c| {
            c.window_holds = |_, leg| leg.start + leg.hold <= u64::from(leg.period)
        }),
    ]
}

fn deadlines() -> Vec<Wrong> {
    vec![
        ruled("deadline not asked", |c| c.deadline_holds = |_, _, _, _| true),
        ruled("deadline counted from 0, with the offset", |c| {
            c.deadline_holds = |_, last, _, precision| arrival(last, precision) <= last.deadline
        }),
        ruled("deadline counted from the period of the first leg", |c| {
            c.deadline_holds =
                |_, last, first, precision| arrival(last, precision) <= last.deadline + first.start - first.offset
        }),
        ruled("deadline without the clock precision", |c| {
            c.deadline_holds = |c, last, first, _| rules::deadline_holds(c, last, first, 0)
        }),
        ruled("deadline without the propagation", |c| {
            c.deadline_holds = |c, last, first, precision| {
                rules::deadline_holds(c, &Sent { propagation: 0, ..*last }, first, precision)
            }
        }),
        ruled("deadline with the gap", |c| {
            c.deadline_holds = |c, last, first, precision| {
                rules::deadline_holds(c, &Sent { wire: last.hold, ..*last }, first, precision)
            }
        }),
        ruled("deadline one ns too short", |c| {
            c.deadline_holds = |_, last, first, precision| arrival(last, precision) < last.deadline + first.start
        }),
        ruled("deadline in eight periods, whatever is asked", |c| {
            c.deadline_holds = |c, last, first, precision| {
                let deadline = 8 * u64::from(last.period);
                rules::deadline_holds(c, &Sent { deadline, ..*last }, first, precision)
            }
        }),
        ruled("deadline of the first leg alone", |c| {
            c.deadline_holds = |c, _, first, precision| rules::deadline_holds(c, first, first, precision)
        }),
    ]
}

/// Overlap of a new leg with an old one by other words of both. The new one comes first.
fn apart_by(new: &Sent, old: &Sent, bend: impl Fn(&mut Sent, &mut Sent)) -> bool {
    let (mut new, mut old) = (*new, *old);
    bend(&mut new, &mut old);
    rules::apart(&Plain, &new, &old)
}

/// Overlap asked of some pairs alone, which are told by the table, the new leg and the old one.
fn asked_of(c: &Bent, plan: &Plan, leg: usize, place: u32, asked: fn(&Plan, usize, usize) -> bool) -> bool {
    let is_pair = place >= OVERLAPS && new_legs(plan).contains(&leg);
    is_pair && !asked(plan, leg, (place - OVERLAPS) as usize) || check::holds(c, plan, leg, place)
}

fn overlaps() -> Vec<Wrong> {
    vec![
        ruled("overlap not asked", |c| c.apart = |_, _, _| true),
        ruled("overlap with the old leg's hold only", |c| {
            c.apart = |_, new, old| apart_by(new, old, |new, _| new.hold = 1)
        }),
        ruled("overlap with the new leg's hold only", |c| {
            c.apart = |_, new, old| apart_by(new, old, |_, old| old.hold = 1)
        }),
        ruled("overlap with the two holds exchanged", |c| {
            c.apart = |_, new, old| apart_by(new, old, |new, old| std::mem::swap(&mut new.hold, &mut old.hold))
        }),
        ruled("overlap without the gap of the old leg", |c| {
            c.apart = |_, new, old| apart_by(new, old, |_, old| old.hold = old.wire)
        }),
        ruled("overlap without the gap of the new leg", |c| {
            c.apart = |_, new, old| apart_by(new, old, |new, _| new.hold = new.wire)
        }),
        ruled("overlap of legs that touch", |c| c.apart = |_, new, old| apart_by(new, old, |_, old| old.hold += 1)),
        ruled("overlap in the first periods only", |c| {
            c.apart = |_, new, old| new.offset + new.hold <= old.offset || old.offset + old.hold <= new.offset
        }),
        ruled("overlap with legs of the same period only", |c| {
            c.apart = |c, new, old| new.period != old.period || rules::apart(c, new, old)
        }),
        ruled("overlap by the lesser period in place of the divisor", |c| {
            c.apart = |_, new, old| {
                let period = new.period.min(old.period);
                apart_by(new, old, |new, old| (new.period, old.period) = (period, period))
            }
        }),
        ruled("overlap by the new period in place of the divisor", |c| {
            c.apart = |_, new, old| apart_by(new, old, |new, old| old.period = new.period)
        }),
        ruled("overlap by the distance without its sign", |c| {
            c.apart = |_, new, old| {
                let g = u64::from(divisor(new.period, old.period));
                let r = new.offset.abs_diff(old.offset) % g;
                r >= new.hold && g - r >= old.hold
            }
        }),
        ruled("overlap asked of the first leg of the route only", |c| {
            c.holds = |c, plan, leg, place| asked_of(c, plan, leg, place, |plan, leg, _| is_new_first(plan, leg))
        }),
        ruled("overlap asked of the last leg of the route only", |c| {
            c.holds = |c, plan, leg, place| asked_of(c, plan, leg, place, |plan, leg, _| leg + 1 == plan.legs.len())
        }),
        ruled("overlap with first legs of old streams only", |c| {
            c.holds = |c, plan, leg, place| {
                asked_of(c, plan, leg, place, |plan, _, old| {
                    plan.streams[plan.legs[old].stream as usize].first_leg as usize == old
                })
            }
        }),
        ruled("overlap with the last old leg of each link only", |c| {
            c.holds = |c, plan, leg, place| {
                asked_of(c, plan, leg, place, |plan, _, old| {
                    let others = &plan.legs[old + 1..new_legs(plan).start.max(old + 1)];
                    others.iter().all(|other| other.link != plan.legs[old].link)
                })
            }
        }),
        ruled("overlap with the first old leg of each link only", |c| {
            c.holds = |c, plan, leg, place| {
                asked_of(c, plan, leg, place, |plan, _, old| {
                    plan.legs[..old].iter().all(|other| other.link != plan.legs[old].link)
                })
            }
        }),
        ruled("overlap with old legs that do not lie a period late only", |c| {
            c.holds = |c, plan, leg, place| asked_of(c, plan, leg, place, |plan, _, old| plan.legs[old].periods == 0)
        }),
        ruled("overlap on all links", |c| {
            c.holds = |c, plan, leg, place| {
                let is_pair = place >= OVERLAPS && new_legs(plan).contains(&leg);
                let frame = |leg| sent(c, plan, leg);
                let other = || frame((place - OVERLAPS) as usize);
                check::holds(c, plan, leg, place) && (!is_pair || rules::apart(c, &frame(leg), &other()))
            }
        }),
    ]
}

// ---- What is refused

fn readers() -> Vec<Wrong> {
    vec![
        wrong("bytes left over taken", |a| a.table.plan_ends = |_, _, _| Ok(())),
        wrong("links not judged", |a| a.table.links_in_range = |_, _| Ok(())),
        wrong("equal links taken", |a| a.table.links_differ = |_, _| Ok(())),
        wrong("old streams not judged", |a| a.table.streams = |_, _| Ok(())),
        wrong("old legs not judged", |a| a.table.legs = |_, _| Ok(())),
        wrong("an old leg eight periods late taken", |a| a.table.limits.periods += 1),
        wrong("old deadlines up to a period alone", |a| a.table.limits.deadline_periods = 1),
        wrong("streams before links", |a| {
            a.table.judge = |c, plan| {
                let judged = shape::judge(c, plan);
                match judged {
                    Err(Refusal { number: LINK_TWICE, .. }) => shape::streams(c, plan).and(judged),
                    _ => judged,
                }
            }
        }),
    ]
}

fn orders() -> Vec<Wrong> {
    let orders: [(&str, &'static [Test]); 10] = [
        ("11 after 20", &[keeps_limits, rises, has_room, accepts]),
        ("11 after 15", &[keeps_limits, has_room, rises, accepts]),
        ("11 after 19", &[keeps_limits, has_room, accepts, rises]),
        ("15 before 11", &[has_room, rises, keeps_limits, accepts]),
        ("15 before 20", &[rises, has_room, keeps_limits, accepts]),
        ("19 before 11", &[accepts, rises, keeps_limits, has_room]),
        ("19 before 20", &[rises, accepts, keeps_limits, has_room]),
        ("19 before 15", &[rises, keeps_limits, accepts, has_room]),
        ("no 19", &[rises, keeps_limits, has_room]),
        ("no 20", &[rises, has_room, accepts]),
    ];
    let mut all: Vec<Wrong> = orders.iter().map(|(name, order)| wrong(name, |a| a.order = order)).collect();
    all.extend([
        wrong("18 before 19", |a| a.order = &[rises, keeps_limits, has_room, finds_one, accepts]),
        wrong("18 before 15", |a| a.order = &[rises, keeps_limits, accepts, finds_one, has_room]),
        wrong("11 before the shape", |a| {
            a.table.judge = |c, plan| {
                if plan.revision == u32::MAX {
                    return refused(LAST_REVISION, 0);
                }
                shape::judge(c, plan)
            }
        }),
        wrong("no 11", |a| a.can_rise = |_| true),
        wrong("11 one revision early", |a| a.can_rise = |plan| plan.revision < u32::MAX - 1),
    ]);
    all
}

/// Refusal 18 before its turn.
fn finds_one(a: &Admitter, plan: &Plan, call: &Call) -> Outcome<()> {
    found(a, plan, call).map(|_| ())
}

fn rooms() -> Vec<Wrong> {
    vec![
        wrong("15 by the old length", |a| a.bytes_needed = |old, _| bytes_needed(old, old)),
        wrong("15 without the new legs", |a| {
            a.bytes_needed = |old, enlarged| bytes_needed(old, &Plan { legs: old.legs.clone(), ..enlarged.clone() })
        }),
        wrong("15 without the new stream", |a| {
            a.bytes_needed =
                |old, enlarged| bytes_needed(old, &Plan { streams: old.streams.clone(), ..enlarged.clone() })
        }),
        wrong("15 by the bytes of the old file", |a| a.bytes_needed = |old, _| plan_bytes(old).len() as u64),
        wrong("15 by the bytes that the new file has", |a| {
            a.bytes_needed = |_, enlarged| plan_bytes(enlarged).len() as u64
        }),
        wrong("15 by words in place of bytes", |a| {
            a.bytes_needed = |old, enlarged| bytes_needed(old, enlarged) / NUMBER_BYTES as u64
        }),
        wrong("15 where there is just enough", |a| a.bytes_needed = |old, enlarged| bytes_needed(old, enlarged) + 1),
        wrong("one byte too few taken", |a| a.bytes_needed = |old, enlarged| bytes_needed(old, enlarged) - 1),
        wrong("15 but for the largest plan file", |a| {
            a.bytes_needed = |_, _| {
                let most = [0, LIMITS.links, LIMITS.streams, LIMITS.legs, 0];
                NUMBER_BYTES as u64 * table_words(&most)
            }
        }),
        wrong("15 without the header", |a| {
            a.bytes_needed = |old, enlarged| bytes_needed(old, enlarged) - (NUMBER_BYTES * HEADER_WORDS) as u64
        }),
    ]
}

/// A limit's name, where it stands, and by how much it is wrong.
type Limit = (&'static str, fn(&mut Limits) -> &mut u32, &'static [i32]);

const EACH_WAY: &[i32] = &[-1, 1];

fn streams() -> Vec<Wrong> {
    let limits: [Limit; 9] = [
        ("the most streams", |limits| &mut limits.streams, EACH_WAY),
        ("the most legs", |limits| &mut limits.legs, EACH_WAY),
        ("the shortest route", |limits| &mut limits.route.0, EACH_WAY),
        ("the longest route", |limits| &mut limits.route.1, EACH_WAY),
        // No deadline fits a period of 0.
        ("the shortest period", |limits| &mut limits.period.0, &[1]),
        ("the longest period", |limits| &mut limits.period.1, EACH_WAY),
        ("the fewest octets", |limits| &mut limits.octets.0, EACH_WAY),
        ("the most octets", |limits| &mut limits.octets.1, EACH_WAY),
        ("the most periods of a deadline", |limits| &mut limits.deadline_periods, EACH_WAY),
    ];
    let moved = |(name, limit, by): (&str, fn(&mut Limits) -> &mut u32, i32)| {
        wrong(&format!("{}, {:+}", name, by), |a| {
            let number = limit(&mut a.enlarged.limits);
            *number = (i64::from(*number) + i64::from(by)) as u32;
        })
    };
    let ways = limits.into_iter().flat_map(|(name, limit, ways)| ways.iter().map(move |&by| (name, limit, by)));
    let mut all: Vec<Wrong> = ways.map(moved).collect();
    all.extend([
        wrong("a deadline of 0 taken", |a| a.enlarged.limits.deadline_least = 0),
        wrong("deadlines up to a period alone", |a| a.enlarged.limits.deadline_periods = 1),
        wrong("eight periods in 32 bits", |a| {
            a.keeps_shape = |a, plan| {
                let Stream { period, deadline, .. } = *newest(plan);
                admit::keeps_shape(a, plan) && deadline <= period.wrapping_mul(8)
            }
        }),
        wrong("a route that is broken taken", |a| {
            a.enlarged.goes_on = |_, met, link| !met.contains(&link.to);
        }),
        wrong("a route that comes back taken", |a| a.enlarged.goes_on = |_, met, link| met.last() == Some(&link.from)),
        wrong("a route that comes back to its first node taken", |a| {
            a.enlarged.goes_on = |c, met, link| shape::goes_on(c, &met[met.len().min(2) - 1..], link)
        }),
        wrong("a route that comes back to another node than its first taken", |a| {
            a.enlarged.goes_on = |_, met, link| met.last() == Some(&link.from) && met[0] != link.to
        }),
        wrong("a link after the last taken for the last", |a| {
            a.enlarge = |plan, wanted| {
                let mut enlarged = enlarge(plan, wanted);
                let links = plan.links.len() as u32;
                enlarged.legs.iter_mut().filter(|leg| leg.link == links).for_each(|leg| leg.link = links - 1);
                enlarged
            }
        }),
        wrong("20 for the last link", |a| {
            a.keeps_shape = |a, plan| {
                let last = plan.links.len() as u32 - 1;
                admit::keeps_shape(a, plan) && plan.legs[new_legs(plan)].iter().all(|leg| leg.link != last)
            }
        }),
        wrong("20 for a deadline that no offset keeps", |a| {
            a.keeps_shape = |a, plan| admit::keeps_shape(a, plan) && conditions(plan).is_some()
        }),
        wrong("20 for a period that the frame does not fit into", |a| {
            a.keeps_shape =
                |a, plan| admit::keeps_shape(a, plan) && hold_of_first(plan) <= u64::from(newest(plan).period)
        }),
        wrong("18 in place of 20", |a| {
            a.refuse = |refusal, answer| {
                let number = if refusal.number == BAD_STREAM { NO_SLOT } else { refusal.number };
                refuse(Refusal { number, ..refusal }, answer)
            }
        }),
    ]);
    all
}

/// The right check of the table, by a rule that is bent.
fn accepted_by(plan: &Plan, bend: impl Fn(&mut Bent)) -> bool {
    let mut checker = CHECKER;
    bend(&mut checker);
    whole(&checker, plan).result == NOTHING_VIOLATED
}

fn accepted() -> Vec<Wrong> {
    vec![
        wrong("19 without windows", |a| a.is_accepted = |_, plan| accepted_by(plan, |c| c.window_holds = |_, _| true)),
        wrong("19 without hops", |a| a.is_accepted = |_, plan| accepted_by(plan, |c| c.hop_holds = |_, _, _, _| true)),
        wrong("19 without deadlines", |a| {
            a.is_accepted = |_, plan| accepted_by(plan, |c| c.deadline_holds = |_, _, _, _| true)
        }),
        wrong("19 without overlaps", |a| a.is_accepted = |_, plan| accepted_by(plan, |c| c.apart = |_, _, _| true)),
        wrong("19 by the deadline of the new stream too", |a| {
            a.order = &[rises, keeps_limits, has_room, accepts, |_, plan, call| {
                match conditions(&enlarge(plan, &call.wanted)) {
                    Some(_) => Ok(()),
                    None => refused(admit::NOT_ACCEPTED, 0),
                }
            }]
        }),
        wrong("19 of links of the route alone", |a| {
            a.order = &[rises, keeps_limits, has_room, |a, plan, call| {
                let Plan { legs, .. } = plan;
                let met = |leg: &Leg| call.wanted.route.contains(&leg.link);
                if legs.iter().any(met) {
                    accepts(a, plan, call)
                } else {
                    Ok(())
                }
            }]
        }),
    ]
}

// ---- The new table

/// The table, and then its parts in another order.
fn reordered(plan: &Plan, wanted: &Wanted, bend: impl Fn(&mut Plan)) -> Plan {
    let mut enlarged = enlarge(plan, wanted);
    bend(&mut enlarged);
    enlarged
}

/// Gives another table than the one that was found.
fn given(mut plan: Plan, offset: u32, answer: &mut Answer, bend: impl Fn(&mut Plan)) {
    bend(&mut plan);
    give(plan, offset, answer)
}

/// The last stream and its legs before all others.
fn new_first(plan: &mut Plan) {
    let (count, first) = (new_legs(plan).len(), new_legs(plan).start);
    plan.legs.rotate_left(first);
    plan.streams.rotate_right(1);
    for (at, leg) in plan.legs.iter_mut().enumerate() {
        leg.stream = if at < count { 0 } else { leg.stream + 1 };
    }
    for (at, stream) in plan.streams.iter_mut().enumerate() {
        stream.first_leg = if at == 0 { 0 } else { stream.first_leg + count as u32 };
    }
}

fn tables() -> Vec<Wrong> {
    vec![
        wrong("the new stream put first", |a| a.give = |plan, offset, to| given(plan, offset, to, new_first)),
        wrong("the stream record put first", |a| {
            a.give = |plan, offset, to| given(plan, offset, to, |plan| plan.streams.rotate_right(1))
        }),
        wrong("the new legs put first", |a| {
            a.give = |plan, offset, to| {
                given(plan, offset, to, |plan| {
                    let first = new_legs(plan).start;
                    plan.legs.rotate_left(first)
                })
            }
        }),
        wrong("the new legs in the other order", |a| {
            a.give = |plan, offset, to| {
                given(plan, offset, to, |plan| {
                    let new = new_legs(plan);
                    plan.legs[new].reverse()
                })
            }
        }),
        wrong("revision not raised", |a| a.enlarge = |plan, wanted| reordered(plan, wanted, |new| new.revision -= 1)),
        wrong("revision raised by two", |a| {
            a.enlarge = |plan, wanted| reordered(plan, wanted, |new| new.revision = new.revision.wrapping_add(1))
        }),
        wrong("new legs of the stream before", |a| {
            a.give = |plan, offset, to| {
                given(plan, offset, to, |plan| {
                    let new = new_legs(plan);
                    plan.legs[new].iter_mut().for_each(|leg| leg.stream = leg.stream.saturating_sub(1))
                })
            }
        }),
        wrong("first leg one too low", |a| {
            a.give = |plan, offset, to| {
                given(plan, offset, to, |plan| {
                    let last = plan.streams.len() - 1;
                    plan.streams[last].first_leg = plan.streams[last].first_leg.saturating_sub(1)
                })
            }
        }),
        wrong("period and deadline exchanged", |a| {
            a.give = |plan, offset, to| {
                given(plan, offset, to, |plan| {
                    let last = plan.streams.len() - 1;
                    let Stream { period, deadline, .. } = plan.streams[last];
                    plan.streams[last] = Stream { period: deadline, deadline: period, ..plan.streams[last] }
                })
            }
        }),
        wrong("offset and word exchanged", |a| {
            a.give = |plan, offset, to| {
                given(plan, offset, to, |plan| {
                    let new = new_legs(plan);
                    plan.legs[new].iter_mut().for_each(|leg| std::mem::swap(&mut leg.offset, &mut leg.periods))
                })
            }
        }),
        wrong("old legs shifted to make room", |a| {
            a.give = |plan, offset, to| {
                given(plan, offset, to, |plan| {
                    let (first, last) = (new_legs(plan).start, plan.legs.len() - 1);
                    if first > 0 && plan.legs[first - 1].link == plan.legs[last].link {
                        plan.legs[first - 1].offset += 1
                    }
                })
            }
        }),
        wrong("the precision left out of the new table", |a| {
            a.give = |plan, offset, to| given(plan, offset, to, |plan| plan.precision = 0)
        }),
    ]
}

// ---- The answer

fn answers() -> Vec<Wrong> {
    vec![
        wrong("the number of words in place of bytes", |a| {
            a.give = |plan, offset, to| {
                let words = plan.words().len() as u32;
                give(plan, offset, to);
                to.number = words;
            }
        }),
        wrong("the number of all bytes lent", |a| {
            a.give = |plan, offset, to| {
                give(plan, offset, to);
                to.number = to.new_plan.len() as u32;
            }
        }),
        wrong("number and offset exchanged", |a| {
            a.give = |plan, offset, to| {
                give(plan, offset, to);
                (to.number, to.offset) = (to.offset, to.number);
            }
        }),
        wrong("no offset told", |a| a.give = |plan, _, to| give(plan, 0, to)),
        wrong("the start of the last leg told", |a| {
            a.give = |plan, _, to| {
                let last = plan.legs[plan.legs.len() - 1].offset;
                give(plan, last, to)
            }
        }),
        wrong("bytes after the new plan cleared", |a| {
            a.give = |plan, offset, to| {
                give(plan, offset, to);
                let number = to.number as usize;
                to.new_plan[number..].fill(0);
            }
        }),
        wrong("a byte after the new plan cleared", |a| {
            a.give = |plan, offset, to| {
                give(plan, offset, to);
                let number = to.number as usize;
                to.new_plan[number..].iter_mut().take(1).for_each(|byte| *byte = 0);
            }
        }),
        wrong("bytes cleared where there is no slot", |a| {
            a.refuse = |refusal, to| {
                refuse(refusal, to);
                if refusal.number == NO_SLOT {
                    to.new_plan.fill(0)
                }
            }
        }),
        wrong("bytes cleared where there is no room", |a| {
            a.refuse = |refusal, to| {
                refuse(refusal, to);
                if refusal.number == NO_ROOM {
                    to.new_plan.fill(0)
                }
            }
        }),
        wrong("an offset told with a refusal", |a| {
            a.refuse = |refusal, to| {
                refuse(refusal, to);
                to.offset = 1
            }
        }),
        wrong("18 without the 100", |a| {
            a.refuse = |refusal, to| {
                refuse(refusal, to);
                if refusal.number == NO_SLOT {
                    to.result -= REFUSED
                }
            }
        }),
        wrong("all refusals at 0", |a| a.refuse = |refusal, to| refuse(Refusal { at: 0, ..refusal }, to)),
        wrong("15 at the bytes lent", |a| {
            a.refuse = |refusal, to| {
                let lent = to.new_plan.len();
                refuse(Refusal { at: if refusal.number == NO_ROOM { lent } else { refusal.at }, ..refusal }, to)
            }
        }),
    ]
}

fn between() -> Vec<Wrong> {
    vec![
        wrong("between: until included", |a| {
            a.offsets = |period, from, until| admit::offsets(period, from, until.saturating_add(1))
        }),
        wrong("between: from excluded", |a| {
            a.offsets =
                |period, from, until| admit::offsets(period, if from > 0 { from.saturating_add(1) } else { 0 }, until)
        }),
        wrong("between: from ignored", |a| a.offsets = |period, _, until| admit::offsets(period, 0, until)),
        wrong("between: until ignored", |a| a.offsets = |period, from, _| admit::offsets(period, from, period)),
        wrong("between: from and until in either order", |a| {
            a.offsets = |period, from, until| admit::offsets(period, from.min(until), from.max(until))
        }),
        wrong("between: 18 told where until is below the period", |a| a.none = |_, _| refused(NO_SLOT, 0)),
        wrong("between: 18 told where until is one below the period", |a| {
            a.none = |period, until| none(period, until.saturating_add(1)).map(|_| Found::NoneYet(until))
        }),
        wrong("between: none yet where until is the period", |a| {
            a.none = |period, until| {
                if until == period {
                    return Ok(Found::NoneYet(until));
                }
                none(period, until)
            }
        }),
        wrong("between: none yet where until is beyond the period", |a| {
            a.none = |period, until| {
                if until < u32::MAX {
                    return Ok(Found::NoneYet(until));
                }
                none(period, until)
            }
        }),
        wrong("between: 0 told with none yet", |a| {
            a.none = |period, until| none(period, until).map(|_| Found::NoneYet(0))
        }),
        wrong("between: the offset before until told with none yet", |a| {
            a.none = |period, until| none(period, until).map(|_| Found::NoneYet(until.saturating_sub(1)))
        }),
        wrong("between: 20 where until is not above from", |a| {
            a.order = &[
                rises,
                keeps_limits,
                |_, _, call| {
                    let (from, until) = call.asked();
                    if until > from {
                        Ok(())
                    } else {
                        refused(BAD_STREAM, 0)
                    }
                },
                has_room,
                accepts,
            ]
        }),
        wrong("between: the offset counted from from", |a| {
            a.search = |a, plan, offsets| {
                let start = offsets.start;
                admit::search(a, plan, offsets).map(|offset| offset - start)
            }
        }),
        wrong("between: no 19 but from 0 on", |a| {
            a.order = &[rises, keeps_limits, has_room, |a, plan, call| {
                if call.asked().0 > 0 {
                    return Ok(());
                }
                accepts(a, plan, call)
            }]
        }),
    ]
}
