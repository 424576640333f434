//! Tellers of gate lists that are wrong on purpose, each in one thing. The comparison has to catch every one.

use crate::admit::NOT_ACCEPTED;
use crate::check::{own_holds, places_of, rule_at, whole, Bent, Checker, Plain, RIGHT as CHECKER};
use crate::format::{self, encoded, refused, Leg, Numbers, Outcome, Plan, Refusal};
use crate::gates::{
    self, accepts, bytes_needed, cycle, cycle_fits, due, give, give_words, has_link, has_room, has_words, is_accepted,
    laid_out, mask, on_link, opened, pairs, pairs_fit, read, refuse, runs, words, Answer, Asked, Call, Known, Pair,
    Teller, Test, HELD, IDLE, LONG_CYCLE, MANY_PAIRS, MOST_CYCLE, MOST_LAID, MOST_PAIRS, NO_LINK, PAIR_WORDS, RIGHT,
};
use crate::gates_quick;
use crate::paper::{
    BAD_FORM, DEADLINE, ENDS_EARLY, GAP, GRANTED, HOP, LEFT_OVER, LIMITS, MORE, NO_ROOM, NUMBER_BYTES, OVERLAP,
    PREAMBLE, REFUSED, WINDOW,
};
use crate::rules::{self, divisor, Sent};
use crate::shape;

pub struct Wrong {
    pub name: String,
    pub teller: Teller,
}

/// The right teller, bent in one thing.
fn wrong(name: &str, bend: impl Fn(&mut Teller)) -> Wrong {
    let mut teller = RIGHT;
    bend(&mut teller);
    Wrong { name: name.to_string(), teller }
}

pub fn all() -> Vec<Wrong> {
    let lists = [masks(), merging(), ends(), holds(), durations(), legs(), empty_links()];
    let refusals = [cycles(), pair_limits(), orders(), links(), accepted(), shapes(), rooms()];
    let others = [files(), answers(), reads(), read_answers()];
    lists.into_iter().chain(refusals).chain(others).flatten().collect()
}

// ---- Masks

fn masks() -> Vec<Wrong> {
    vec![
        wrong("255 while no leg holds the link", |g| g.mask = |is_held| if is_held { HELD } else { 255 }),
        wrong("0 while no leg holds the link", |g| g.mask = |is_held| if is_held { HELD } else { 0 }),
        wrong("126 while no leg holds the link", |g| g.mask = |is_held| if is_held { HELD } else { 126 }),
        wrong("255 while a leg holds the link", |g| g.mask = |is_held| if is_held { 255 } else { IDLE }),
        wrong("the masks exchanged", |g| g.mask = |is_held| mask(!is_held)),
        wrong("gate 0 for gate 7", |g| g.mask = |is_held| if is_held { 1 } else { 254 }),
        wrong("gate 8 for gate 7", |g| g.mask = |is_held| if is_held { 256 } else { 255 }),
        wrong("1 and 0 for the masks", |g| g.mask = u32::from),
    ]
}

// ---- Holds end to end

/// The holds of a cycle in order, each with the number of its leg.
fn holds_of(legs: &[Sent], cycle: u64) -> Vec<(u64, u64, usize)> {
    let of_leg = |(at, leg): (usize, &Sent)| {
        let hold = leg.hold;
        (leg.offset..cycle).step_by(leg.period as usize).map(move |start| (start, start + hold, at)).collect::<Vec<_>>()
    };
    let mut holds: Vec<(u64, u64, usize)> = legs.iter().enumerate().flat_map(of_leg).collect();
    holds.sort_unstable();
    holds
}

/// The list in which two holds end to end, of these two legs, make one pair only where they may.
fn merged_where(legs: &[Sent], cycle: u64, may: impl Fn(u64, usize, usize) -> bool) -> Vec<Pair> {
    let (mut pairs, mut at, mut last): (Vec<Pair>, u64, usize) = (Vec::new(), 0, 0);
    for (start, end, leg) in holds_of(legs, cycle) {
        if start > at {
            pairs.push(Pair { is_held: false, duration: start - at });
        }
        match pairs.last_mut() {
            Some(pair) if pair.is_held && may(start, last, leg) => pair.duration += end - start,
            _ => pairs.push(Pair { is_held: true, duration: end - start }),
        }
        (at, last) = (end, leg);
    }
    if at < cycle {
        pairs.push(Pair { is_held: false, duration: cycle - at });
    }
    pairs
}

/// The right list, and then another one.
fn bent(legs: &[Sent], cycle: u64, bend: impl Fn(&mut Vec<Pair>)) -> Vec<Pair> {
    let mut list = pairs(legs, cycle);
    bend(&mut list);
    list
}

fn merging() -> Vec<Wrong> {
    vec![
        wrong("two holds end to end not merged", |g| {
            g.pairs = |legs, cycle| merged_where(legs, cycle, |_, _, _| false)
        }),
        wrong("two holds end to end merged where the leg of the first is the lower one alone", |g| {
            g.pairs = |legs, cycle| merged_where(legs, cycle, |_, one, other| one < other)
        }),
        wrong("holds end to end not merged where a period begins", |g| {
            g.pairs = |legs, cycle| merged_where(legs, cycle, |at, _, other| at % u64::from(legs[other].period) != 0)
        }),
        wrong("holds end to end merged two by two", |g| {
            g.pairs = |legs, cycle| {
                bent(legs, cycle, |list| {
                    let most = legs.iter().map(|leg| leg.hold).max().unwrap_or(0);
                    let split = |pair: &Pair| match pair.duration.checked_sub(2 * most) {
                        Some(rest) if pair.is_held && rest > 0 => {
                            vec![Pair { duration: 2 * most, ..*pair }, Pair { duration: rest, ..*pair }]
                        }
                        _ => vec![*pair],
                    };
                    *list = list.iter().flat_map(split).collect();
                })
            }
        }),
        wrong("holds less than a gap apart merged", |g| g.pairs = |legs, cycle| merged_within(legs, cycle, 95)),
        wrong("holds one ns apart merged", |g| g.pairs = |legs, cycle| merged_within(legs, cycle, 1)),
        wrong("a pair for each period of a link that is held all the time", |g| {
            g.pairs = |legs, cycle| {
                bent(legs, cycle, |list| {
                    let period = u64::from(legs[0].period);
                    if list.len() == 1 && cycle > period {
                        *list = vec![Pair { is_held: true, duration: period }; (cycle / period) as usize];
                    }
                })
            }
        }),
    ]
}

/// The list in which pairs without a hold, up to so long, count as held.
fn merged_within(legs: &[Sent], cycle: u64, within: u64) -> Vec<Pair> {
    let mut merged: Vec<Pair> = Vec::new();
    for pair in pairs(legs, cycle) {
        let is_held = pair.is_held || pair.duration <= within;
        match merged.last_mut() {
            Some(last) if last.is_held == is_held => last.duration += pair.duration,
            _ => merged.push(Pair { is_held, ..pair }),
        }
    }
    merged
}

// ---- Where a list begins and ends

fn ends() -> Vec<Wrong> {
    fn nothing(is_held: bool) -> Pair {
        Pair { is_held, duration: 0 }
    }
    fn is_round(list: &[Pair]) -> bool {
        list.len() > 2 && list[0].is_held == list[list.len() - 1].is_held
    }
    vec![
        wrong("a first pair of length 0 where the list begins held", |g| {
            g.pairs = |legs, cycle| {
                bent(legs, cycle, |list| {
                    if list[0].is_held {
                        list.insert(0, nothing(false));
                    }
                })
            }
        }),
        wrong("a first pair of length 0 where the list begins with nothing held", |g| {
            g.pairs = |legs, cycle| {
                bent(legs, cycle, |list| {
                    if !list[0].is_held {
                        list.insert(0, nothing(true));
                    }
                })
            }
        }),
        wrong("a last pair of length 0 where the list ends held", |g| {
            g.pairs = |legs, cycle| {
                bent(legs, cycle, |list| {
                    if list[list.len() - 1].is_held {
                        list.push(nothing(false));
                    }
                })
            }
        }),
        wrong("the last pair cut off", |g| {
            g.pairs = |legs, cycle| bent(legs, cycle, |list| list.truncate(list.len() - 1))
        }),
        wrong("the last pair cut off where nothing is held", |g| {
            g.pairs = |legs, cycle| {
                bent(legs, cycle, |list| {
                    let held = list.iter().rposition(|pair| pair.is_held).map_or(0, |at| at + 1);
                    list.truncate(held);
                })
            }
        }),
        wrong("the first pair cut off where nothing is held", |g| {
            g.pairs = |legs, cycle| {
                bent(legs, cycle, |list| {
                    if !list[0].is_held {
                        list.remove(0);
                    }
                })
            }
        }),
        wrong("last and first pair merged round the end, as the first", |g| {
            g.pairs = |legs, cycle| {
                bent(legs, cycle, |list| {
                    if is_round(list) {
                        let last = list.pop().map_or(0, |last| last.duration);
                        list[0].duration += last;
                    }
                })
            }
        }),
        wrong("last and first pair merged round the end, as the last", |g| {
            g.pairs = |legs, cycle| {
                bent(legs, cycle, |list| {
                    if is_round(list) {
                        let first = list.remove(0).duration;
                        let last = list.len() - 1;
                        list[last].duration += first;
                    }
                })
            }
        }),
        wrong("last and first pair merged round the end where both are held", |g| {
            g.pairs = |legs, cycle| {
                bent(legs, cycle, |list| {
                    if is_round(list) && list[0].is_held {
                        let last = list.pop().map_or(0, |last| last.duration);
                        list[0].duration += last;
                    }
                })
            }
        }),
        wrong("from the first hold on", |g| {
            g.pairs = |legs, cycle| {
                bent(legs, cycle, |list| {
                    if !list[0].is_held {
                        list.rotate_left(1);
                    }
                })
            }
        }),
        wrong("from the first hold on, and merged round the end", |g| {
            g.pairs = |legs, cycle| {
                let first = legs.iter().map(|leg| leg.offset).min().unwrap_or(0);
                let legs: Vec<Sent> = legs.iter().map(|leg| Sent { offset: leg.offset - first, ..*leg }).collect();
                pairs(&legs, cycle)
            }
        }),
        wrong("from the first leg's offset on", |g| {
            g.pairs = |legs, cycle| {
                let shift = |leg: &Sent| {
                    let period = u64::from(leg.period);
                    Sent { offset: (leg.offset + cycle - legs[0].offset) % period, ..*leg }
                };
                pairs(&legs.iter().map(shift).collect::<Vec<_>>(), cycle)
            }
        }),
        wrong("the list backwards", |g| g.pairs = |legs, cycle| bent(legs, cycle, |list| list.reverse())),
        wrong("pairs sorted by their length", |g| {
            g.pairs = |legs, cycle| bent(legs, cycle, |list| list.sort_by_key(|pair| pair.duration))
        }),
        wrong("two cycles", |g| g.pairs = |legs, cycle| pairs(legs, 2 * cycle)),
        wrong("the list written twice", |g| {
            g.pairs = |legs, cycle| bent(legs, cycle, |list| list.extend_from_within(..))
        }),
        wrong("one ns too few", |g| {
            g.pairs = |legs, cycle| {
                bent(legs, cycle, |list| {
                    let last = list.len() - 1;
                    list[last].duration -= 1;
                })
            }
        }),
        wrong("what is left of the limit added to the last pair", |g| {
            g.pairs = |legs, cycle| {
                bent(legs, cycle, |list| {
                    let last = list.len() - 1;
                    list[last].duration += MOST_CYCLE - cycle;
                })
            }
        }),
    ]
}

// ---- When the link is held

/// The right list of other legs.
fn of_others(legs: &[Sent], cycle: u64, other: impl Fn(&Sent) -> Sent) -> Vec<Pair> {
    pairs(&legs.iter().map(other).collect::<Vec<_>>(), cycle)
}

/// The list of the instants of a cycle, of which some are changed. Long ones are right.
fn of_instants(legs: &[Sent], cycle: u64, change: impl Fn(&mut Vec<bool>)) -> Vec<Pair> {
    if cycle > MOST_LAID {
        return pairs(legs, cycle);
    }
    let mut instants = laid_out(legs, cycle);
    change(&mut instants);
    runs(&instants)
}

fn holds() -> Vec<Wrong> {
    vec![
        wrong("a closed end", |g| {
            g.pairs = |legs, cycle| of_others(legs, cycle, |leg| Sent { hold: leg.hold + 1, ..*leg })
        }),
        wrong("an open beginning", |g| {
            g.pairs =
                |legs, cycle| of_others(legs, cycle, |leg| Sent { offset: leg.offset + 1, hold: leg.hold - 1, ..*leg })
        }),
        wrong("an end one ns early", |g| {
            g.pairs = |legs, cycle| of_others(legs, cycle, |leg| Sent { hold: leg.hold - 1, ..*leg })
        }),
        wrong("the wire time for the hold time", |g| {
            g.pairs = |legs, cycle| of_others(legs, cycle, |leg| Sent { hold: leg.wire, ..*leg })
        }),
        wrong("the wire time for the hold time where nothing follows", |g| {
            g.pairs = |legs, cycle| {
                bent(legs, cycle, |list| {
                    let gap = legs[0].hold - legs[0].wire;
                    for at in 1..list.len() {
                        if !list[at].is_held {
                            list[at - 1].duration -= gap;
                            list[at].duration += gap;
                        }
                    }
                })
            }
        }),
        wrong("the hold time without the preamble", |g| {
            g.on_link = |g, plan, link| with_hold(g, plan, link, |octets, rate| (octets + GAP) * rate)
        }),
        wrong("the hold time of the octets alone", |g| {
            g.on_link = |g, plan, link| with_hold(g, plan, link, |octets, rate| octets * rate)
        }),
        wrong("the hold time of the shortest frame", |g| {
            g.on_link = |g, plan, link| with_hold(g, plan, link, |_, rate| (LIMITS.octets.0 + PREAMBLE + GAP) * rate)
        }),
        wrong("the hold time at 8 ns per octet", |g| {
            g.on_link = |g, plan, link| with_hold(g, plan, link, |octets, _| (octets + PREAMBLE + GAP) * 8)
        }),
        wrong("the rate of link 0", |g| {
            g.on_link = |g, plan, link| {
                let rate = plan.links[0].ns_per_octet;
                let mine = plan.links[link as usize].ns_per_octet;
                let other = |leg: Sent| Sent { hold: leg.hold / u64::from(mine) * u64::from(rate), ..leg };
                on_link(g, plan, link).into_iter().map(other).collect()
            }
        }),
        wrong("the hold time of the first leg for all", |g| {
            g.pairs = |legs, cycle| of_others(legs, cycle, |leg| Sent { hold: legs[0].hold, ..*leg })
        }),
        wrong("the propagation added to the hold time", |g| {
            g.pairs = |legs, cycle| of_others(legs, cycle, |leg| Sent { hold: leg.hold + leg.propagation, ..*leg })
        }),
        wrong("the propagation added to the offset", |g| {
            g.pairs = |legs, cycle| of_others(legs, cycle, |leg| Sent { offset: leg.offset + leg.propagation, ..*leg })
        }),
        wrong("the clock precision added to the hold time", |g| {
            g.on_link = |g, plan, link| {
                let longer = |leg: Sent| Sent { hold: leg.hold + u64::from(plan.precision), ..leg };
                on_link(g, plan, link).into_iter().map(longer).collect()
            }
        }),
        wrong("the period word counted into the offset", |g| {
            g.pairs = |legs, cycle| of_others(legs, cycle, |leg| Sent { offset: leg.start, ..*leg })
        }),
        wrong("the period word counted into the offset, up to the cycle", |g| {
            g.pairs = |legs, cycle| of_others(legs, cycle, |leg| Sent { offset: leg.start.min(cycle - 1), ..*leg })
        }),
        wrong("the period word added to the offset", |g| {
            g.pairs = |legs, cycle| {
                of_others(legs, cycle, |leg| {
                    let periods = (leg.start - leg.offset) / u64::from(leg.period);
                    Sent { offset: leg.offset + periods, ..*leg }
                })
            }
        }),
        wrong("legs with a period word left out", |g| {
            g.pairs = |legs, cycle| {
                let of_now: Vec<Sent> = legs.iter().filter(|leg| leg.start == leg.offset).copied().collect();
                pairs(&of_now, cycle)
            }
        }),
        wrong("all offsets 0", |g| g.pairs = |legs, cycle| of_others(legs, cycle, |leg| Sent { offset: 0, ..*leg })),
        wrong("offsets one ns late", |g| {
            g.pairs = |legs, cycle| of_others(legs, cycle, |leg| Sent { offset: leg.offset + 1, ..*leg })
        }),
        wrong("each leg once in a cycle", |g| {
            g.pairs = |legs, cycle| of_others(legs, cycle, |leg| Sent { period: cycle as u32, ..*leg })
        }),
        wrong("the last repeat of each leg left out", |g| {
            g.pairs = |legs, cycle| without_repeat(legs, cycle, |leg| cycle - u64::from(leg.period) + leg.offset)
        }),
        wrong("the first repeat of each leg left out", |g| {
            g.pairs = |legs, cycle| without_repeat(legs, cycle, |leg| leg.offset)
        }),
        wrong("the last repeat left out where it ends with the cycle", |g| {
            g.pairs = |legs, cycle| {
                without_repeat(legs, cycle, |leg| {
                    let last = cycle - u64::from(leg.period) + leg.offset;
                    if last + leg.hold == cycle {
                        last
                    } else {
                        cycle
                    }
                })
            }
        }),
        wrong("instant 0 never held", |g| g.pairs = |legs, cycle| of_instants(legs, cycle, |list| list[0] = false)),
        wrong("the last instant never held", |g| {
            g.pairs = |legs, cycle| {
                of_instants(legs, cycle, |list| {
                    let last = list.len() - 1;
                    list[last] = false;
                })
            }
        }),
        wrong("nothing held where a period begins", |g| {
            g.pairs = |legs, cycle| {
                of_instants(legs, cycle, |list| {
                    let period = legs[0].period as usize;
                    (0..list.len()).step_by(period).for_each(|at| list[at] = false);
                })
            }
        }),
    ]
}

/// The list without the repeat of each leg that begins at an instant.
fn without_repeat(legs: &[Sent], cycle: u64, start: impl Fn(&Sent) -> u64) -> Vec<Pair> {
    of_instants(legs, cycle, |instants| {
        for leg in legs {
            let start = start(leg).min(cycle);
            instants[start as usize..(start + leg.hold).min(cycle) as usize].fill(false);
        }
    })
}

/// The legs of a link, with hold times by octets and rate.
fn with_hold(g: &Teller, plan: &Plan, link: u32, hold: fn(u32, u32) -> u32) -> Vec<Sent> {
    let rate = plan.links[link as usize].ns_per_octet;
    let octets = |leg: &&Leg| plan.streams[leg.stream as usize].octets;
    let on_it = plan.legs.iter().filter(|leg| leg.link == link);
    let other = |(leg, hold)| Sent { hold, ..leg };
    let holds = on_it.map(|leg| u64::from(hold(octets(&leg), rate)));
    on_link(g, plan, link).into_iter().zip(holds).map(other).collect()
}

// ---- Durations

fn durations() -> Vec<Wrong> {
    /// The right list, with other durations.
    fn timed(legs: &[Sent], cycle: u64, other: impl Fn(u64) -> u64) -> Vec<Pair> {
        bent(legs, cycle, |list| list.iter_mut().for_each(|pair| pair.duration = other(pair.duration)))
    }
    vec![
        wrong("ends in place of durations", |g| {
            g.pairs = |legs, cycle| {
                bent(legs, cycle, |list| {
                    let mut end = 0;
                    for pair in list {
                        end += pair.duration;
                        pair.duration = end;
                    }
                })
            }
        }),
        wrong("starts in place of durations", |g| {
            g.pairs = |legs, cycle| {
                bent(legs, cycle, |list| {
                    let mut start = 0;
                    for pair in list {
                        let next = start + pair.duration;
                        pair.duration = start;
                        start = next;
                    }
                })
            }
        }),
        wrong("durations less one", |g| g.pairs = |legs, cycle| timed(legs, cycle, |ns| ns - 1)),
        wrong("durations in us", |g| g.pairs = |legs, cycle| timed(legs, cycle, |ns| ns / 1_000)),
        wrong("durations in whole octets", |g| g.pairs = |legs, cycle| timed(legs, cycle, |ns| ns / 8 * 8)),
        wrong("durations of 16 bits", |g| g.pairs = |legs, cycle| timed(legs, cycle, |ns| ns & 0xFFFF)),
        wrong("durations of 24 bits", |g| g.pairs = |legs, cycle| timed(legs, cycle, |ns| ns & 0xFF_FFFF)),
        wrong("durations of 28 bits", |g| g.pairs = |legs, cycle| timed(legs, cycle, |ns| ns & 0xFFF_FFFF)),
        wrong("durations of one ns left out", |g| {
            g.pairs = |legs, cycle| bent(legs, cycle, |list| list.retain(|pair| pair.duration > 1))
        }),
        wrong("pairs in which nothing is held left out", |g| {
            g.pairs = |legs, cycle| bent(legs, cycle, |list| list.retain(|pair| pair.is_held))
        }),
        wrong("no more than 16,777,215 ns in a pair", |g| {
            g.pairs = |legs, cycle| {
                bent(legs, cycle, |list| {
                    let most = 16_777_215;
                    let split = |pair: &Pair| {
                        let (times, rest) = (pair.duration / most, pair.duration % most);
                        let whole = (0..times).map(|_| most);
                        let all: Vec<u64> = whole.chain(Some(rest).filter(|rest| *rest > 0)).collect();
                        all.into_iter().map(|duration| Pair { duration, ..*pair }).collect::<Vec<_>>()
                    };
                    *list = list.iter().flat_map(split).collect();
                })
            }
        }),
    ]
}

// ---- Which legs

fn legs() -> Vec<Wrong> {
    /// The legs of a link that are kept, by the plan and the number of the leg.
    fn kept(g: &Teller, plan: &Plan, is_kept: impl Fn(&Plan, usize) -> bool) -> Vec<Sent> {
        (0..plan.legs.len()).filter(|&leg| is_kept(plan, leg)).map(|leg| rules::sent(&g.checker, plan, leg)).collect()
    }
    fn is_first(plan: &Plan, leg: usize) -> bool {
        plan.streams[plan.legs[leg].stream as usize].first_leg as usize == leg
    }
    vec![
        wrong("the legs of all links", |g| g.on_link = |g, plan, _| kept(g, plan, |_, _| true)),
        wrong("the legs of the next link", |g| g.on_link = |g, plan, link| on_link(g, plan, link + 1)),
        wrong("first legs of streams alone", |g| {
            g.on_link = |g, plan, link| kept(g, plan, |plan, leg| plan.legs[leg].link == link && is_first(plan, leg))
        }),
        wrong("later legs of streams alone", |g| {
            g.on_link = |g, plan, link| kept(g, plan, |plan, leg| plan.legs[leg].link == link && !is_first(plan, leg))
        }),
        wrong("the last leg left out", |g| {
            g.on_link = |g, plan, link| {
                let mut legs = on_link(g, plan, link);
                legs.pop();
                legs
            }
        }),
        wrong("the first leg left out", |g| {
            g.on_link = |g, plan, link| on_link(g, plan, link).into_iter().skip(1).collect()
        }),
        wrong("leg 0 left out", |g| {
            g.on_link = |g, plan, link| kept(g, plan, |plan, leg| leg > 0 && plan.legs[leg].link == link)
        }),
        wrong("the first 32 legs alone", |g| {
            g.on_link = |g, plan, link| on_link(g, plan, link).into_iter().take(32).collect()
        }),
        wrong("the first 255 legs alone", |g| {
            g.on_link = |g, plan, link| on_link(g, plan, link).into_iter().take(255).collect()
        }),
        wrong("legs of links that begin at the same node", |g| {
            g.on_link = |g, plan, link| {
                let from = |link: u32| plan.links[link as usize].from;
                kept(g, plan, |plan, leg| from(plan.legs[leg].link) == from(link))
            }
        }),
        wrong("one leg of each period", |g| {
            g.on_link = |g, plan, link| {
                let mut legs = on_link(g, plan, link);
                legs.sort_by_key(|leg| leg.period);
                legs.dedup_by_key(|leg| leg.period);
                legs
            }
        }),
        wrong("the link's number for a stream's", |g| {
            g.on_link = |g, plan, link| kept(g, plan, |plan, leg| plan.legs[leg].stream == link)
        }),
    ]
}

// ---- Links without legs

/// The right teller, but that a link without legs is refused with this number.
fn instead(g: &Teller, call: &Call, number: u32) -> Outcome<Plan> {
    let plan = opened(g, call)?;
    if let Asked::Gates(link) = call.asked {
        let is_empty = (link as usize) < plan.links.len() && plan.legs.iter().all(|leg| leg.link != link);
        due(is_empty && is_accepted(&Plain, &plan), number)?;
    }
    Ok(plan)
}

/// A teller that gives a link without legs one pair.
fn one_pair(name: &str, bend: impl Fn(&mut Teller)) -> Wrong {
    wrong(name, |g| {
        g.opened = |g, call| instead(g, call, 0);
        bend(g)
    })
}

/// Writes a pair of this duration where `instead` asks for one.
fn give_one(refusal: Refusal, call: &Call, answer: &mut Answer, duration: u64) {
    let bytes = encoded(&[IDLE, duration as u32]);
    match refusal.number {
        0 if bytes.len() <= answer.list.len() => give(&bytes, &[], answer),
        0 => refuse(Refusal { number: NO_ROOM, at: 0 }, call, answer),
        _ => refuse(refusal, call, answer),
    }
}

fn empty_links() -> Vec<Wrong> {
    vec![
        one_pair("one pair of the longest cycle for a link without legs", |g| {
            g.refuse = |refusal, call, answer| give_one(refusal, call, answer, MOST_CYCLE)
        }),
        one_pair("one pair of 1 ns for a link without legs", |g| {
            g.refuse = |refusal, call, answer| give_one(refusal, call, answer, 1)
        }),
        one_pair("one pair of 0 ns for a link without legs", |g| {
            g.refuse = |refusal, call, answer| give_one(refusal, call, answer, 0)
        }),
        wrong("21 for a link without legs", |g| g.opened = |g, call| instead(g, call, LONG_CYCLE)),
        wrong("22 for a link without legs", |g| g.opened = |g, call| instead(g, call, MANY_PAIRS)),
        wrong("23 for a link without legs", |g| g.opened = |g, call| instead(g, call, NO_LINK)),
        wrong("15 for a link without legs", |g| g.opened = |g, call| instead(g, call, NO_ROOM)),
        wrong("19 for a table without legs", |g| {
            g.is_accepted = |g, plan, _| !plan.legs.is_empty() && is_accepted(&g.checker, plan)
        }),
        wrong("15 where no byte is lent, for an empty list too", |g| {
            g.bytes_needed = |g, pairs| bytes_needed(g, pairs).max(1)
        }),
    ]
}

// ---- The cycle

fn different(legs: &[Sent]) -> Vec<u64> {
    let mut periods: Vec<u64> = legs.iter().map(|leg| leg.period.into()).collect();
    periods.sort_unstable();
    periods.dedup();
    periods
}

fn product(periods: &[u64], most: u64) -> Option<u64> {
    let product = periods.iter().try_fold(1u64, |product, &period| product.checked_mul(period))?;
    Some(product).filter(|&product| product <= most)
}

fn common_multiple(one: u64, other: u64) -> u64 {
    one / u64::from(divisor(other as u32, (one % other) as u32)) * other
}

fn cycles() -> Vec<Wrong> {
    vec![
        wrong("the cycle as the product of all periods", |g| {
            g.cycle = |_, legs, most| {
                let periods: Vec<u64> = legs.iter().map(|leg| leg.period.into()).collect();
                product(&periods, most)
            }
        }),
        wrong("the cycle as the product of the different periods", |g| {
            g.cycle = |_, legs, most| product(&different(legs), most)
        }),
        wrong("the product of the different periods for 21 alone", |g| {
            g.cycle = |_, legs, most| cycle(legs, most).filter(|_| product(&different(legs), most).is_some())
        }),
        wrong("21 where two periods multiplied pass the limit before they are divided", |g| {
            g.cycle = |_, legs, most| {
                let mut all = different(legs).into_iter();
                let mut known = all.next()?;
                for period in all {
                    product(&[known, period], u32::MAX.into())?;
                    known = common_multiple(known, period);
                }
                Some(known).filter(|&known| known <= most)
            }
        }),
        wrong("the longest period for the cycle", |g| g.cycle = |_, legs, _| different(legs).last().copied()),
        wrong("the shortest period for the cycle", |g| g.cycle = |_, legs, _| different(legs).first().copied()),
        wrong("the first leg's period for the cycle", |g| g.cycle = |_, legs, _| Some(legs[0].period.into())),
        wrong("the cycle of the first two legs", |g| g.cycle = |_, legs, most| cycle(&legs[..legs.len().min(2)], most)),
        wrong("the cycle of the two longest periods", |g| {
            g.cycle = |_, legs, most| {
                let periods = different(legs);
                let of_longest =
                    |leg: &&Sent| periods.iter().rev().take(2).any(|period| u64::from(leg.period) == *period);
                cycle(&legs.iter().filter(of_longest).copied().collect::<Vec<_>>(), most)
            }
        }),
        wrong("the cycle of all links of the table", |g| g.cycle = |plan, _, most| of_all(plan, most)),
        wrong("21 by the cycle of all links of the table", |g| {
            g.cycle = |plan, legs, most| cycle(legs, most).filter(|_| of_all(plan, most).is_some())
        }),
        wrong("twice the cycle", |g| {
            g.cycle = |_, legs, most| cycle(legs, most).map(|cycle| 2 * cycle).filter(|&cycle| cycle <= most)
        }),
        wrong("twice the cycle where there are two periods", |g| {
            g.cycle = |_, legs, most| {
                let times = if different(legs).len() == 2 { 2 } else { 1 };
                cycle(legs, most).map(|cycle| times * cycle).filter(|&cycle| cycle <= most)
            }
        }),
        wrong("the cycle in 32 bits", |g| {
            g.cycle = |_, legs, most| {
                let low = different(legs)
                    .into_iter()
                    .fold(1, |known: u64, period| u64::from(common_multiple(known.max(1), period) as u32));
                Some(low).filter(|&low| low > 0 && low <= most)
            }
        }),
        wrong("the cycle up to the limit alone", |g| g.cycle = |_, legs, most| cycle(legs, most).or(Some(most))),
        wrong("a cycle of the limit refused", |g| g.most_cycle -= 1),
        wrong("a cycle of one ns more than the limit taken", |g| g.most_cycle += 1),
        wrong("a cycle of all that 30 bits hold taken", |g| g.most_cycle = (1 << 30) - 1),
        wrong("21 never", |g| {
            g.cycle = |_, legs, most| {
                let far = gates_quick::cycle(legs).filter(|&cycle| gates_quick::holds(legs, cycle) < 10_000);
                cycle(legs, most).or(far)
            }
        }),
        wrong("21 where the periods differ", |g| {
            g.cycle = |_, legs, most| cycle(legs, most).filter(|_| different(legs).len() == 1)
        }),
        wrong("21 where no period is a multiple of all others", |g| {
            g.cycle = |_, legs, most| cycle(legs, most).filter(|cycle| different(legs).contains(cycle))
        }),
    ]
}

/// The least common multiple of all periods of a table.
fn of_all(plan: &Plan, most: u64) -> Option<u64> {
    let legs: Vec<Sent> = (0..plan.legs.len()).map(|leg| rules::sent(&Plain, plan, leg)).collect();
    cycle(&legs, most)
}

// ---- The limit of pairs

fn pair_limits() -> Vec<Wrong> {
    vec![
        wrong("1,023 pairs at the most", |g| g.most_pairs = MOST_PAIRS - 1),
        wrong("1,025 pairs at the most", |g| g.most_pairs = MOST_PAIRS + 1),
        wrong("1,024 words at the most", |g| g.most_pairs = MOST_PAIRS / PAIR_WORDS),
        wrong("1,024 holds at the most", |g| {
            g.most_pairs = usize::MAX;
            g.order = &[has_link, accepts, cycle_fits, held_pairs_fit, has_room]
        }),
        wrong("22 never", |g| g.most_pairs = usize::MAX),
        wrong("22 by holds that are not merged", |g| {
            g.order = &[has_link, accepts, cycle_fits, holds_fit, pairs_fit, has_room]
        }),
        wrong("22 by a last pair of length 0", |g| {
            g.order = &[has_link, accepts, cycle_fits, last_pair_fits, pairs_fit, has_room]
        }),
        wrong("22 by a first pair of length 0", |g| {
            g.order = &[has_link, accepts, cycle_fits, first_pair_fits, pairs_fit, has_room]
        }),
        wrong("22 from 256 legs on", |g| g.order = &[has_link, accepts, cycle_fits, legs_fit, pairs_fit, has_room]),
        wrong("the first 1,024 pairs where more are needed", |g| {
            g.most_pairs = usize::MAX;
            g.pairs = |legs, cycle| bent(legs, cycle, |list| list.truncate(MOST_PAIRS))
        }),
    ]
}

/// Counts only pairs in which the link is held.
fn held_pairs_fit(g: &Teller, known: &mut Known) -> Outcome<()> {
    due(known.list(g).iter().filter(|pair| pair.is_held).count() > MOST_PAIRS, MANY_PAIRS)
}

/// Counts two pairs for each hold, whether it touches another or not.
fn holds_fit(g: &Teller, known: &mut Known) -> Outcome<()> {
    let legs = on_link(g, known.plan, known.link);
    let holds = gates_quick::cycle(&legs).map_or(0, |cycle| gates_quick::holds(&legs, cycle));
    due(holds > (MOST_PAIRS / 2) as u64, MANY_PAIRS)
}

/// Counts one pair more where the list ends held.
fn last_pair_fits(g: &Teller, known: &mut Known) -> Outcome<()> {
    let list = known.list(g);
    let more = usize::from(list.last().map_or(false, |last| last.is_held));
    due(list.len() + more > MOST_PAIRS, MANY_PAIRS)
}

/// Counts one pair more where the list begins held.
fn first_pair_fits(g: &Teller, known: &mut Known) -> Outcome<()> {
    let list = known.list(g);
    let more = usize::from(list.first().map_or(false, |first| first.is_held));
    due(list.len() + more > MOST_PAIRS, MANY_PAIRS)
}

fn legs_fit(g: &Teller, known: &mut Known) -> Outcome<()> {
    due(on_link(g, known.plan, known.link).len() >= 256, MANY_PAIRS)
}

// ---- The order of the refusals

/// The right teller, but for the order.
fn ordered(name: &str, order: &'static [Test]) -> Wrong {
    wrong(name, |g| g.order = order)
}

/// Judges a plan after something else, where it can be read.
fn read_first(g: &Teller, call: &Call, test: impl Fn(&Plan, u32) -> Outcome<()>) -> Outcome<Plan> {
    let plan = g.checker.read_plan(&call.file)?;
    if let Asked::Gates(link) = call.asked {
        test(&plan, link)?;
    }
    g.checker.judge(&plan)?;
    Ok(plan)
}

fn orders() -> Vec<Wrong> {
    vec![
        ordered("19 before 23", &[accepts, has_link, cycle_fits, pairs_fit, has_room]),
        ordered("21 before 19", &[has_link, cycle_fits, accepts, pairs_fit, has_room]),
        ordered("22 before 21", &[has_link, accepts, pairs_fit, cycle_fits, has_room]),
        ordered("15 before 22", &[has_link, accepts, cycle_fits, has_room, pairs_fit]),
        ordered("15 before 21", &[has_link, accepts, has_room, cycle_fits, pairs_fit]),
        ordered("15 before 19", &[has_link, has_room, accepts, cycle_fits, pairs_fit]),
        ordered("22 right after 23", &[has_link, pairs_fit, accepts, cycle_fits, has_room]),
        ordered("23 last", &[accepts, cycle_fits, pairs_fit, has_room, has_link]),
        ordered("19 last", &[has_link, cycle_fits, pairs_fit, has_room, accepts]),
        ordered("19 after 22", &[has_link, cycle_fits, pairs_fit, accepts, has_room]),
        ordered("21 last", &[has_link, accepts, pairs_fit, has_room, cycle_fits]),
        wrong("23 before the shape", |g| {
            g.opened = |g, call| read_first(g, call, |plan, link| due(link as usize >= plan.links.len(), NO_LINK))
        }),
        wrong("15 before the shape, as for a cursor", |g| {
            g.opened = |g, call| read_first(g, call, |_, _| due(call.list.len() < PAIR_WORDS, NO_ROOM))
        }),
        wrong("15 first, where no byte is lent", |g| {
            g.opened = |g, call| {
                due(call.list.is_empty(), NO_ROOM)?;
                opened(g, call)
            }
        }),
        wrong("an empty list before 19", |g| {
            g.is_accepted =
                |g, plan, link| plan.legs.iter().all(|leg| leg.link != link) || is_accepted(&g.checker, plan)
        }),
    ]
}

// ---- Links that are not there

fn links() -> Vec<Wrong> {
    vec![
        wrong("an empty list where there is no such link", |g| g.has_link = |_, _| true),
        wrong("the link after the last taken", |g| g.has_link = |plan, link| link as usize <= plan.links.len()),
        wrong("23 for the last link", |g| g.has_link = |plan, link| link as u64 + 1 < plan.links.len() as u64),
        wrong("links counted from 1", |g| {
            g.has_link = |plan, link| link > 0 && link as usize <= plan.links.len();
            g.on_link = |g, plan, link| on_link(g, plan, link.wrapping_sub(1))
        }),
        wrong("the low 16 bits of the link", |g| {
            g.has_link = |plan, link| ((link & 0xFFFF) as usize) < plan.links.len();
            g.on_link = |g, plan, link| on_link(g, plan, link & 0xFFFF)
        }),
        wrong("the low 8 bits of the link", |g| {
            g.has_link = |plan, link| ((link & 0xFF) as usize) < plan.links.len();
            g.on_link = |g, plan, link| on_link(g, plan, link & 0xFF)
        }),
        wrong("23 by the links that have legs", |g| {
            g.has_link = |plan, link| plan.legs.iter().any(|leg| leg.link >= link) && (link as usize) < plan.links.len()
        }),
        wrong("23 by the number of legs", |g| g.has_link = |plan, link| (link as usize) < plan.legs.len()),
        wrong("the most links taken for those that are there", |g| g.has_link = |_, link| link < LIMITS.links),
        wrong("10 in place of 23", |g| {
            g.refuse = |refusal, call, answer| {
                let number = if refusal.number == NO_LINK { 10 } else { refusal.number };
                refuse(Refusal { number, ..refusal }, call, answer)
            }
        }),
        wrong("7 in place of 23", |g| {
            g.refuse = |refusal, call, answer| {
                let number = if refusal.number == NO_LINK { 7 } else { refusal.number };
                refuse(Refusal { number, ..refusal }, call, answer)
            }
        }),
    ]
}

// ---- Tables that are not accepted

fn accepted() -> Vec<Wrong> {
    /// Whether all places hold that concern a leg, or two, which are asked.
    fn hold_where(plan: &Plan, is_asked: impl Fn(usize, usize) -> bool) -> bool {
        (0..plan.legs.len()).all(|leg| {
            let places = 0..places_of(leg as u32);
            places.into_iter().all(|place| {
                let (rule, other) = rule_at(place);
                let other = if rule == OVERLAP { other } else { leg };
                !is_asked(leg, other) || Plain.holds(plan, leg, place)
            })
        })
    }
    /// Whether the rules hold but for one.
    fn hold_but(plan: &Plan, but: usize) -> bool {
        (0..plan.legs.len()).all(|leg| {
            let places = 0..places_of(leg as u32);
            places.into_iter().all(|place| rule_at(place).0 == but || Plain.holds(plan, leg, place))
        })
    }
    vec![
        wrong("19 never", |g| g.is_accepted = |_, _, _| true),
        wrong("19 by legs of this link alone", |g| {
            g.is_accepted = |_, plan, link| {
                hold_where(plan, |one, other| plan.legs[one].link == link && plan.legs[other].link == link)
            }
        }),
        wrong("19 without windows", |g| g.is_accepted = |_, plan, _| hold_but(plan, WINDOW)),
        wrong("19 without hops", |g| g.is_accepted = |_, plan, _| hold_but(plan, HOP)),
        wrong("19 without deadlines", |g| g.is_accepted = |_, plan, _| hold_but(plan, DEADLINE)),
        wrong("19 without overlaps", |g| g.is_accepted = |_, plan, _| hold_but(plan, OVERLAP)),
        wrong("19 by windows and overlaps alone", |g| {
            g.is_accepted = |_, plan, _| {
                let frame = |leg| rules::sent(&Plain, plan, leg);
                (0..plan.legs.len()).all(|leg| {
                    own_holds(&Plain, plan, leg, WINDOW, frame)
                        && (0..leg).all(|other| {
                            plan.legs[leg].link != plan.legs[other].link || Plain.apart(&frame(leg), &frame(other))
                        })
                })
            }
        }),
        wrong("19 by the rules without the gap", |g| {
            g.is_accepted = |_, plan, _| {
                let hold_time = |c: &Bent, octets, rate| c.wire_time(octets, rate);
                is_accepted(&Bent { hold_time, ..CHECKER }, plan)
            }
        }),
        wrong("19 by the rules with a longer gap", |g| {
            g.is_accepted = |_, plan, _| {
                let hold_time = |c: &Bent, octets, rate| rules::hold_time(c, octets + 1, rate);
                is_accepted(&Bent { hold_time, ..CHECKER }, plan)
            }
        }),
        wrong("19 without period words", |g| g.checker.start = |_, plan, leg| plan.legs[leg].offset.into()),
        wrong("19 at the end of the check", |g| {
            g.refuse = |refusal, call, answer| {
                let legs = Plain.read_plan(&call.file).map_or(0, |plan| plan.legs.len());
                let at = if refusal.number == NOT_ACCEPTED { legs } else { refusal.at };
                refuse(Refusal { at, ..refusal }, call, answer)
            }
        }),
        wrong("the rule told in place of 19", |g| {
            g.refuse = |refusal, call, answer| match Plain.read_plan(&call.file) {
                Ok(plan) if refusal.number == NOT_ACCEPTED => answer.result = whole(&Plain, &plan).result,
                _ => refuse(refusal, call, answer),
            }
        }),
    ]
}

// ---- Files and shapes that are wrong

fn shapes() -> Vec<Wrong> {
    vec![
        wrong("bytes left over taken", |g| g.checker.plan_ends = |_, _, _| Ok(())),
        wrong("links not judged", |g| g.checker.links_in_range = |_, _| Ok(())),
        wrong("equal links taken", |g| g.checker.links_differ = |_, _| Ok(())),
        wrong("streams not judged", |g| g.checker.streams = |_, _| Ok(())),
        wrong("legs not judged", |g| g.checker.legs = |_, _| Ok(())),
        wrong("a leg eight periods late taken", |g| g.checker.limits.periods += 1),
        wrong("legs judged before streams", |g| {
            g.checker.judge = |c, plan| {
                let judged = shape::judge(c, plan);
                match judged {
                    Err(Refusal { number: 6, .. }) => shape::legs(c, plan).and(judged),
                    _ => judged,
                }
            }
        }),
        wrong("all refusals at 0", |g| {
            g.refuse = |refusal, call, answer| refuse(Refusal { at: 0, ..refusal }, call, answer)
        }),
        wrong("a last byte 0 taken", |g| g.checker.number = with_zeros),
    ]
}

/// A number that may be longer than it has to be.
fn with_zeros(c: &Bent, bytes: &[u8], start: usize) -> Outcome<(u32, usize)> {
    match format::number(c, bytes, start) {
        Err(Refusal { number: BAD_FORM, .. }) if !is_fifth(&bytes[start..]) => {
            let length = bytes[start..].iter().position(|byte| *byte == 0).unwrap_or(0);
            let groups = bytes[start..start + length].iter().enumerate();
            let value = groups.fold(0, |value, (at, byte)| value | u32::from(byte & !MORE) << (7 * at));
            Ok((value, start + length + 1))
        }
        other => other,
    }
}

/// Whether a number is wrong by its fifth byte.
fn is_fifth(bytes: &[u8]) -> bool {
    bytes.len() >= NUMBER_BYTES && bytes[..4].iter().all(|byte| *byte >= MORE) && bytes[4] > LIMITS.last_byte
}

// ---- Room

fn rooms() -> Vec<Wrong> {
    vec![
        wrong("one byte more asked for", |g| g.bytes_needed = |g, pairs| bytes_needed(g, pairs) + 1),
        wrong("five bytes for each number asked for", |g| {
            g.bytes_needed = |_, pairs| NUMBER_BYTES * PAIR_WORDS * pairs.len()
        }),
        wrong("two bytes for each mask asked for", |g| {
            g.bytes_needed = |g, pairs| bytes_needed(g, pairs) + pairs.iter().filter(|pair| !pair.is_held).count()
        }),
        wrong("room for 1,024 pairs asked for", |g| {
            g.bytes_needed = |_, pairs| if pairs.is_empty() { 0 } else { 7 * MOST_PAIRS }
        }),
        wrong("one byte less asked for", |g| {
            g.bytes_needed = |g, pairs| bytes_needed(g, pairs).saturating_sub(1);
            g.give = give_what_fits
        }),
        wrong("15 never: as much as there is room for", |g| {
            g.bytes_needed = |_, _| 0;
            g.give = give_what_fits
        }),
        wrong("15 at the number of bytes lent", |g| {
            g.refuse = |refusal, call, answer| {
                let at = if refusal.number == NO_ROOM { call.list.len() } else { refusal.at };
                refuse(Refusal { at, ..refusal }, call, answer)
            }
        }),
    ]
}

fn give_what_fits(bytes: &[u8], _: &[Pair], answer: &mut Answer) {
    let fits = bytes.len().min(answer.list.len());
    answer.list[..fits].copy_from_slice(&bytes[..fits]);
    answer.number = bytes.len() as u32;
}

// ---- The file

fn files() -> Vec<Wrong> {
    vec![
        wrong("the number of pairs in front", |g| {
            g.bytes = |words| [encoded(&[(words.len() / PAIR_WORDS) as u32]), encoded(words)].concat()
        }),
        wrong("the cycle in front", |g| {
            g.bytes = |words| {
                let cycle: u32 = words.chunks(PAIR_WORDS).map(|pair| pair[1]).sum();
                [encoded(&[cycle]), encoded(words)].concat()
            }
        }),
        wrong("a 0 at the end", |g| g.bytes = |words| [encoded(words), vec![0]].concat()),
        wrong("durations before masks", |g| {
            g.words = |g, pairs| words(g, pairs).chunks(PAIR_WORDS).flat_map(|pair| [pair[1], pair[0]]).collect()
        }),
        wrong("all masks before all durations", |g| {
            g.words = |g, pairs| {
                let all = words(g, pairs);
                all.iter().step_by(2).chain(all.iter().skip(1).step_by(2)).copied().collect()
            }
        }),
        wrong("masks left out", |g| {
            g.words = |g, pairs| words(g, pairs).into_iter().skip(1).step_by(PAIR_WORDS).collect()
        }),
        wrong("a mask as one byte", |g| {
            g.bytes = |words| {
                let pair = |pair: &[u32]| [vec![pair[0] as u8], encoded(&pair[1..])].concat();
                words.chunks(PAIR_WORDS).flat_map(pair).collect()
            }
        }),
        wrong("four bytes for each number", |g| {
            g.bytes = |words| words.iter().flat_map(|word| word.to_le_bytes()).collect()
        }),
        wrong("the highest group first", |g| {
            g.bytes = |words| {
                let turned = |word: &u32| {
                    let mut bytes: Vec<u8> = encoded(&[*word]).iter().rev().map(|byte| byte & !MORE).collect();
                    let last = bytes.len() - 1;
                    bytes[..last].iter_mut().for_each(|byte| *byte |= MORE);
                    bytes
                };
                words.iter().flat_map(turned).collect()
            }
        }),
        wrong("the top bit set on the last byte", |g| {
            g.bytes = |words| {
                let turned = |word: &u32| encoded(&[*word]).into_iter().map(|byte| byte ^ MORE);
                words.iter().flat_map(turned).collect()
            }
        }),
        wrong("numbers in 5 bytes", |g| {
            g.bytes = |words| {
                let padded = |word: &u32| {
                    let groups = (0..NUMBER_BYTES).map(|at| (word >> (7 * at)) as u8 & !MORE);
                    let mut bytes: Vec<u8> = groups.map(|byte| byte | MORE).collect();
                    bytes[NUMBER_BYTES - 1] &= !MORE;
                    bytes
                };
                words.iter().flat_map(padded).collect()
            }
        }),
    ]
}

// ---- The answer

fn answers() -> Vec<Wrong> {
    vec![
        wrong("how many pairs for how many bytes", |g| {
            g.give = |bytes, pairs, answer| {
                give(bytes, pairs, answer);
                answer.number = pairs.len() as u32;
            }
        }),
        wrong("how many words for how many bytes", |g| {
            g.give = |bytes, pairs, answer| {
                give(bytes, pairs, answer);
                answer.number = (PAIR_WORDS * pairs.len()) as u32;
            }
        }),
        wrong("the cycle for how many bytes", |g| {
            g.give = |bytes, pairs, answer| {
                give(bytes, pairs, answer);
                answer.number = pairs.iter().map(|pair| pair.duration as u32).sum();
            }
        }),
        wrong("all bytes lent for how many", |g| {
            g.give = |bytes, pairs, answer| {
                give(bytes, pairs, answer);
                answer.number = answer.list.len() as u32;
            }
        }),
        wrong("0 for how many bytes", |g| {
            g.give = |bytes, pairs, answer| {
                give(bytes, pairs, answer);
                answer.number = 0;
            }
        }),
        wrong("nothing written", |g| g.give = |bytes, _, answer| answer.number = bytes.len() as u32),
        wrong("the rest of the buffer set to 0", |g| {
            g.give = |bytes, pairs, answer| {
                give(bytes, pairs, answer);
                answer.list[bytes.len()..].fill(0);
            }
        }),
        wrong("a 0 after the list where there is room", |g| {
            g.give = |bytes, pairs, answer| {
                give(bytes, pairs, answer);
                answer.list.iter_mut().skip(bytes.len()).take(1).for_each(|byte| *byte = 0);
            }
        }),
        wrong("the list at the end of the buffer", |g| {
            g.give = |bytes, pairs, answer| {
                let start = answer.list.len() - bytes.len();
                answer.list[start..].copy_from_slice(bytes);
                give(&[], pairs, answer);
                answer.number = bytes.len() as u32;
            }
        }),
        wrong("as much written as fits where 15 is told", |g| {
            g.refuse = |refusal, call, answer| {
                if refusal.number == NO_ROOM && matches!(call.asked, Asked::Gates(_)) {
                    let all = gates::answer(&RIGHT, &Call { list: vec![0; 40_000], ..call.clone() });
                    let fits = answer.list.len();
                    answer.list.copy_from_slice(&all.list[..fits]);
                }
                refuse(refusal, call, answer)
            }
        }),
        wrong("a byte written where 22 is told", |g| {
            g.refuse = |refusal, call, answer| {
                if refusal.number == MANY_PAIRS {
                    answer.list.iter_mut().take(1).for_each(|byte| *byte = !*byte);
                }
                refuse(refusal, call, answer)
            }
        }),
        wrong("the buffer set to 0 where 19 is told", |g| {
            g.refuse = |refusal, call, answer| {
                if refusal.number == NOT_ACCEPTED {
                    answer.list.fill(0);
                }
                refuse(refusal, call, answer)
            }
        }),
        wrong("the buffer set to 0 where 21 is told", |g| {
            g.refuse = |refusal, call, answer| {
                if refusal.number == LONG_CYCLE {
                    answer.list.fill(0);
                }
                refuse(refusal, call, answer)
            }
        }),
        wrong("the buffer set to 0 before all refusals", |g| {
            g.refuse = |refusal, call, answer| {
                answer.list.fill(0);
                refuse(refusal, call, answer)
            }
        }),
        wrong("refusals at the link", |g| {
            g.refuse = |refusal, call, answer| {
                let link = if let Asked::Gates(link) = call.asked { link as usize } else { 0 };
                let is_late = [NO_LINK, NOT_ACCEPTED, LONG_CYCLE, MANY_PAIRS].contains(&refusal.number);
                refuse(Refusal { at: if is_late { link } else { refusal.at }, ..refusal }, call, answer)
            }
        }),
        wrong("22 with the number of pairs", |g| {
            g.refuse = |refusal, call, answer| {
                let at = if refusal.number == MANY_PAIRS { MOST_PAIRS } else { refusal.at };
                refuse(Refusal { at, ..refusal }, call, answer)
            }
        }),
        wrong("refusals without the 100", |g| {
            g.refuse = |refusal, call, answer| {
                refuse(refusal, call, answer);
                answer.result -= REFUSED;
            }
        }),
        wrong("21 and 22 exchanged", |g| {
            g.refuse = |refusal, call, answer| {
                let number = match refusal.number {
                    LONG_CYCLE => MANY_PAIRS,
                    MANY_PAIRS => LONG_CYCLE,
                    number => number,
                };
                refuse(Refusal { number, ..refusal }, call, answer)
            }
        }),
    ]
}

// ---- List files

/// The numbers of a file in order, up to a fault, and the fault.
fn numbers_of(g: &Teller, bytes: &[u8]) -> (Vec<u32>, Option<Refusal>) {
    let mut numbers = Numbers { checker: &g.checker, bytes, at: 0 };
    let mut words = Vec::new();
    while numbers.at < bytes.len() {
        match numbers.next() {
            Ok(word) => words.push(word),
            Err(refusal) => return (words, Some(refusal)),
        }
    }
    (words, None)
}

/// What is read, where a mask at the end is treated like this.
fn with_half(g: &Teller, bytes: &[u8], half: fn(&mut Vec<u32>, &[u8]) -> Outcome<()>) -> Outcome<Vec<u32>> {
    let (mut words, fault) = numbers_of(g, bytes);
    if let Some(refusal) = fault {
        return Err(refusal);
    }
    if words.len() % PAIR_WORDS != 0 {
        half(&mut words, bytes)?;
    }
    Ok(words)
}

/// How many numbers a file seems to have, by the bytes at which one ends.
fn ends_of(bytes: &[u8]) -> usize {
    bytes.iter().filter(|byte| **byte < MORE).count()
}

fn reads() -> Vec<Wrong> {
    /// What is read, with a refusal of pairs.
    fn unless(g: &Teller, bytes: &[u8], number: u32, is_due: fn(&[u32]) -> bool) -> Outcome<Vec<u32>> {
        let words = read(g, bytes)?;
        let is_due = is_due(&words);
        due(is_due, number).map(|_| words)
    }
    vec![
        wrong("half a pair taken", |g| g.read = |g, bytes| with_half(g, bytes, |_, _| Ok(()))),
        wrong("half a pair left out", |g| {
            g.read = |g, bytes| {
                with_half(g, bytes, |words, _| {
                    words.pop();
                    Ok(())
                })
            }
        }),
        wrong("half a pair with a duration of 0", |g| {
            g.read = |g, bytes| {
                with_half(g, bytes, |words, _| {
                    words.push(0);
                    Ok(())
                })
            }
        }),
        wrong("12 for half a pair at 0", |g| g.read = |g, bytes| with_half(g, bytes, |_, _| refused(ENDS_EARLY, 0))),
        wrong("12 for half a pair at its mask", |g| {
            g.read = |g, bytes| {
                with_half(g, bytes, |words, bytes| {
                    refused(ENDS_EARLY, bytes.len() - encoded(&words[words.len() - 1..]).len())
                })
            }
        }),
        wrong("12 for half a pair at the last byte", |g| {
            g.read = |g, bytes| with_half(g, bytes, |_, bytes| refused(ENDS_EARLY, bytes.len() - 1))
        }),
        wrong("12 for half a pair at the number of its pair", |g| {
            g.read = |g, bytes| with_half(g, bytes, |words, _| refused(ENDS_EARLY, words.len() / PAIR_WORDS))
        }),
        wrong("13 for half a pair", |g| {
            g.read = |g, bytes| with_half(g, bytes, |_, bytes| refused(BAD_FORM, bytes.len()))
        }),
        wrong("14 for half a pair", |g| {
            g.read = |g, bytes| with_half(g, bytes, |_, bytes| refused(LEFT_OVER, bytes.len()))
        }),
        wrong("half a pair before 13", |g| {
            g.read = |g, bytes| {
                let is_half = ends_of(bytes) % PAIR_WORDS != 0;
                if is_half && bytes.last().map_or(false, |byte| *byte < MORE) {
                    return refused(ENDS_EARLY, bytes.len());
                }
                read(g, bytes)
            }
        }),
        wrong("12 in a number at the end", |g| {
            g.read = |g, bytes| {
                read(g, bytes).map_err(|refusal| match refusal.number {
                    ENDS_EARLY => Refusal { at: bytes.len(), ..refusal },
                    _ => refusal,
                })
            }
        }),
        wrong("12 and 13 at the number of the word", |g| {
            g.read =
                |g, bytes| read(g, bytes).map_err(|refusal| Refusal { at: numbers_of(g, bytes).0.len(), ..refusal })
        }),
        wrong("12 and 13 at the start of the pair", |g| {
            g.read = |g, bytes| {
                read(g, bytes).map_err(|refusal| {
                    let words = numbers_of(g, bytes).0;
                    let at = if words.len() % PAIR_WORDS == 0 || refusal.at == bytes.len() {
                        refusal.at
                    } else {
                        refusal.at - encoded(&words[words.len() - 1..]).len()
                    };
                    Refusal { at, ..refusal }
                })
            }
        }),
        wrong("13 at the byte that is wrong", |g| {
            g.read = |g, bytes| {
                read(g, bytes).map_err(|refusal| {
                    let wrong = bytes[refusal.at..].iter().take(4).position(|byte| *byte == 0).unwrap_or(4);
                    let at = if refusal.number == BAD_FORM { refusal.at + wrong } else { refusal.at };
                    Refusal { at, ..refusal }
                })
            }
        }),
        wrong("a bad number at the end left out", |g| {
            g.read = |g, bytes| {
                let (words, _) = numbers_of(g, bytes);
                read(g, bytes).or_else(|refusal| match refusal.number {
                    ENDS_EARLY if words.len() % PAIR_WORDS == 0 => Ok(words),
                    _ => Err(refusal),
                })
            }
        }),
        wrong("longer forms taken in list files", |g| {
            g.read = |g, bytes| {
                let mut other = *g;
                other.checker.number = with_zeros;
                read(&other, bytes)
            }
        }),
        wrong("any fifth byte below 80 taken", |g| {
            g.read = |g, bytes| {
                let mut other = *g;
                other.checker.limits.last_byte = 0x7F;
                read(&other, bytes)
            }
        }),
        wrong("an empty file refused 12", |g| {
            g.read = |g, bytes| if bytes.is_empty() { refused(ENDS_EARLY, 0) } else { read(g, bytes) }
        }),
        wrong("22 for more than 1,024 pairs in a file", |g| {
            g.read = |g, bytes| unless(g, bytes, MANY_PAIRS, |words| words.len() > PAIR_WORDS * MOST_PAIRS)
        }),
        wrong("24 for a duration of 0", |g| {
            g.read = |g, bytes| unless(g, bytes, 24, |words| words.chunks(PAIR_WORDS).any(|pair| pair[1] == 0))
        }),
        wrong("24 for a mask above 255", |g| {
            g.read = |g, bytes| unless(g, bytes, 24, |words| words.chunks(PAIR_WORDS).any(|pair| pair[0] > 255))
        }),
        wrong("24 for equal neighbours", |g| {
            g.read = |g, bytes| {
                unless(g, bytes, 24, |words| {
                    words.iter().step_by(2).zip(words.iter().step_by(2).skip(1)).any(|(a, b)| a == b)
                })
            }
        }),
        wrong("21 for durations that add up to more than the limit", |g| {
            g.read = |g, bytes| {
                unless(g, bytes, LONG_CYCLE, |words| {
                    words.chunks(PAIR_WORDS).map(|pair| u64::from(pair[1])).sum::<u64>() > MOST_CYCLE
                })
            }
        }),
        wrong("masks by their low byte", |g| {
            g.read = |g, bytes| {
                let mut words = read(g, bytes)?;
                words.iter_mut().step_by(PAIR_WORDS).for_each(|mask| *mask &= 0xFF);
                Ok(words)
            }
        }),
        wrong("equal neighbours merged", |g| {
            g.read = |g, bytes| {
                let mut merged: Vec<u32> = Vec::new();
                for pair in read(g, bytes)?.chunks(PAIR_WORDS) {
                    match merged.len() {
                        length if length > 0 && merged[length - 2] == pair[0] => {
                            merged[length - 1] = merged[length - 1].wrapping_add(pair[1])
                        }
                        _ => merged.extend(pair),
                    }
                }
                Ok(merged)
            }
        }),
        wrong("pairs of 0 ns left out", |g| {
            g.read = |g, bytes| {
                let words = read(g, bytes)?;
                Ok(words.chunks(PAIR_WORDS).filter(|pair| pair[1] > 0).flatten().copied().collect())
            }
        }),
        wrong("numbers of 31 bits", |g| {
            g.read = |g, bytes| Ok(read(g, bytes)?.into_iter().map(|word| word & 0x7FFF_FFFF).collect())
        }),
        wrong("the first 1,024 pairs of a file", |g| {
            g.read = |g, bytes| {
                let mut words = read(g, bytes)?;
                words.truncate(PAIR_WORDS * MOST_PAIRS);
                Ok(words)
            }
        }),
    ]
}

/// Whether a call reads a list file.
fn is_read(call: &Call) -> bool {
    call.asked == Asked::Read
}

fn read_answers() -> Vec<Wrong> {
    fn give_as_fits(words: &[u32], answer: &mut Answer) {
        let fits = words.len().min(answer.words.len());
        answer.words[..fits].copy_from_slice(&words[..fits]);
        answer.number = words.len() as u32;
    }
    vec![
        wrong("15 before 12 and 13", |g| {
            g.refuse = |refusal, call, answer| {
                let is_short = is_read(call) && ends_of(&call.file) > call.words.len();
                let refusal = if is_short { Refusal { number: NO_ROOM, at: 0 } } else { refusal };
                refuse(refusal, call, answer)
            }
        }),
        wrong("15 at the first word without room", |g| {
            g.refuse = |refusal, call, answer| {
                let words = if is_read(call) { numbers_of(&RIGHT, &call.file).0 } else { Vec::new() };
                let is_short = words.len() > call.words.len();
                let refusal = if is_short { Refusal { number: NO_ROOM, at: 0 } } else { refusal };
                refuse(refusal, call, answer)
            }
        }),
        wrong("one word more asked for", |g| {
            g.has_words = |_, call, words| due(words.len() + 1 > call.words.len(), NO_ROOM)
        }),
        wrong("one word less asked for", |g| {
            g.has_words = |_, call, words| due(words.len() > call.words.len() + 1, NO_ROOM);
            g.give_words = give_as_fits
        }),
        wrong("one word for each pair asked for", |g| {
            g.has_words = |_, call, words| due(words.len() / PAIR_WORDS > call.words.len(), NO_ROOM);
            g.give_words = give_as_fits
        }),
        wrong("one word for each byte asked for", |g| {
            g.has_words = |_, call, _| due(call.file.len() > call.words.len(), NO_ROOM)
        }),
        wrong("15 where no word is lent, for an empty file too", |g| {
            g.has_words = |g, call, words| {
                due(call.words.is_empty(), NO_ROOM)?;
                has_words(g, call, words)
            }
        }),
        wrong("15 for words at the number of words lent", |g| {
            g.refuse = |refusal, call, answer| {
                let at = if is_read(call) && refusal.number == NO_ROOM { call.words.len() } else { refusal.at };
                refuse(Refusal { at, ..refusal }, call, answer)
            }
        }),
        wrong("how many pairs for how many words", |g| {
            g.give_words = |words, answer| {
                give_words(words, answer);
                answer.number /= PAIR_WORDS as u32;
            }
        }),
        wrong("how many bytes for how many words", |g| {
            g.give_words = |words, answer| {
                give_words(words, answer);
                answer.number = encoded(words).len() as u32;
            }
        }),
        wrong("mask and duration exchanged", |g| {
            g.give_words = |words, answer| {
                let turned: Vec<u32> = words.chunks(PAIR_WORDS).flat_map(|pair| [pair[1], pair[0]]).collect();
                give_words(&turned, answer)
            }
        }),
        wrong("words with their highest byte first", |g| {
            g.give_words =
                |words, answer| give_words(&words.iter().map(|word| word.swap_bytes()).collect::<Vec<_>>(), answer)
        }),
        wrong("the rest of the words set to 0", |g| {
            g.give_words = |words, answer| {
                give_words(words, answer);
                answer.words[words.len()..].fill(0);
            }
        }),
        wrong("words written up to the fault", |g| {
            g.refuse = |refusal, call, answer| {
                if is_read(call) && refusal.number != NO_ROOM {
                    let words = numbers_of(&RIGHT, &call.file).0;
                    give_as_fits(&words, answer);
                }
                refuse(refusal, call, answer)
            }
        }),
        wrong("as many words as fit written where 15 is told", |g| {
            g.refuse = |refusal, call, answer| {
                if is_read(call) && refusal.number == NO_ROOM {
                    let words = numbers_of(&RIGHT, &call.file).0;
                    give_as_fits(&words, answer);
                }
                refuse(refusal, call, answer)
            }
        }),
        wrong("granted always", |g| {
            g.refuse = |refusal, _, answer| (answer.result, answer.number) = (GRANTED, refusal.at as u32)
        }),
    ]
}
