//! Checkers that are wrong on purpose, each in one thing. The comparison has to catch every one; those of the first three
//! groups have to be caught by what the programs print, too. Those of the last group say something wrong of a refusal, and
//! have to be caught by what the programs say on standard error.

use crate::check::{
    self, begin, next, packed, places_before, places_of, rule_at, Bent, Checker, Lent, Plain, Sliced, RIGHT,
};
use crate::format::{
    self, plan_bytes, refused, Cursor, Layout, Leg, Link, Move, Numbers, Outcome, Plan, Refusal, Stream,
};
use crate::paper::{
    Limits, ABOVE_LIMIT, BAD_FORM, CURSOR_BYTES, DEADLINE, ENDS_EARLY, GAP, GROUP_BITS, HEADER_WORDS, HOP,
    LAST_REVISION, LEFT_OVER, LEG_WRONG, LIMITS, LINK_RANGE, LINK_TWICE, MORE, NOTHING_VIOLATED, NO_LEG, NO_PLACE,
    NO_ROOM, NUMBER_BYTES, OVERLAP, OVERLAPS, PAUSED, PREAMBLE, REFUSED, RULES, STALE, STREAM_WRONG, TOO_LATE,
    VIOLATED, WINDOW,
};
use crate::reasons;
use crate::rules::{self, arrival, divisor, sent, Sent};
use crate::shape;

pub struct Wrong {
    pub name: String,
    pub checker: Bent,
}

/// The right checker, bent in one thing.
fn wrong(name: &str, bend: impl Fn(&mut Bent)) -> Wrong {
    let mut checker = RIGHT;
    bend(&mut checker);
    Wrong { name: name.to_string(), checker }
}

/// All wrong checkers that give a wrong result.
pub fn all() -> Vec<Wrong> {
    readers().into_iter().chain(judges()).chain(checkers()).chain(callers()).collect()
}

// ---- Readers

/// A limit's name, where it stands, and whether it is wrong when it is lower by one, and when it is higher.
type Limit = (&'static str, fn(&mut Limits) -> &mut u32, [bool; 2]);

const EACH_WAY: [bool; 2] = [true, true];

/// Checkers with one limit moved by one.
fn moved_limits(limits: &[Limit]) -> Vec<Wrong> {
    let mut moved = Vec::new();
    for (name, limit, ways) in limits {
        for (is_higher, _) in [false, true].into_iter().zip(ways).filter(|(_, is_wrong)| **is_wrong) {
            let name = format!("{} one too {}", name, if is_higher { "high" } else { "low" });
            moved.push(wrong(&name, |c| {
                let number = limit(&mut c.limits);
                *number = if is_higher { *number + 1 } else { *number - 1 };
            }));
        }
    }
    moved
}

/// The right reader of a layout.
fn read_in(c: &Bent, bytes: &[u8], layout: Layout) -> Outcome<Plan> {
    match layout {
        Layout::First => format::read_first(c, bytes),
        Layout::Second => format::read_plan(c, bytes),
    }
}

/// Reads on after a header above a limit, and lets some refusals come before that.
fn read_on(c: &Bent, bytes: &[u8], layout: Layout, first: &[u32]) -> Outcome<Plan> {
    let right = read_in(c, bytes, layout);
    if !matches!(right, Err(Refusal { number: ABOVE_LIMIT, .. })) {
        return right;
    }
    let mut numbers = Numbers { checker: c, bytes, at: 0 };
    let header: [u32; HEADER_WORDS] = numbers.record()?;
    for _ in HEADER_WORDS as u64..layout.table_words(&header) {
        if let Err(refusal) = numbers.next() {
            return if first.contains(&refusal.number) { Err(refusal) } else { right };
        }
    }
    match c.plan_ends(numbers.at, bytes.len()) {
        Err(refusal) if first.contains(&refusal.number) => Err(refusal),
        _ => right,
    }
}

/// The reader of a layout, but that a file which it refuses is read in the other one.
fn in_either(c: &Bent, bytes: &[u8], layout: Layout) -> Outcome<Plan> {
    let other = if layout == Layout::First { Layout::Second } else { Layout::First };
    read_in(c, bytes, layout).or_else(|refusal| read_in(c, bytes, other).or(Err(refusal)))
}

/// What was read, with other words in its legs. Each is made from the plan and the leg.
fn with_legs(read: Outcome<Plan>, other: fn(&Plan, &Leg) -> Leg) -> Outcome<Plan> {
    read.map(|plan| Plan { legs: plan.legs.iter().map(|leg| other(&plan, leg)).collect(), ..plan.clone() })
}

fn exchanged(leg: &Leg) -> Leg {
    Leg { offset: leg.periods, periods: leg.offset, ..*leg }
}

/// A leg whose offset lies below its period, by its period word. A leg of no stream stays.
fn carried(plan: &Plan, leg: &Leg) -> Leg {
    match plan.streams.get(leg.stream as usize) {
        Some(&Stream { period, .. }) if period > 0 => {
            Leg { offset: leg.offset % period, periods: leg.periods.wrapping_add(leg.offset / period), ..*leg }
        }
        _ => *leg,
    }
}

/// The groups of a number before its last one, as far as there are bytes.
fn groups_before_last(bytes: &[u8], start: usize) -> usize {
    bytes.iter().skip(start).take_while(|&&byte| byte >= MORE).count()
}

pub fn readers() -> Vec<Wrong> {
    let at_bad_byte: fn(&Bent, &[u8], usize) -> _ = |c, bytes, start| {
        format::number(c, bytes, start).map_err(|refusal| match refusal.number {
            BAD_FORM => Refusal { at: start + groups_before_last(bytes, start).min(NUMBER_BYTES - 1), ..refusal },
            _ => refusal,
        })
    };
    let long_form_taken: fn(&Bent, &[u8], usize) -> _ = |c, bytes, start| {
        let right = format::number(c, bytes, start);
        let groups = groups_before_last(bytes, start);
        if right.is_ok() || groups > NUMBER_BYTES - 1 || bytes.get(start + groups) != Some(&0) {
            return right;
        }
        let low = bytes[start..start + groups].iter().rev();
        Ok((low.fold(0, |value, byte| value << GROUP_BITS | u32::from(byte & !MORE)), start + groups + 1))
    };
    let twelve_at_end: fn(&Bent, &[u8], usize) -> _ = |c, bytes, start| {
        format::number(c, bytes, start).map_err(|refusal| match refusal.number {
            ENDS_EARLY => Refusal { at: bytes.len(), ..refusal },
            _ => refusal,
        })
    };
    let twelve_for_fifth: fn(&Bent, &[u8], usize) -> _ = |c, bytes, start| {
        format::number(c, bytes, start).map_err(|refusal| match bytes.last() {
            Some(&last) if last >= MORE && start + NUMBER_BYTES == bytes.len() => {
                Refusal { number: ENDS_EARLY, ..refusal }
            }
            _ => refusal,
        })
    };
    let mut readers = vec![
        wrong("13 at the bad byte", |c| c.number = at_bad_byte),
        wrong("a longer form taken", |c| c.number = long_form_taken),
        wrong("12 where the bytes end", |c| c.number = twelve_at_end),
        wrong("12 for a fifth byte above 0F that ends the bytes", |c| c.number = twelve_for_fifth),
        wrong("a fifth byte up to 1F taken", |c| c.limits.last_byte = 0x1F),
        wrong("a fifth byte of 0F refused", |c| c.limits.last_byte = 0x0E),
        wrong("12 and 13 before 2", |c| {
            c.read_plan = |c, bytes| read_on(c, bytes, Layout::Second, &[ENDS_EARLY, BAD_FORM])
        }),
        wrong("14 before 2", |c| c.read_plan = |c, bytes| read_on(c, bytes, Layout::Second, &[LEFT_OVER])),
        wrong("bytes left over after a plan taken", |c| c.plan_ends = |_, _, _| Ok(())),
        wrong("legs without their period words read", |c| c.read_plan = format::read_first),
        wrong("a plan in either layout taken", |c| c.read_plan = |c, bytes| in_either(c, bytes, Layout::Second)),
        wrong("the period word read before the offset", |c| {
            c.read_plan = |c, bytes| with_legs(format::read_plan(c, bytes), |_, leg| exchanged(leg))
        }),
    ];
    readers.extend(moved_limits(&[
        ("the most links", |limits| &mut limits.links, EACH_WAY),
        ("the most streams", |limits| &mut limits.streams, EACH_WAY),
        ("the most legs", |limits| &mut limits.legs, EACH_WAY),
        ("the greatest precision", |limits| &mut limits.precision, EACH_WAY),
    ]));
    readers
}

// ---- Judges of the shape

/// The right judge, but that one of its refusals gives way to another one.
fn instead(plan: &Plan, number: u32, other: impl Fn(usize) -> Outcome<()>) -> Outcome<()> {
    match Plain.judge(plan) {
        Err(refusal) if refusal.number == number => other(refusal.at).and(Err(refusal)),
        right => right,
    }
}

fn refused_at(number: u32, at: Option<usize>) -> Outcome<()> {
    at.map_or(Ok(()), |at| refused(number, at))
}

fn ends(link: &Link) -> (u32, u32) {
    (link.from, link.to)
}

/// Refusal 5 for links that are alike in something else than both nodes in order.
fn twin_by<K: PartialEq>(links: &[Link], key: impl Fn(&Link) -> K) -> Outcome<()> {
    let has_twin = |at: &usize| links[..*at].iter().any(|earlier| key(earlier) == key(&links[*at]));
    refused_at(LINK_TWICE, (0..links.len()).find(has_twin))
}

/// The right judge of streams, but that refusal 6 stands elsewhere where the counts do not add up to the legs.
fn sum_at(c: &Bent, plan: &Plan, elsewhere: usize) -> Outcome<()> {
    let last = plan.streams.len();
    shape::streams(c, plan)
        .map_err(|refusal| Refusal { at: if refusal.at == last { elsewhere } else { refusal.at }, ..refusal })
}

fn first_legs_mended(plan: &Plan) -> Plan {
    let (mut mended, mut first_leg) = (plan.clone(), 0u32);
    for stream in &mut mended.streams {
        stream.first_leg = first_leg;
        first_leg = first_leg.wrapping_add(stream.leg_count);
    }
    mended
}

/// Compares the sum of the counts with the legs after all streams, and never at a stream.
fn sum_alone(c: &Bent, plan: &Plan) -> Outcome<()> {
    let mended = first_legs_mended(plan).streams;
    let is_wrong = |at: &usize| !c.stream_in_range(&plan.streams[*at]) || plan.streams[*at] != mended[*at];
    refused_at(STREAM_WRONG, (0..plan.streams.len()).find(is_wrong))?;
    sum_first(plan)
}

fn sum_first(plan: &Plan) -> Outcome<()> {
    let sum: u64 = plan.streams.iter().map(|stream| u64::from(stream.leg_count)).sum();
    refused_at(STREAM_WRONG, (sum != plan.legs.len() as u64).then_some(plan.streams.len()))
}

/// The longest deadline that the period of a stream allows, where a word holds it.
fn longest_deadline(stream: &Stream) -> u64 {
    u64::from(LIMITS.deadline_periods) * u64::from(stream.period)
}

/// The first leg of the stream of this leg, where the leg's fault is one of its route.
fn route_fault(plan: &Plan, at: usize) -> Option<usize> {
    let leg = &plan.legs[at];
    let holder = |stream: &Stream| (stream.first_leg..stream.first_leg + stream.leg_count).contains(&(at as u32));
    let number = plan.streams.iter().position(holder)?;
    Plain.leg_in_range(plan, leg, number as u32).then_some(plan.streams[number].first_leg as usize)
}

/// Refusal 7, but that a fault of a route stands elsewhere, which is told from the leg and the first one of its route.
fn route_at(plan: &Plan, elsewhere: fn(usize, usize) -> usize) -> Outcome<()> {
    Plain.legs(plan).map_err(|refusal| {
        let first = route_fault(plan, refusal.at);
        Refusal { at: first.map_or(refusal.at, |first| elsewhere(refusal.at, first)), ..refusal }
    })
}

fn ranges_of_legs_first(plan: &Plan) -> Outcome<()> {
    for (number, stream) in plan.streams.iter().enumerate() {
        for at in stream.first_leg..stream.first_leg + stream.leg_count {
            if !Plain.leg_in_range(plan, &plan.legs[at as usize], number as u32) {
                return refused(LEG_WRONG, at as usize);
            }
        }
    }
    Plain.legs(plan)
}

/// The lowest leg that lies too many periods late.
fn lowest_too_late(plan: &Plan) -> Option<usize> {
    plan.legs.iter().position(|leg| leg.periods > LIMITS.periods)
}

/// The plan with the period words of all legs, or of those that are named by the leg and its number, set to 0.
fn in_time(plan: &Plan, named: impl Fn(&Leg, usize) -> bool) -> Plan {
    let set = |(at, leg): (usize, &Leg)| Leg { periods: if named(leg, at) { 0 } else { leg.periods }, ..*leg };
    Plan { legs: plan.legs.iter().enumerate().map(set).collect(), ..plan.clone() }
}

/// Whether a leg is the first of a stream.
fn is_first(plan: &Plan, at: usize) -> bool {
    plan.streams.iter().any(|stream| stream.first_leg as usize == at)
}

/// A judge with another rule for the end of a link, whose start is right.
fn leads_on(met: &[u32], link: &Link, passed: &[&[u32]]) -> bool {
    met.last() == Some(&link.from) && !passed.iter().any(|nodes| nodes.contains(&link.to))
}

fn last_two(met: &[u32]) -> &[u32] {
    &met[met.len() - 2..]
}

fn of_links() -> Vec<Wrong> {
    let highest_link =
        |_: &Bent, links: &[Link]| refused_at(LINK_RANGE, links.iter().rposition(|link| !Plain.link_in_range(link)));
    let to_itself = |_: &Bent, link: &Link| {
        Plain.link_in_range(&Link { to: if link.to == link.from { link.from ^ 1 } else { link.to }, ..*link })
    };
    let any_rate = |_: &Bent, link: &Link| {
        let is_between = (LIMITS.rates[0]..=LIMITS.rates[LIMITS.rates.len() - 1]).contains(&link.ns_per_octet);
        Plain.link_in_range(&Link { ns_per_octet: if is_between { LIMITS.rates[0] } else { 0 }, ..*link })
    };
    let at_earlier = |_: &Bent, links: &[Link]| {
        Plain.links_differ(links).map_err(|refusal| {
            let same = |link: &Link| ends(link) == ends(&links[refusal.at]);
            Refusal { at: links.iter().position(same).unwrap_or(0), ..refusal }
        })
    };
    let twin_of_lowest = |_: &Bent, links: &[Link]| {
        let twin =
            |at: usize| links.iter().skip(at + 1).position(|link| ends(link) == ends(&links[at])).map(|on| at + 1 + on);
        refused_at(LINK_TWICE, (0..links.len()).find_map(twin))
    };
    let highest_twin = |_: &Bent, links: &[Link]| {
        let has_twin = |at: &usize| links[..*at].iter().any(|earlier| ends(earlier) == ends(&links[*at]));
        refused_at(LINK_TWICE, (0..links.len()).rev().find(has_twin))
    };
    let neighbours = |_: &Bent, links: &[Link]| {
        refused_at(LINK_TWICE, (1..links.len()).find(|&at| ends(&links[at]) == ends(&links[at - 1])))
    };
    let mut of_links = vec![
        wrong("4 at the highest link", |c| c.links_in_range = highest_link),
        wrong("a link from a node to itself taken", |c| c.link_in_range = to_itself),
        wrong("any rate between the least and the greatest taken", |c| c.link_in_range = any_rate),
        wrong("5 before 4", |c| c.judge = |_, plan| instead(plan, LINK_RANGE, |_| Plain.links_differ(&plan.links))),
        wrong("5 at the earlier link", |c| c.links_differ = at_earlier),
        wrong("5 at the twin of the lowest link", |c| c.links_differ = twin_of_lowest),
        wrong("5 at the highest link", |c| c.links_differ = highest_twin),
        wrong("5 left out", |c| c.links_differ = |_, _| Ok(())),
        wrong("5 between neighbours alone", |c| c.links_differ = neighbours),
        wrong("5 for the same link the other way", |c| {
            c.links_differ = |_, links| twin_by(links, |link| (link.from.min(link.to), link.from.max(link.to)))
        }),
        wrong("5 by the node a link is from", |c| c.links_differ = |_, links| twin_by(links, |link| link.from)),
        wrong("5 by the node a link leads to", |c| c.links_differ = |_, links| twin_by(links, |link| link.to)),
        wrong("5 by the sum of the nodes", |c| c.links_differ = |_, links| twin_by(links, |link| link.from + link.to)),
        wrong("5 by the low bytes of the nodes", |c| {
            c.links_differ = |_, links| twin_by(links, |link| (link.from as u8, link.to as u8))
        }),
        wrong("5 for links alike in all words", |c| c.links_differ = |_, links| twin_by(links, |link| *link)),
    ];
    for (at, &rate) in LIMITS.rates.iter().enumerate() {
        let others = || LIMITS.rates.iter().enumerate().filter(move |(other, _)| *other != at).map(|(_, &rate)| rate);
        let names = ["refused", "and one ns less taken", "and one ns more taken"];
        for (name, own) in names.iter().zip([vec![], vec![rate - 1, rate], vec![rate, rate + 1]]) {
            let rates: &[u32] = others().chain(own).collect::<Vec<_>>().leak();
            of_links.push(wrong(&format!("{} ns per octet {}", rate, name), |c| c.limits.rates = rates));
        }
    }
    of_links.extend(moved_limits(&[
        ("the highest node", |limits| &mut limits.node, EACH_WAY),
        ("the longest propagation", |limits| &mut limits.propagation, EACH_WAY),
    ]));
    of_links
}

fn of_streams() -> Vec<Wrong> {
    let ranges_first = |c: &Bent, plan: &Plan| {
        let out_of_range = plan.streams.iter().position(|stream| !c.stream_in_range(stream));
        shape::streams(c, plan).map_err(|refusal| Refusal { at: out_of_range.unwrap_or(refusal.at), ..refusal })
    };
    let deadline_after = |c: &Bent, stream: &Stream| {
        shape::stream_in_range(c, &Stream { deadline: stream.deadline.min(stream.period), ..*stream })
    };
    let one_ns_after = |c: &Bent, stream: &Stream| {
        let (deadline, longest) = (u64::from(stream.deadline), longest_deadline(stream));
        let nearest = if deadline == longest + 1 { stream.deadline - 1 } else { stream.deadline };
        shape::stream_in_range(c, &Stream { deadline: nearest, ..*stream })
    };
    let longest_refused = |c: &Bent, stream: &Stream| {
        u64::from(stream.deadline) != longest_deadline(stream) && shape::stream_in_range(c, stream)
    };
    let within_the_period =
        |c: &Bent, stream: &Stream| stream.deadline <= stream.period && shape::stream_in_range(c, stream);
    let longest_in_32_bits = |c: &Bent, stream: &Stream| {
        u64::from(stream.deadline) <= in_32_bits(longest_deadline(stream)) && shape::stream_in_range(c, stream)
    };
    let longest_in_a_word = |c: &Bent, stream: &Stream| {
        longest_deadline(stream) <= u64::from(u32::MAX) && shape::stream_in_range(c, stream)
    };
    let by_the_latest_leg = |c: &Bent, plan: &Plan| {
        shape::streams(c, plan)?;
        let is_longer = |stream: &Stream| {
            let legs = &plan.legs[stream.first_leg as usize..][..stream.leg_count as usize];
            let latest = legs.iter().map(|leg| leg.periods).max().unwrap_or(0);
            u64::from(stream.deadline) > (u64::from(latest) + 1) * u64::from(stream.period)
        };
        refused_at(STREAM_WRONG, plan.streams.iter().position(is_longer))
    };
    let legs_unused = |c: &Bent, plan: &Plan| match shape::streams(c, plan) {
        Err(refusal) if refusal.at == plan.streams.len() => Ok(()),
        right => right,
    };
    let link_missing = |_: &Bent, plan: &Plan| {
        let missing = plan.legs.iter().position(|leg| leg.link as usize >= plan.links.len());
        instead(plan, STREAM_WRONG, |_| refused_at(LEG_WRONG, missing))
    };
    let seven_before_sum = |_: &Bent, plan: &Plan| {
        instead(plan, STREAM_WRONG, |at| if at == plan.streams.len() { Plain.legs(plan) } else { Ok(()) })
    };
    let mut of_streams = vec![
        wrong("6 before 4", |c| c.judge = |_, plan| instead(plan, LINK_RANGE, |_| Plain.streams(plan))),
        wrong("6 before 5", |c| c.judge = |_, plan| instead(plan, LINK_TWICE, |_| Plain.streams(plan))),
        wrong("7 before 6", |c| c.judge = link_missing),
        wrong("7 before counts below G", |c| c.judge = seven_before_sum),
        wrong("6 for all ranges before the first legs", |c| c.streams = ranges_first),
        wrong("any first leg taken", |c| c.streams = |c, plan| shape::streams(c, &first_legs_mended(plan))),
        wrong("a deadline of any length taken", |c| c.stream_in_range = deadline_after),
        wrong("a deadline one ns after 8 periods taken", |c| c.stream_in_range = one_ns_after),
        wrong("a deadline of 8 periods refused", |c| c.stream_in_range = longest_refused),
        wrong("a deadline after the period refused", |c| c.stream_in_range = within_the_period),
        wrong("8 periods counted in 32 bits", |c| c.stream_in_range = longest_in_32_bits),
        wrong("a period of which a word does not hold 8 refused", |c| c.stream_in_range = longest_in_a_word),
        wrong("a deadline after the period of the latest leg refused", |c| c.streams = by_the_latest_leg),
        wrong("counts below G taken", |c| c.streams = legs_unused),
        wrong("counts below G at 0", |c| c.streams = |c, plan| sum_at(c, plan, 0)),
        wrong("counts below G at the last stream", |c| {
            c.streams = |c, plan| sum_at(c, plan, plan.streams.len().saturating_sub(1))
        }),
        wrong("counts above G at S", |c| c.streams = sum_alone),
        wrong("counts against G before the streams", |c| {
            c.judge = |_, plan| instead(plan, STREAM_WRONG, |_| sum_first(plan))
        }),
    ];
    of_streams.extend(moved_limits(&[
        // A period of 0 has no right deadline, so that its own limit may stand lower.
        ("the least period", |limits| &mut limits.period.0, [false, true]),
        ("the longest period", |limits| &mut limits.period.1, EACH_WAY),
        ("the least deadline", |limits| &mut limits.deadline_least, EACH_WAY),
        ("the periods of the longest deadline", |limits| &mut limits.deadline_periods, EACH_WAY),
        ("the fewest octets", |limits| &mut limits.octets.0, EACH_WAY),
        ("the most octets", |limits| &mut limits.octets.1, EACH_WAY),
        ("the fewest legs of a stream", |limits| &mut limits.route.0, EACH_WAY),
        ("the most legs of a stream", |limits| &mut limits.route.1, EACH_WAY),
    ]));
    of_streams
}

/// Judges that are wrong in the period words of legs.
fn of_period_words() -> Vec<Wrong> {
    let before_the_rest =
        |_: &Bent, plan: &Plan| refused_at(LEG_WRONG, lowest_too_late(plan)).and_then(|_| Plain.legs(plan));
    let after_the_rest = |_: &Bent, plan: &Plan| {
        Plain.legs(&in_time(plan, |_, _| true))?;
        refused_at(LEG_WRONG, lowest_too_late(plan))
    };
    let of_the_stream = |_: &Bent, plan: &Plan| match lowest_too_late(plan) {
        Some(at) if Plain.judge(plan) == refused(LEG_WRONG, at) => refused(STREAM_WRONG, plan.legs[at].stream as usize),
        _ => Plain.judge(plan),
    };
    let never_back = |_: &Bent, plan: &Plan| {
        Plain.legs(plan)?;
        let is_back = |at: &usize| !is_first(plan, *at) && plan.legs[*at].periods < plan.legs[at - 1].periods;
        refused_at(LEG_WRONG, (1..plan.legs.len()).find(is_back))
    };
    let first_in_time = |_: &Bent, plan: &Plan| {
        Plain.legs(plan)?;
        refused_at(LEG_WRONG, (0..plan.legs.len()).find(|&at| is_first(plan, at) && plan.legs[at].periods > 0))
    };
    let mut of_period_words = vec![
        wrong("a period word of 8 taken in a plan", |c| {
            c.legs = |_, plan| Plain.legs(&in_time(plan, |leg, _| leg.periods == LIMITS.periods + 1))
        }),
        wrong("a period word of any size taken", |c| c.legs = |_, plan| Plain.legs(&in_time(plan, |_, _| true))),
        wrong("the period words of first legs not judged", |c| {
            c.legs = |_, plan| Plain.legs(&in_time(plan, |_, at| is_first(plan, at)))
        }),
        wrong("the period words of first legs alone judged", |c| {
            c.legs = |_, plan| Plain.legs(&in_time(plan, |_, at| !is_first(plan, at)))
        }),
        wrong("period words judged by their low byte", |c| {
            c.legs = |_, plan| Plain.legs(&in_time(plan, |leg, _| leg.periods & 0xFF <= LIMITS.periods))
        }),
        wrong("a period word of a first leg refused", |c| c.legs = first_in_time),
        wrong("a period word below that of the leg before refused", |c| c.legs = never_back),
        wrong("7 for a period word before all else of legs", |c| c.legs = before_the_rest),
        wrong("7 for a period word after all else of legs", |c| c.legs = after_the_rest),
        wrong("6 for a period word", |c| c.judge = of_the_stream),
    ];
    of_period_words.extend(moved_limits(&[("the highest period word", |limits| &mut limits.periods, EACH_WAY)]));
    of_period_words
}

fn of_legs() -> Vec<Wrong> {
    let any_stream = |c: &Bent, plan: &Plan, leg: &Leg, stream: u32| {
        let own = if (leg.stream as usize) < plan.streams.len() { stream } else { u32::MAX };
        shape::leg_in_range(c, plan, &Leg { stream: own, ..*leg }, stream)
    };
    vec![
        wrong("7 for a route at the earlier leg", |c| c.legs = |_, plan| route_at(plan, |at, _| at - 1)),
        wrong("7 for a route at its first leg", |c| c.legs = |_, plan| route_at(plan, |_, first| first)),
        wrong("7 for all legs by themselves before the routes", |c| c.legs = |_, plan| ranges_of_legs_first(plan)),
        wrong("a leg that names any stream taken", |c| c.leg_in_range = any_stream),
        wrong("a leg with any word for its stream taken", |c| {
            c.leg_in_range = |c, plan, leg, stream| shape::leg_in_range(c, plan, &Leg { stream, ..*leg }, stream)
        }),
        wrong("a route back to its first node taken", |c| c.goes_on = |_, met, link| leads_on(met, link, &[&met[1..]])),
        wrong("a route back to a node in its middle taken", |c| {
            c.goes_on = |_, met, link| leads_on(met, link, &[&met[..1], last_two(met)])
        }),
        wrong("a route straight back taken", |c| {
            c.goes_on = |_, met, link| leads_on(met, link, &[&met[..met.len() - 2]])
        }),
        wrong("any route but straight back taken", |c| {
            c.goes_on = |_, met, link| leads_on(met, link, &[last_two(met)])
        }),
        wrong("a route that does not go on taken", |c| c.goes_on = |_, met, link| !met.contains(&link.to)),
        wrong("a route that goes on from any of its nodes taken", |c| {
            c.goes_on = |_, met, link| met.contains(&link.from) && !met.contains(&link.to)
        }),
    ]
}

pub fn judges() -> Vec<Wrong> {
    of_links().into_iter().chain(of_streams()).chain(of_legs()).chain(of_period_words()).collect()
}

// ---- Checkers of the rules

fn in_32_bits(sum: u64) -> u64 {
    u64::from(sum as u32)
}

/// Of all violated places names the least by a key of leg and place, where a slice looks at the whole plan.
fn named<K: Ord>(plan: &Plan, from: Cursor, budget: u32, key: impl Fn(u32, u32) -> K) -> Sliced {
    let right = Plain.slice(plan, from, budget);
    let legs = plan.legs.len() as u32;
    if right.result < VIOLATED || from != begin(plan) || u64::from(budget) < Plain.places(u64::from(legs)) {
        return right;
    }
    let places = (0..legs).flat_map(|leg| (0..places_of(leg)).map(move |place| (leg, place)));
    let violated = places.filter(|&(leg, place)| !Plain.holds(plan, leg as usize, place));
    let (leg, place) = violated.min_by_key(|&(leg, place)| key(leg, place)).expect("a place is violated");
    let cursor = Cursor { leg, place, ..from };
    Sliced { result: RULES[rule_at(place).0].result, cursor, steps: places_before(cursor) as u32 + 1 }
}

/// Other times on the wire. A frame holds its link as long as one with the octets of the gap besides is on the wire.
fn timed(c: &mut Bent, time: fn(&Bent, u32, u32) -> u64) {
    c.wire_time = time;
    c.hold_time = |c, octets, rate| c.wire_time(octets + GAP, rate);
}

/// The sum of octets and others, by ns per octet.
fn octets_sent(octets: u32, others: u32, ns_per_octet: u32) -> u64 {
    u64::from(octets + others) * u64::from(ns_per_octet)
}

fn hop(leg: &Sent, previous: Sent, precision: u64) -> bool {
    Plain.hop_holds(leg, &previous, precision)
}

fn due(last: Sent, first: &Sent, precision: u64) -> bool {
    Plain.deadline_holds(&last, first, precision)
}

/// How many whole periods a leg lies late.
fn periods_late(leg: &Sent) -> u64 {
    (leg.start - leg.offset) / u64::from(leg.period)
}

/// A leg that lies in the first period, and one that starts with the period that it lies in.
fn in_first_period(leg: &Sent) -> Sent {
    Sent { start: leg.offset, ..*leg }
}

fn at_its_period(leg: &Sent) -> Sent {
    Sent { start: leg.start - leg.offset, ..*leg }
}

/// A leg that holds its link for its time on the wire alone.
fn without_gap(leg: &Sent) -> Sent {
    Sent { hold: leg.wire, ..*leg }
}

/// The right rule at a place, but for those of one rule.
fn but_for(rule: usize, plan: &Plan, leg: usize, place: u32, other: impl Fn(usize) -> bool) -> bool {
    match rule_at(place) {
        (at, with) if at == rule => other(with),
        _ => Plain.holds(plan, leg, place),
    }
}

/// The overlap of two legs whose links are alike in something.
fn overlap_by<K: PartialEq>(plan: &Plan, leg: usize, place: u32, key: impl Fn(&Link) -> K) -> bool {
    let link = |leg: usize| key(&plan.links[plan.legs[leg].link as usize]);
    but_for(OVERLAP, plan, leg, place, |other| {
        link(leg) != link(other) || Plain.apart(&sent(&Plain, plan, leg), &sent(&Plain, plan, other))
    })
}

fn of_the_order() -> Vec<Wrong> {
    let fixed_place = |_: &Bent, _: &Plan, from: Cursor, _: u32| Sliced {
        result: RULES[OVERLAP].result,
        cursor: Cursor { leg: 2, place: OVERLAPS, ..from },
        steps: 1,
    };
    vec![
        wrong("accepted always", |c| c.holds = |_, _, _, _| true),
        wrong("one fixed place", |c| c.slice = fixed_place),
        wrong("the last violated place", |c| {
            c.slice = |_, plan, from, budget| named(plan, from, budget, |leg, place| (!leg, !place))
        }),
        wrong("the overlaps of a leg before its window", |c| {
            c.slice = |_, plan, from, budget| named(plan, from, budget, |leg, place| (leg, place < OVERLAPS, place))
        }),
        wrong("all of one rule before the next", |c| {
            c.slice = |_, plan, from, budget| named(plan, from, budget, |leg, place| (rule_at(place).0, leg, place))
        }),
        wrong("the overlap with the highest leg first", |c| {
            c.slice = |_, plan, from, budget| named(plan, from, budget, |leg, place| (leg, rule_at(place).0, !place))
        }),
        wrong("a place too many for each leg", |c| {
            c.places = |_, legs| legs * (legs + 1) / 2 + u64::from(OVERLAPS) * legs
        }),
        wrong("window and hop exchanged in name", |c| c.rules.swap(WINDOW, HOP)),
        wrong("hop and deadline exchanged in name", |c| c.rules.swap(HOP, DEADLINE)),
    ]
}

fn of_times() -> Vec<Wrong> {
    vec![
        wrong("no preamble", |c| timed(c, |_, octets, rate| octets_sent(octets, 0, rate))),
        wrong("a preamble of 20 octets", |c| timed(c, |_, octets, rate| octets_sent(octets, 20, rate))),
        wrong("a preamble in ns", |c| timed(c, |_, octets, rate| octets_sent(octets, 0, rate) + u64::from(PREAMBLE))),
        wrong("the least ns per octet on each link", |c| {
            timed(c, |_, octets, _| octets_sent(octets, PREAMBLE, LIMITS.rates[0]))
        }),
        wrong("no gap", |c| c.hold_time = rules::wire_time),
        wrong("a gap on the wire", |c| c.wire_time = rules::hold_time),
        wrong("a gap in ns", |c| c.hold_time = |_, octets, rate| Plain.wire_time(octets, rate) + u64::from(GAP)),
        // At the greatest rate 96 bit times are 96 ns.
        wrong("a gap of 96 ns on each link", |c| c.hold_time = |_, octets, rate| Plain.wire_time(octets, rate) + 96),
        wrong("a gap of 96 octets", |c| c.hold_time = |_, octets, rate| octets_sent(octets, PREAMBLE + 96, rate)),
        wrong("window without the gap", |c| c.window_holds = |_, leg| leg.offset + leg.wire <= u64::from(leg.period)),
        wrong("window without the hold time", |c| c.window_holds = |_, leg| leg.offset <= u64::from(leg.period)),
        wrong("window without its last ns", |c| {
            c.window_holds = |_, leg| leg.offset + leg.hold < u64::from(leg.period)
        }),
        wrong("window of offsets modulo the period", |c| {
            c.window_holds = |_, leg| leg.offset % u64::from(leg.period) + leg.hold <= u64::from(leg.period)
        }),
        wrong("window with a sum in 32 bits", |c| {
            c.window_holds = |_, leg| in_32_bits(leg.offset + leg.hold) <= u64::from(leg.period)
        }),
        wrong("window with the period word", |c| {
            c.window_holds = |_, leg| leg.start + leg.hold <= u64::from(leg.period)
        }),
        wrong("window with the period word in ns", |c| {
            c.window_holds = |_, leg| leg.offset + periods_late(leg) + leg.hold <= u64::from(leg.period)
        }),
        wrong("window up to the end of the period that a leg lies in", |c| {
            c.window_holds = |_, leg| leg.offset + leg.hold <= (periods_late(leg) + 1) * u64::from(leg.period)
        }),
    ]
}

fn stream_of(plan: &Plan, leg: usize) -> &Stream {
    &plan.streams[plan.legs[leg].stream as usize]
}

/// When a leg starts, with another word for the periods that it lies late, or another period.
fn started(plan: &Plan, leg: usize, periods: u32, period: u32) -> u64 {
    u64::from(plan.legs[leg].offset) + u64::from(periods) * u64::from(period)
}

fn of_starts() -> Vec<Wrong> {
    vec![
        wrong("a start with its sum in 32 bits", |c| c.start = |c, plan, leg| in_32_bits(rules::start(c, plan, leg))),
        wrong("a start with its product in 32 bits", |c| {
            c.start = |_, plan, leg| {
                let late = u64::from(plan.legs[leg].periods) * u64::from(stream_of(plan, leg).period);
                u64::from(plan.legs[leg].offset) + in_32_bits(late)
            }
        }),
        wrong("a start without its period word", |c| c.start = |_, plan, leg| started(plan, leg, 0, 0)),
        wrong("a start without the period word of a first leg", |c| {
            c.start = |c, plan, leg| {
                if is_first(plan, leg) {
                    started(plan, leg, 0, 0)
                } else {
                    rules::start(c, plan, leg)
                }
            }
        }),
        wrong("a start with the period word in ns", |c| {
            c.start = |_, plan, leg| started(plan, leg, plan.legs[leg].periods, 1)
        }),
        wrong("a start with the period word of the leg before", |c| {
            c.start =
                |_, plan, leg| started(plan, leg, plan.legs[leg.saturating_sub(1)].periods, stream_of(plan, leg).period)
        }),
        wrong("a start by the period of the leg before", |c| {
            c.start =
                |_, plan, leg| started(plan, leg, plan.legs[leg].periods, stream_of(plan, leg.saturating_sub(1)).period)
        }),
        wrong("a start by the period of the leg after", |c| {
            c.start = |_, plan, leg| {
                let after = (leg + 1).min(plan.legs.len() - 1);
                started(plan, leg, plan.legs[leg].periods, stream_of(plan, after).period)
            }
        }),
        wrong("a start by the period of the first stream", |c| {
            c.start = |_, plan, leg| started(plan, leg, plan.legs[leg].periods, plan.streams[0].period)
        }),
        wrong("a start by the deadline in place of the period", |c| {
            c.start = |_, plan, leg| started(plan, leg, plan.legs[leg].periods, stream_of(plan, leg).deadline)
        }),
        wrong("a start at most one period late", |c| {
            c.start = |_, plan, leg| started(plan, leg, plan.legs[leg].periods.min(1), stream_of(plan, leg).period)
        }),
    ]
}

fn of_hops() -> Vec<Wrong> {
    let on_each = |_: &Bent, plan: &Plan, leg: usize, place: u32| {
        but_for(HOP, plan, leg, place, |_| {
            leg == 0 || hop(&sent(&Plain, plan, leg), sent(&Plain, plan, leg - 1), u64::from(plan.precision))
        })
    };
    vec![
        wrong("hop without the precision", |c| c.hop_holds = |_, leg, previous, _| hop(leg, *previous, 0)),
        wrong("hop without the wire time", |c| {
            c.hop_holds = |_, leg, previous, precision| hop(leg, Sent { wire: 0, ..*previous }, precision)
        }),
        wrong("hop with the gap", |c| {
            c.hop_holds = |_, leg, previous, precision| hop(leg, Sent { wire: previous.hold, ..*previous }, precision)
        }),
        wrong("hop without the propagation", |c| {
            c.hop_holds = |_, leg, previous, precision| hop(leg, Sent { propagation: 0, ..*previous }, precision)
        }),
        wrong("hop with the wire time of the later leg", |c| {
            c.hop_holds = |_, leg, previous, precision| hop(leg, Sent { wire: leg.wire, ..*previous }, precision)
        }),
        wrong("hop with the propagation of the later leg", |c| {
            c.hop_holds =
                |_, leg, previous, precision| hop(leg, Sent { propagation: leg.propagation, ..*previous }, precision)
        }),
        wrong("hop one ns too late", |c| {
            c.hop_holds = |_, leg, previous, precision| hop(leg, *previous, precision + 1)
        }),
        wrong("hop one ns too early", |c| {
            c.hop_holds =
                |_, leg, previous, precision| hop(&Sent { start: leg.start + 1, ..*leg }, *previous, precision)
        }),
        wrong("hop on the first legs of later streams", |c| c.holds = on_each),
        wrong("hop with a sum in 32 bits", |c| {
            c.hop_holds = |_, leg, previous, precision| leg.start >= in_32_bits(arrival(previous, precision))
        }),
        wrong("hop without the period words", |c| {
            c.hop_holds = |_, leg, previous, precision| hop(&in_first_period(leg), in_first_period(previous), precision)
        }),
        wrong("hop without the period word of the later leg", |c| {
            c.hop_holds = |_, leg, previous, precision| hop(&in_first_period(leg), *previous, precision)
        }),
        wrong("hop without the period word of the earlier leg", |c| {
            c.hop_holds = |_, leg, previous, precision| hop(leg, in_first_period(previous), precision)
        }),
        wrong("hop held wherever the later leg lies more periods late", |c| {
            c.hop_holds = |_, leg, previous, precision| {
                periods_late(leg) > periods_late(previous) || hop(leg, *previous, precision)
            }
        }),
    ]
}

fn of_deadlines() -> Vec<Wrong> {
    let on_each = |_: &Bent, plan: &Plan, leg: usize, place: u32| {
        let first = plan.streams[plan.legs[leg].stream as usize].first_leg as usize;
        but_for(DEADLINE, plan, leg, place, |_| {
            due(sent(&Plain, plan, leg), &sent(&Plain, plan, first), u64::from(plan.precision))
        })
    };
    vec![
        wrong("deadline on every leg", |c| c.holds = on_each),
        wrong("deadline without the wire time", |c| {
            c.deadline_holds = |_, last, first, precision| due(Sent { wire: 0, ..*last }, first, precision)
        }),
        wrong("deadline with the gap", |c| {
            c.deadline_holds = |_, last, first, precision| due(Sent { wire: last.hold, ..*last }, first, precision)
        }),
        wrong("deadline without the propagation", |c| {
            c.deadline_holds = |_, last, first, precision| due(Sent { propagation: 0, ..*last }, first, precision)
        }),
        wrong("deadline without the precision", |c| c.deadline_holds = |_, last, first, _| due(*last, first, 0)),
        wrong("deadline from 0 on", |c| {
            c.deadline_holds = |_, last, first, precision| due(*last, &Sent { start: 0, ..*first }, precision)
        }),
        wrong("deadline one ns too early", |c| {
            c.deadline_holds = |_, last, first, precision| due(*last, first, precision + 1)
        }),
        wrong("deadline one ns too late", |c| {
            c.deadline_holds =
                |_, last, first, precision| due(Sent { deadline: last.deadline + 1, ..*last }, first, precision)
        }),
        wrong("deadline at the end of the period", |c| {
            c.deadline_holds =
                |_, last, first, precision| due(Sent { deadline: u64::from(last.period), ..*last }, first, precision)
        }),
        wrong("deadline with sums in 32 bits", |c| {
            c.deadline_holds = |_, last, first, precision| {
                in_32_bits(arrival(last, precision)) <= in_32_bits(last.deadline + first.start)
            }
        }),
        wrong("deadline without the period words", |c| {
            c.deadline_holds =
                |_, last, first, precision| due(in_first_period(last), &in_first_period(first), precision)
        }),
        wrong("deadline without the period word of the first leg", |c| {
            c.deadline_holds = |_, last, first, precision| due(*last, &in_first_period(first), precision)
        }),
        wrong("deadline without the period word of the last leg", |c| {
            c.deadline_holds = |_, last, first, precision| due(in_first_period(last), first, precision)
        }),
        wrong("deadline from the period of the first leg on", |c| {
            c.deadline_holds = |_, last, first, precision| due(*last, &at_its_period(first), precision)
        }),
        wrong("deadline of one period at the most", |c| {
            c.deadline_holds = |_, last, first, precision| {
                due(Sent { deadline: last.deadline.min(u64::from(last.period)), ..*last }, first, precision)
            }
        }),
    ]
}

/// The overlap of two legs by what is taken for the divisor of their periods. In one of 0 no two slots fit.
fn apart_by(divisor: u32, a: &Sent, b: &Sent) -> bool {
    divisor > 0 && Plain.apart(&Sent { period: divisor, ..*a }, &Sent { period: divisor, ..*b })
}

/// A divisor of both numbers, but not the greatest where that is even.
fn lesser_divisor(a: u32, b: u32) -> u32 {
    let g = divisor(a, b);
    if g % 2 == 0 {
        g / 2
    } else {
        g
    }
}

/// Euclid, with the last division but one taken for the last.
fn one_step_short(mut a: u32, mut b: u32) -> u32 {
    while b != 0 && a % b != 0 {
        (a, b) = (b, a % b);
    }
    a
}

/// The overlap by the divisor of the periods of the leg and of the leg before the other one on the link.
fn by_the_pair_before(plan: &Plan, leg: usize, place: u32) -> bool {
    let frame = |leg: usize| sent(&Plain, plan, leg);
    let link = |leg: usize| plan.legs[leg].link;
    but_for(OVERLAP, plan, leg, place, |other| {
        let before = (0..other).rev().find(|&before| link(before) == link(other)).unwrap_or(other);
        link(leg) != link(other)
            || apart_by(divisor(frame(leg).period, frame(before).period), &frame(leg), &frame(other))
    })
}

/// The overlap of two legs by another offset for each.
fn apart_at(a: &Sent, b: &Sent, offset: impl Fn(&Sent) -> u64) -> bool {
    Plain.apart(&Sent { offset: offset(a), ..*a }, &Sent { offset: offset(b), ..*b })
}

/// The overlap of repeats from the start of each leg on, up to the first common multiple of the periods. That is right but
/// where a leg lies late. Where there are too many repeats the right answer is given.
fn apart_in_one_cycle(a: &Sent, b: &Sent) -> bool {
    let (a_period, b_period) = (u64::from(a.period), u64::from(b.period));
    let cycle = a_period / u64::from(divisor(a.period, b.period)) * b_period;
    if cycle / a_period + cycle / b_period > 3_000 {
        return Plain.apart(a, b);
    }
    let (mut a_start, mut b_start) = (a.start, b.start);
    while a_start < cycle && b_start < cycle {
        if a_start + a.hold <= b_start {
            a_start += a_period;
        } else if b_start + b.hold <= a_start {
            b_start += b_period;
        } else {
            return false;
        }
    }
    true
}

/// Of legs that lie late. A whole number of periods of its own, or of the other leg, changes nothing of whether a leg meets
/// the other, so that some wrong readings cannot be told from the right one, and are none.
fn of_late_overlaps() -> Vec<Wrong> {
    let by_the_leg_before = |_: &Bent, plan: &Plan, leg: usize, place: u32| {
        let frame = |leg: usize| {
            let sent = sent(&Plain, plan, leg);
            let period = u64::from(stream_of(plan, leg.saturating_sub(1)).period);
            Sent { offset: sent.offset + periods_late(&sent) * period, ..sent }
        };
        but_for(OVERLAP, plan, leg, place, |other| {
            plan.legs[leg].link != plan.legs[other].link || Plain.apart(&frame(leg), &frame(other))
        })
    };
    vec![
        wrong("overlap with the period words in ns", |c| {
            c.apart = |_, a, b| apart_at(a, b, |leg| leg.offset + periods_late(leg))
        }),
        wrong("overlap of legs that lie as late as each other", |c| {
            c.apart = |_, a, b| periods_late(a) != periods_late(b) || Plain.apart(a, b)
        }),
        wrong("overlap by starts in 32 bits", |c| c.apart = |_, a, b| apart_at(a, b, |leg| in_32_bits(leg.start))),
        wrong("overlap of the starts alone", |c| {
            c.apart = |_, a, b| a.start + a.hold <= b.start || b.start + b.hold <= a.start
        }),
        wrong("overlap from the starts on in one cycle", |c| c.apart = |_, a, b| apart_in_one_cycle(a, b)),
        wrong("overlap by starts with the period of the leg before", |c| c.holds = by_the_leg_before),
    ]
}

fn of_overlaps() -> Vec<Wrong> {
    let absolute = |_: &Bent, a: &Sent, b: &Sent| {
        let difference = a.offset.max(b.offset) - a.offset.min(b.offset);
        Plain.apart(&Sent { offset: 0, ..*a }, &Sent { offset: difference, ..*b })
    };
    let difference_in_32_bits = |_: &Bent, a: &Sent, b: &Sent| {
        let difference = (b.offset as u32).wrapping_sub(a.offset as u32);
        Plain.apart(&Sent { offset: 0, ..*a }, &Sent { offset: u64::from(difference), ..*b })
    };
    let lesser_period = |_: &Bent, a: &Sent, b: &Sent| {
        let period = a.period.min(b.period);
        Plain.apart(&Sent { period, ..*a }, &Sent { period, ..*b })
    };
    let difference_negative = |_: &Bent, a: &Sent, b: &Sent| {
        let g = u64::from(divisor(a.period, b.period));
        let (a_at, b_at) = (a.offset % g, b.offset % g);
        b_at >= a_at + a.hold && g + a_at >= b_at + b.hold
    };
    let not_before = |_: &Bent, plan: &Plan, leg: usize, place: u32| {
        but_for(OVERLAP, plan, leg, place, |other| other + 1 == leg || Plain.holds(plan, leg, place))
    };
    let half_of_each = |_: &Bent, a: &Sent, b: &Sent| {
        let half = |leg: &Sent| Sent { hold: (leg.wire + leg.hold) / 2, ..*leg };
        Plain.apart(&half(a), &half(b))
    };
    let lower_offset = |_: &Bent, a: &Sent, b: &Sent| {
        if a.offset < b.offset {
            Plain.apart(a, &without_gap(b))
        } else {
            Plain.apart(&without_gap(a), b)
        }
    };
    let holds_exchanged =
        |_: &Bent, a: &Sent, b: &Sent| Plain.apart(&Sent { hold: b.hold, ..*a }, &Sent { hold: a.hold, ..*b });
    vec![
        wrong("overlap with the hold times exchanged", |c| c.apart = holds_exchanged),
        wrong("overlap without the gap", |c| c.apart = |_, a, b| Plain.apart(&without_gap(a), &without_gap(b))),
        wrong("overlap without the gap of the later leg", |c| c.apart = |_, a, b| Plain.apart(&without_gap(a), b)),
        wrong("overlap without the gap of the earlier leg", |c| c.apart = |_, a, b| Plain.apart(a, &without_gap(b))),
        wrong("overlap with half the gap of each leg", |c| c.apart = half_of_each),
        wrong("overlap with the gap of the leg of the lower offset alone", |c| c.apart = lower_offset),
        wrong("overlap with an absolute difference", |c| c.apart = absolute),
        wrong("overlap with a difference in 32 bits", |c| c.apart = difference_in_32_bits),
        wrong("overlap in the first periods only", |c| {
            c.apart = |_, a, b| a.offset + a.hold <= b.offset || b.offset + b.hold <= a.offset
        }),
        wrong("overlap of equal periods only", |c| c.apart = |_, a, b| a.period != b.period || Plain.apart(a, b)),
        wrong("overlap with one ns too much of the later leg", |c| {
            c.apart = |_, a, b| Plain.apart(&Sent { hold: a.hold + 1, ..*a }, b)
        }),
        wrong("overlap with one ns too much of the earlier leg", |c| {
            c.apart = |_, a, b| Plain.apart(a, &Sent { hold: b.hold + 1, ..*b })
        }),
        wrong("overlap with one ns too little of the later leg", |c| {
            c.apart = |_, a, b| Plain.apart(&Sent { hold: a.hold - 1, ..*a }, b)
        }),
        wrong("overlap with one ns too little of the earlier leg", |c| {
            c.apart = |_, a, b| Plain.apart(a, &Sent { hold: b.hold - 1, ..*b })
        }),
        wrong("overlap by the lesser period", |c| c.apart = lesser_period),
        wrong("overlap by the period of the later leg", |c| {
            c.apart = |_, a, b| Plain.apart(a, &Sent { period: a.period, ..*b })
        }),
        wrong("overlap with a difference that is not brought into 0 to g - 1", |c| c.apart = difference_negative),
        wrong("overlap by a divisor that is not the greatest", |c| {
            c.apart = |_, a, b| apart_by(lesser_divisor(a.period, b.period), a, b)
        }),
        wrong("overlap by a divisor of 0 for equal periods", |c| {
            c.apart = |_, a, b| apart_by(if a.period == b.period { 0 } else { divisor(a.period, b.period) }, a, b)
        }),
        wrong("overlap by a divisor one step short", |c| {
            c.apart = |_, a, b| apart_by(one_step_short(a.period, b.period), a, b)
        }),
        wrong("overlap by the divisor of the pair before", |c| {
            c.holds = |_, plan, leg, place| by_the_pair_before(plan, leg, place)
        }),
        wrong("overlap with legs of other links", |c| {
            c.holds = |_, plan, leg, place| overlap_by(plan, leg, place, |_| 0)
        }),
        wrong("overlap with legs the other way", |c| {
            c.holds = |_, plan, leg, place| {
                overlap_by(plan, leg, place, |link| (link.from.min(link.to), link.from.max(link.to)))
            }
        }),
        wrong("overlap with leg 0 never looked at", |c| {
            c.holds = |_, plan, leg, place| place == OVERLAPS || Plain.holds(plan, leg, place)
        }),
        wrong("overlap with the leg before never looked at", |c| c.holds = not_before),
    ]
}

pub fn checkers() -> Vec<Wrong> {
    let of_rules = [of_times(), of_starts(), of_hops(), of_deadlines(), of_overlaps(), of_late_overlaps()];
    of_the_order().into_iter().chain(of_rules.into_iter().flatten()).collect()
}

// ---- What the calls alone can tell: cursors, budgets, moves, conversions and lent memory

fn of_slices() -> Vec<Wrong> {
    let paused_at_the_end = |c: &Bent, plan: &Plan, from: Cursor, budget: u32| {
        let right = check::slice(c, plan, from, budget);
        let used_up = right.result == NOTHING_VIOLATED && right.steps == budget;
        Sliced { result: if used_up { PAUSED } else { right.result }, ..right }
    };
    let steps_one_less = |c: &Bent, plan: &Plan, from: Cursor, budget: u32| {
        let right = check::slice(c, plan, from, budget);
        Sliced { steps: right.steps - u32::from(right.result >= VIOLATED), ..right }
    };
    let after_the_violated = |c: &Bent, plan: &Plan, from: Cursor, budget: u32| {
        let right = check::slice(c, plan, from, budget);
        Sliced { cursor: if right.result >= VIOLATED { next(right.cursor) } else { right.cursor }, ..right }
    };
    let last_place_unseen = |c: &Bent, plan: &Plan, from: Cursor, budget: u32| {
        let right = check::slice(c, plan, from, budget);
        let after = next(right.cursor);
        let is_last = right.result >= VIOLATED && after.leg as usize == plan.legs.len();
        if is_last {
            Sliced { result: NOTHING_VIOLATED, cursor: after, ..right }
        } else {
            right
        }
    };
    let nine_before_eight = |c: &Bent, plan: &Plan, cursor: Cursor| {
        check::fits(c, plan, Cursor { revision: plan.revision, ..cursor })?;
        check::fits(c, plan, cursor)
    };
    let end_refused = |c: &Bent, plan: &Plan, cursor: Cursor| {
        check::fits(c, plan, cursor)?;
        if cursor.leg as usize == plan.legs.len() {
            refused(NO_PLACE, 0)
        } else {
            Ok(())
        }
    };
    let place_with_itself = |c: &Bent, plan: &Plan, cursor: Cursor| {
        let itself = (cursor.leg as usize) < plan.legs.len() && cursor.place == places_of(cursor.leg);
        check::fits(c, plan, Cursor { place: cursor.place - u32::from(itself), ..cursor })
    };
    vec![
        wrong("paused at the end when the budget is just used up", |c| c.slice = paused_at_the_end),
        wrong("steps one less at a violated place", |c| c.slice = steps_one_less),
        wrong("the cursor after the violated place", |c| c.slice = after_the_violated),
        wrong("a budget of 0 looks at one place", |c| {
            c.slice = |c, plan, from, budget| check::slice(c, plan, from, budget.max(1))
        }),
        wrong("a budget from 2,147,483,648 on taken for none", |c| {
            c.slice = |c, plan, from, budget| check::slice(c, plan, from, (budget as i32).max(0) as u32)
        }),
        wrong("the last place never looked at", |c| c.slice = last_place_unseen),
        wrong("a stale cursor taken", |c| {
            c.fits = |c, plan, cursor| check::fits(c, plan, Cursor { revision: plan.revision, ..cursor })
        }),
        wrong("9 before 8", |c| c.fits = nine_before_eight),
        wrong("the end refused as a cursor", |c| c.fits = end_refused),
        wrong("a place of a leg with itself taken", |c| {
            c.fits = place_with_itself;
            c.slice = |c, plan, from, budget| {
                check::slice(c, plan, Cursor { place: from.place.min(places_of(from.leg) - 1), ..from }, budget)
            };
        }),
    ]
}

/// A move that changes nothing where the leg is already as it says.
fn no_move_where(
    c: &Bent,
    plan: &mut Plan,
    cursor: Cursor,
    wanted: Move,
    is_so: impl Fn(&Leg) -> bool,
) -> Outcome<Cursor> {
    let before = plan.clone();
    let after = check::moved(c, plan, cursor, wanted)?;
    if !is_so(&before.legs[wanted.leg as usize]) {
        return Ok(after);
    }
    *plan = before;
    Ok(Cursor { revision: plan.revision, ..after })
}

/// A move that is right but for the period word that it sets, which is told from the leg's own and the wanted one.
fn moved_by(c: &Bent, plan: &mut Plan, cursor: Cursor, wanted: Move, word: fn(u32, u32) -> u32) -> Outcome<Cursor> {
    let own = plan.legs.get(wanted.leg as usize).map_or(0, |leg| leg.periods);
    let after = check::moved(c, plan, cursor, wanted)?;
    plan.legs[wanted.leg as usize].periods = word(own, wanted.periods);
    Ok(after)
}

/// The right move with another highest period word.
fn moved_below(c: &Bent, plan: &mut Plan, cursor: Cursor, wanted: Move, highest: u32) -> Outcome<Cursor> {
    let limits = Limits { periods: highest, ..c.limits };
    check::moved(&Bent { limits, ..*c }, plan, cursor, wanted)
}

/// Refusal 17 alone.
fn too_late(wanted: Move) -> Outcome<()> {
    refused_at(TOO_LATE, (wanted.periods > LIMITS.periods).then_some(0))
}

/// A move whose refusal 17 is another one.
fn moved_or(c: &Bent, plan: &mut Plan, cursor: Cursor, wanted: Move, instead: fn(Move) -> Refusal) -> Outcome<Cursor> {
    check::moved(c, plan, cursor, wanted)
        .map_err(|refusal| if refusal.number == TOO_LATE { instead(wanted) } else { refusal })
}

/// Moves that are wrong in the period word.
fn of_late_moves() -> Vec<Wrong> {
    let before_ten = |c: &Bent, plan: &mut Plan, cursor: Cursor, wanted: Move| {
        too_late(wanted)?;
        check::moved(c, plan, cursor, wanted)
    };
    let before_eleven = |c: &Bent, plan: &mut Plan, cursor: Cursor, wanted: Move| {
        if (wanted.leg as usize) < plan.legs.len() {
            too_late(wanted)?;
        }
        check::moved(c, plan, cursor, wanted)
    };
    let before_all = |c: &Bent, plan: &[u8], cursor: &[u8], wanted: Move, lent: Lent| {
        too_late(wanted)?;
        check::granted(c, plan, cursor, wanted, lent)
    };
    let before_room = |c: &Bent, plan: &[u8], cursor: &[u8], wanted: Move, lent: Lent| {
        c.read_plan(plan)?;
        c.read_cursor(cursor)?;
        too_late(wanted)?;
        check::granted(c, plan, cursor, wanted, lent)
    };
    let before_shape = |c: &Bent, plan: &[u8], cursor: &[u8], wanted: Move, lent: Lent| {
        c.read_plan(plan)?;
        c.read_cursor(cursor)?;
        c.room(CURSOR_BYTES, lent.out)?;
        too_late(wanted)?;
        check::granted(c, plan, cursor, wanted, lent)
    };
    let before_eight = |c: &Bent, plan: &[u8], cursor: &[u8], wanted: Move, lent: Lent| {
        let gives_way = |refusal: &Refusal| [STALE, NO_PLACE].contains(&refusal.number);
        let given = check::granted(c, plan, cursor, wanted, lent);
        if given.as_ref().err().map_or(false, gives_way) {
            too_late(wanted)?;
        }
        given
    };
    let after_room = |c: &Bent, plan: &[u8], cursor: &[u8], wanted: Move, lent: Lent| {
        let in_time = Move { periods: wanted.periods.min(LIMITS.periods), ..wanted };
        let given = check::granted(c, plan, cursor, in_time, lent)?;
        too_late(wanted)?;
        Ok(given)
    };
    let carried_over = |c: &Bent, plan: &mut Plan, cursor: Cursor, wanted: Move| {
        let after = check::moved(c, plan, cursor, wanted)?;
        plan.legs[wanted.leg as usize] = carried(plan, &plan.legs[wanted.leg as usize]);
        Ok(after)
    };
    let next_leg = |c: &Bent, plan: &mut Plan, cursor: Cursor, wanted: Move| {
        let (at, own) = (wanted.leg as usize, plan.legs.get(wanted.leg as usize).map_or(0, |leg| leg.periods));
        let after = check::moved(c, plan, cursor, wanted)?;
        plan.legs[at].periods = own;
        let last = plan.legs.len() - 1;
        plan.legs[(at + 1).min(last)].periods = wanted.periods;
        Ok(after)
    };
    let exchanged_numbers = |c: &Bent, plan: &mut Plan, cursor: Cursor, wanted: Move| {
        let after = check::moved(c, plan, cursor, wanted)?;
        plan.legs[wanted.leg as usize] = exchanged(&plan.legs[wanted.leg as usize]);
        Ok(after)
    };
    vec![
        wrong("17 before 10", |c| c.moved = before_ten),
        wrong("17 before 11", |c| c.moved = before_eleven),
        wrong("17 before all else of a move", |c| c.granted = before_all),
        wrong("17 before 15 for the cursor", |c| c.granted = before_room),
        wrong("17 before 4 to 7", |c| c.granted = before_shape),
        wrong("17 before 8 and 9", |c| c.granted = before_eight),
        wrong("17 after 15 for the new plan", |c| c.granted = after_room),
        wrong("17 at the leg", |c| {
            c.moved = |c, plan, cursor, wanted| {
                moved_or(c, plan, cursor, wanted, |wanted| Refusal { number: TOO_LATE, at: wanted.leg as usize })
            }
        }),
        wrong("7 for 17", |c| {
            c.moved = |c, plan, cursor, wanted| {
                moved_or(c, plan, cursor, wanted, |wanted| Refusal { number: LEG_WRONG, at: wanted.leg as usize })
            }
        }),
        wrong("10 for 17", |c| {
            c.moved = |c, plan, cursor, wanted| moved_or(c, plan, cursor, wanted, |_| Refusal { number: NO_LEG, at: 0 })
        }),
        wrong("17 left out", |c| c.moved = |c, plan, cursor, wanted| moved_below(c, plan, cursor, wanted, u32::MAX)),
        wrong("a move by 8 periods taken", |c| {
            c.moved = |c, plan, cursor, wanted| moved_below(c, plan, cursor, wanted, LIMITS.periods + 1)
        }),
        wrong("a move by 7 periods refused", |c| {
            c.moved = |c, plan, cursor, wanted| moved_below(c, plan, cursor, wanted, LIMITS.periods - 1)
        }),
        wrong("a move by its period word modulo 8", |c| {
            c.moved = |c, plan, cursor, wanted| {
                check::moved(c, plan, cursor, Move { periods: wanted.periods % (LIMITS.periods + 1), ..wanted })
            }
        }),
        wrong("a move that leaves the period word", |c| {
            c.moved = |c, plan, cursor, wanted| moved_by(c, plan, cursor, wanted, |own, _| own)
        }),
        wrong("a move that sets the period word to 0", |c| {
            c.moved = |c, plan, cursor, wanted| moved_by(c, plan, cursor, wanted, |_, _| 0)
        }),
        wrong("a move that adds to the period word", |c| {
            c.moved = |c, plan, cursor, wanted| moved_by(c, plan, cursor, wanted, u32::wrapping_add)
        }),
        wrong("a move that leaves the period word where 0 is given", |c| {
            c.moved = |c, plan, cursor, wanted| {
                moved_by(c, plan, cursor, wanted, |own, wanted| if wanted == 0 { own } else { wanted })
            }
        }),
        wrong("a move that leaves the offset", |c| {
            c.moved = |c, plan, cursor, wanted| {
                let own = plan.legs.get(wanted.leg as usize).map_or(0, |leg| leg.offset);
                check::moved(c, plan, cursor, Move { offset: own, ..wanted })
            }
        }),
        wrong("a move that sets the period word of the next leg", |c| c.moved = next_leg),
        wrong("a move with its two numbers exchanged", |c| c.moved = exchanged_numbers),
        wrong("a move that carries its offset into the period word", |c| c.moved = carried_over),
    ]
}

// ---- Conversions

/// The right conversion, but that the plan which was read is changed.
fn converted_to(old: &[u8], lent: usize, other: fn(Plan) -> Outcome<Plan>) -> Outcome<Vec<u8>> {
    let bytes = plan_bytes(&other(Plain.read_first(old)?)?);
    Plain.room(bytes.len(), lent)?;
    Ok(bytes)
}

fn of_conversions() -> Vec<Wrong> {
    let by_the_new_length = |c: &Bent, bytes: &[u8]| match format::read_first(c, bytes) {
        Err(Refusal { number: LEFT_OVER, at }) => {
            let plan = format::read_first(c, &bytes[..at])?;
            refused_at(LEFT_OVER, (bytes.len() > at + plan.legs.len()).then_some(at)).map(|_| plan)
        }
        right => right,
    };
    let by_the_old_length = |c: &Bent, old: &[u8], lent: usize| {
        let mut bytes = plan_bytes(&c.read_first(old)?);
        c.room(old.len(), lent)?;
        bytes.truncate(lent);
        Ok(bytes)
    };
    let by_the_most = |c: &Bent, old: &[u8], lent: usize| {
        let plan = c.read_first(old)?;
        c.room(old.len() + NUMBER_BYTES * plan.legs.len(), lent)?;
        Ok(plan_bytes(&plan))
    };
    let room_first = |c: &Bent, old: &[u8], lent: usize| {
        c.room(old.len(), lent)?;
        check::converted(c, old, lent)
    };
    let room_before_rest = |c: &Bent, old: &[u8], lent: usize| match check::converted(c, old, lent) {
        Err(refusal) if refusal.number == LEFT_OVER => check::converted(c, &old[..refusal.at], lent).and(Err(refusal)),
        right => right,
    };
    vec![
        wrong("a conversion that puts 1", |c| {
            c.read_first = |c, bytes| with_legs(format::read_first(c, bytes), |_, leg| Leg { periods: 1, ..*leg })
        }),
        wrong("a conversion that puts 0 before the offset", |c| {
            c.read_first = |c, bytes| with_legs(format::read_first(c, bytes), |_, leg| exchanged(leg))
        }),
        wrong("a conversion that carries offsets into the period words", |c| {
            c.read_first = |c, bytes| with_legs(format::read_first(c, bytes), carried)
        }),
        wrong("a conversion that raises the revision", |c| {
            c.converted = |_, old, lent| {
                converted_to(old, lent, |plan| Ok(Plan { revision: plan.revision.wrapping_add(1), ..plan }))
            }
        }),
        wrong("a conversion that begins anew with revision 0", |c| {
            c.converted = |_, old, lent| converted_to(old, lent, |plan| Ok(Plan { revision: 0, ..plan }))
        }),
        wrong("a conversion that judges the shape", |c| {
            c.converted = |_, old, lent| converted_to(old, lent, |plan| Plain.judge(&plan).map(|_| plan))
        }),
        wrong("a conversion of files of today", |c| c.read_first = format::read_plan),
        wrong("a conversion of files in either layout", |c| {
            c.read_first = |c, bytes| in_either(c, bytes, Layout::First)
        }),
        wrong("a conversion that takes bytes left over", |c| c.first_ends = |_, _, _| Ok(())),
        wrong("a conversion that takes as many bytes left over as there are legs", |c| {
            c.read_first = by_the_new_length
        }),
        wrong("a conversion with 12 and 13 before 2", |c| {
            c.read_first = |c, bytes| read_on(c, bytes, Layout::First, &[ENDS_EARLY, BAD_FORM])
        }),
        wrong("a conversion with 14 before 2", |c| {
            c.read_first = |c, bytes| read_on(c, bytes, Layout::First, &[LEFT_OVER])
        }),
        wrong("a conversion with 15 before 14", |c| c.converted = room_before_rest),
        wrong("a conversion with 15 before the bytes are read", |c| c.converted = room_first),
        wrong("a conversion with 15 by the old length", |c| c.converted = by_the_old_length),
        wrong("a conversion with 15 by the most that a new file may have", |c| c.converted = by_the_most),
    ]
}

fn of_moves() -> Vec<Wrong> {
    let revision_kept = |c: &Bent, plan: &mut Plan, cursor: Cursor, wanted: Move| {
        let revision = plan.revision;
        let after = check::moved(c, plan, cursor, wanted)?;
        plan.revision = revision;
        Ok(Cursor { revision, ..after })
    };
    let same_offset_no_move = |c: &Bent, plan: &mut Plan, cursor: Cursor, wanted: Move| {
        no_move_where(c, plan, cursor, wanted, |leg| leg.offset == wanted.offset)
    };
    let same_values_no_move = |c: &Bent, plan: &mut Plan, cursor: Cursor, wanted: Move| {
        no_move_where(c, plan, cursor, wanted, |leg| (leg.offset, leg.periods) == (wanted.offset, wanted.periods))
    };
    let revision_wraps = |c: &Bent, plan: &mut Plan, cursor: Cursor, wanted: Move| {
        let last = plan.revision == u32::MAX;
        plan.revision -= u32::from(last);
        let after = check::moved(c, plan, cursor, wanted)?;
        plan.revision = if last { 0 } else { plan.revision };
        Ok(Cursor { revision: plan.revision, ..after })
    };
    vec![
        wrong("the cursor kept after a move", |c| {
            c.moved = |c, plan, cursor, wanted| {
                check::moved(c, plan, cursor, wanted).map(|after| Cursor { revision: after.revision, ..cursor })
            }
        }),
        wrong("the cursor always at the moved leg", |c| {
            c.moved = |c, plan, cursor, wanted| {
                check::moved(c, plan, cursor, wanted).map(|after| Cursor { leg: wanted.leg, place: 0, ..after })
            }
        }),
        wrong("the revision not raised", |c| c.moved = revision_kept),
        wrong("the revision not raised where the offset stays", |c| c.moved = same_offset_no_move),
        wrong("the revision not raised where both numbers stay", |c| c.moved = same_values_no_move),
        wrong("11 before 10", |c| {
            c.moved = |c, plan, cursor, wanted| {
                if plan.revision == u32::MAX {
                    return refused(LAST_REVISION, 0);
                }
                check::moved(c, plan, cursor, wanted)
            }
        }),
        wrong("the last revision followed by 0", |c| c.moved = revision_wraps),
    ]
}

fn of_lent_memory() -> Vec<Wrong> {
    let cursor_first = |c: &Bent, plan: &[u8], cursor: &[u8], lent: usize| {
        c.read_cursor(cursor)?;
        check::opened(c, plan, cursor, lent)
    };
    let room_last = |c: &Bent, plan: &[u8], cursor: &[u8], lent: usize| {
        let (plan, cursor) = (c.read_plan(plan)?, c.read_cursor(cursor)?);
        c.judge(&plan)?;
        c.room(CURSOR_BYTES, lent)?;
        c.fits(&plan, cursor)?;
        Ok((plan, cursor))
    };
    let room_of_the_old_plan = |c: &Bent, plan: &mut Plan, cursor: Cursor, wanted: Move| {
        let old = plan_bytes(plan).len();
        let after = check::moved(c, plan, cursor, wanted)?;
        if plan_bytes(plan).len() > old {
            refused(NO_ROOM, 0)
        } else {
            Ok(after)
        }
    };
    let written_on_refusal = |c: &Bent, refusal: Refusal, lent: &mut [u8]| {
        lent.iter_mut().take(1).for_each(|byte| *byte = 0);
        check::refuse(c, refusal, lent)
    };
    let rest_cleared = |c: &Bent, lent: &mut [u8], bytes: &[u8]| {
        lent.fill(0);
        check::give(c, lent, bytes);
    };
    vec![
        wrong("bytes left over after a cursor taken", |c| c.cursor_ends = |_, _, _| Ok(())),
        wrong("the cursor read before the plan", |c| c.opened = cursor_first),
        wrong("15 one byte off", |c| c.room = |c, least, lent| format::room(c, least + 1, lent)),
        wrong("14 bytes taken as enough for a cursor", |c| {
            c.room =
                |c, least, lent| format::room(c, if least == CURSOR_BYTES { CURSOR_BYTES - 1 } else { least }, lent)
        }),
        wrong("15 after 1 to 7", |c| c.opened = room_last),
        wrong("the room of a new plan judged by the old one", |c| c.moved = room_of_the_old_plan),
        wrong("a byte written on a refusal", |c| c.refuse = written_on_refusal),
        wrong("the bytes after what is written set to 0", |c| c.give = rest_cleared),
        wrong("every refusal at 0", |c| c.refuse = |_, refusal, _| packed(REFUSED + refusal.number, 0)),
    ]
}

pub fn callers() -> Vec<Wrong> {
    let groups = [of_slices(), of_moves(), of_late_moves(), of_conversions(), of_lent_memory()];
    groups.into_iter().flatten().collect()
}

// ---- What is said of a refusal

/// The first cause of a refusal, but that a later one is told in the place of an earlier one where both are there.
fn told_before<const REFUSAL: u32, const EARLIER: usize, const LATER: usize>(
    _: &Bent,
    refusal: u32,
    causes: &[Option<String>],
) -> Option<String> {
    let gives_way = refusal == REFUSAL && causes.iter().position(Option::is_some) == Some(EARLIER);
    let later = causes.get(LATER).cloned().flatten().filter(|_| gives_way);
    later.or_else(|| Plain.cause_told(refusal, causes))
}

/// One for each two causes of a refusal that follow each other: whatever order is wrong is wrong for two of these. Some that
/// follow each other are never there at once, or only with one before them; then the causes next to them are taken.
macro_rules! told_before {
    ($refusal:ident: $($earlier:literal $later:literal),*) => {
        [$(wrong(&format!("of refusal {} cause {} told before cause {}", $refusal, $later, $earlier), |c| {
            c.cause_told = told_before::<$refusal, $earlier, $later>
        })),*]
    };
}

/// What is said of a file that cannot be read, with another byte where it meets the refusal of this number.
fn unread_at(c: &Bent, bytes: &[u8], layout: Layout, refusal: Refusal, number: u32, at: usize) -> String {
    let at = if refusal.number == number { at } else { refusal.at };
    reasons::unread(c, bytes, layout, Refusal { at, ..refusal })
}

pub fn tellers_of_files() -> Vec<Wrong> {
    let at_bad_byte: fn(&Bent, &[u8], Layout, Refusal) -> _ = |c, bytes, layout, refusal| {
        let bad_byte = refusal.at + groups_before_last(bytes, refusal.at).min(NUMBER_BYTES - 1);
        unread_at(c, bytes, layout, refusal, BAD_FORM, bad_byte)
    };
    let counts_exchanged: fn(&Bent, Layout, &[u32; HEADER_WORDS], usize) -> _ = |c, layout, header, before| {
        let [revision, links, streams, legs, precision] = *header;
        reasons::name(c, layout, &[revision, links, legs, streams, precision], before)
    };
    let by_the_first_layout: fn(&Bent, Layout, &[u32; HEADER_WORDS], usize) -> _ = |c, _, header, before| {
        let numbers = Layout::First.table_words(header) as usize;
        reasons::name(c, Layout::First, header, before.min(numbers - 1))
    };
    let more_is_needless: fn(&Bent, &[u8], usize) -> _ =
        |c, bytes, at| reasons::is_too_long(c, bytes, at) || bytes.get(at + NUMBER_BYTES - 1) == Some(&MORE);
    let zero_is_high: fn(&Bent, &[u8], usize) -> _ =
        |c, bytes, at| reasons::is_too_long(c, bytes, at) && groups_before_last(bytes, at) + 1 < NUMBER_BYTES;
    let mut tellers = vec![
        wrong("the name of the number before told", |c| {
            c.name = |c, layout, header, before| reasons::name(c, layout, header, before.saturating_sub(1))
        }),
        wrong("the name of the next number told", |c| {
            c.name = |c, layout, header, before| reasons::name(c, layout, header, before + 1)
        }),
        wrong("names told with the numbers of streams and legs exchanged", |c| c.name = counts_exchanged),
        wrong("names told by the first layout", |c| c.name = by_the_first_layout),
        wrong("the first layout never named for a file that ends too early", |c| c.ends_in_first = |_, _| false),
        wrong("the first layout named for each file that ends too early", |c| c.ends_in_first = |_, _| true),
        wrong("a file that ends inside a number told to end before it", |c| {
            c.unread = |c, bytes, layout, refusal| unread_at(c, bytes, layout, refusal, ENDS_EARLY, bytes.len())
        }),
        wrong("a number that is cut told to begin one byte later", |c| {
            c.unread = |c, bytes, layout, refusal| unread_at(c, bytes, layout, refusal, ENDS_EARLY, refusal.at + 1)
        }),
        wrong("a number of a bad form told to begin one byte later", |c| {
            c.unread = |c, bytes, layout, refusal| unread_at(c, bytes, layout, refusal, BAD_FORM, refusal.at + 1)
        }),
        wrong("a number of a bad form told at its bad byte", |c| c.unread = at_bad_byte),
        wrong("a plan told to end where the file does", |c| {
            c.unread = |c, bytes, layout, refusal| unread_at(c, bytes, layout, refusal, LEFT_OVER, bytes.len())
        }),
        wrong("a fifth byte of 80 told to be needless", |c| c.is_too_long = more_is_needless),
        wrong("a fifth byte of 0 told to be too high", |c| c.is_too_long = zero_is_high),
        wrong("a number of six bytes told to be above the largest", |c| {
            c.unread = |c, bytes, layout, refusal| {
                reasons::unread(c, bytes, layout, refusal).replace("takes more than five bytes", "is above 4294967295")
            }
        }),
    ];
    tellers.extend(told_before!(ABOVE_LIMIT: 0 1, 1 2, 2 3));
    tellers
}

pub fn tellers_of_tables() -> Vec<Wrong> {
    let owner_before = |_: &Bent, plan: &Plan, leg: usize| {
        let own = Plain.owner(plan, leg);
        own.saturating_sub(usize::from(plan.streams[own].first_leg as usize == leg))
    };
    let at_first_node = |_: &Bent, plan: &Plan, first: usize, leg: usize| {
        let mut met = Plain.met(plan, first, leg);
        met.reverse();
        met
    };
    let mut tellers = vec![
        wrong("the twin of a link told to be the link before it", |c| c.twin = |_, _, at| at.checked_sub(1)),
        wrong("the legs of a stream told with those before it", |c| {
            c.legs_before = |c, plan, stream| reasons::legs_before(c, plan, stream + 1)
        }),
        wrong("the last leg of a stream told one too high", |c| {
            c.last_leg = |c, stream| reasons::last_leg(c, stream) + 1
        }),
        wrong("links and legs told to go up to their number", |c| {
            c.numbered = |c, records, count| reasons::numbered(c, records, count + 1)
        }),
        wrong("links and legs told to be 0 to 0 where there are none", |c| {
            c.numbered = |c, records, count| reasons::numbered(c, records, count.max(1))
        }),
        wrong("the first leg of a stream told to be of the stream before", |c| c.owner = owner_before),
        wrong("a route told to be at its first node", |c| c.met = at_first_node),
    ];
    tellers.extend(told_before!(LINK_RANGE: 0 1, 0 2, 1 3, 2 3, 3 4));
    tellers.extend(told_before!(STREAM_WRONG: 0 1, 1 2, 2 3, 3 4, 4 5));
    tellers.extend(told_before!(LEG_WRONG: 0 1, 1 2, 2 3, 3 4));
    tellers
}
