//! What calls for gate lists show: the kinds that a run has to meet.

use crate::admit::NOT_ACCEPTED;
use crate::check::{rule_at, whole, Checker, Plain};
use crate::format::{Numbers, Plan};
use crate::gates::{read, Asked, HELD, LONG_CYCLE, MANY_PAIRS, MOST_CYCLE, MOST_PAIRS, NO_LINK, PAIR_WORDS, RIGHT};
use crate::gates_cases::{Case, Facts};
use crate::gates_quick::{cycle, on_link};
use crate::paper::{
    ABOVE_LIMIT, BAD_FORM, ENDS_EARLY, GRANTED, LEFT_OVER, LEG_WRONG, LIMITS, LINK_RANGE, LINK_TWICE, NO_ROOM, OVERLAP,
    REFUSED, RULES, STREAM_WRONG,
};
use crate::rules::{divisor, Sent};

/// The refusals of a plan file and of its shape. From a file, 1 and 3 cannot come.
pub const OF_SHAPE: [u32; 8] =
    [ENDS_EARLY, BAD_FORM, ABOVE_LIMIT, LEFT_OVER, LINK_RANGE, LINK_TWICE, STREAM_WRONG, LEG_WRONG];
/// Those after the shape, in their order.
pub const AFTER_SHAPE: [u32; 5] = [NO_LINK, NOT_ACCEPTED, LONG_CYCLE, MANY_PAIRS, NO_ROOM];

const NO_LEGS: &str = "an empty list, where other links have legs";
const NONE_AT_ALL: &str = "an empty list of a table without legs";
const NO_BYTES: &str = "an empty list with no byte lent";
const ALWAYS_ONE: &str = "held all the time by one leg";
const ALWAYS_MORE: &str = "held all the time by several legs";
const TOUCHING: &str = "holds of two legs end to end";
const ROW: &str = "holds of three legs or more end to end";
const OVER_END: &str = "holds of two legs end to end where the period of the first ends";
const ONE_PERIOD: &str = "several legs of one period";
const TWO_PERIODS: &str = "two periods";
const THREE_PERIODS: &str = "three periods or more";
const NOT_PRODUCT: &str = "a cycle below the product of its periods";
const ABOVE_EACH: &str = "a cycle above each of its periods";
const LATE: &str = "a leg with a period word above 0";
const FRAMES: &str = "frames of several lengths";
const AT_LIMIT: &str = "a cycle of just the limit";
const BELOW_LIMIT: &str = "a cycle of one ns less than the limit";
const MOST: &str = "1,024 pairs";
const ONE_LESS: &str = "1,023 pairs";
const ENOUGH: &str = "a list with just enough bytes";
const ONE_NS: &str = "a duration of one ns";
const OTHER_CYCLE: &str = "a list where another link has another cycle";
const OTHER_LONG: &str = "a list where the cycle of another link passes the limit";
const OTHER_MANY: &str = "a list where another link needs too many pairs";
const MOST_LEGS: &str = "a list of a table with the most legs";
const LONG_BY_ONE: &str = "21 by one ns";
const LONG_32: &str = "21 of a cycle that passes 32 bits";
const LONG_64: &str = "21 of a cycle that passes 64 bits";
const MANY_BY_ONE: &str = "22 by one pair";
const ONE_BYTE: &str = "15 by one byte";
const NO_BYTE: &str = "15 with no byte lent";
const LINK_N: &str = "23 for the link after the last";
const FAR_LINK: &str = "23 for a link beyond that";
const NO_LINKS: &str = "23 of a table without links";
const ELSEWHERE: &str = "19 by other links alone";
const READ_NONE: &str = "an empty list file";
const READ_MOST: &str = "a list file of 1,024 pairs";
const READ_MORE: &str = "a list file of more pairs";
const READ_ENOUGH: &str = "a list file with just enough words";
const READ_ZERO: &str = "a list file with a duration of 0";
const READ_MASK: &str = "a list file with a mask above 255";
const READ_EQUAL: &str = "a list file with equal neighbours";
const READ_LARGEST: &str = "a list file with the largest number";
const HALF: &str = "12 for half a pair";
const IN_A_NUMBER: &str = "12 in a number";
const LAST_BYTE: &str = "13 for a last byte 0";
const FIFTH_BYTE: &str = "13 for a fifth byte";
const ONE_WORD: &str = "15 by one word";
const NO_WORD: &str = "15 with no word lent";
const FEW_WORDS: [&str; 2] = ["12 where there are too few words too", "13 where there are too few words too"];

fn sides(first: bool, last: bool) -> String {
    let word = |is_held| if is_held { "held" } else { "not held" };
    format!("begins {}, ends {}", word(first), word(last))
}

fn rate(ns_per_octet: u32) -> String {
    format!("a list at {} ns per octet", ns_per_octet)
}

fn duration_bytes(bytes: usize) -> String {
    format!("a duration of {} bytes", bytes)
}

fn violated(rule: usize) -> String {
    format!("19 by the rule {}", RULES[rule].name)
}

fn told_with((first, second): (u32, u32)) -> String {
    format!("{} told, {} due too", first, second)
}

/// Two refusals that can be due at once. Of a link that is not there, no list is too long.
pub fn together() -> Vec<(u32, u32)> {
    let shape = OF_SHAPE.into_iter().flat_map(|first| AFTER_SHAPE.map(|second| (first, second)));
    let after = [(NO_LINK, NOT_ACCEPTED), (NOT_ACCEPTED, LONG_CYCLE), (NOT_ACCEPTED, MANY_PAIRS)];
    let last = [(NOT_ACCEPTED, NO_ROOM), (LONG_CYCLE, MANY_PAIRS), (LONG_CYCLE, NO_ROOM), (MANY_PAIRS, NO_ROOM)];
    shape.chain(after).chain(last).collect()
}

/// All that a run has to meet.
pub fn edges() -> Vec<String> {
    let lists = [NO_LEGS, NONE_AT_ALL, NO_BYTES, ALWAYS_ONE, ALWAYS_MORE, TOUCHING, ROW, OVER_END];
    let cycles = [ONE_PERIOD, TWO_PERIODS, THREE_PERIODS, NOT_PRODUCT, ABOVE_EACH, AT_LIMIT, BELOW_LIMIT];
    let others = [LATE, FRAMES, MOST, ONE_LESS, ENOUGH, ONE_NS, OTHER_CYCLE, OTHER_LONG, OTHER_MANY, MOST_LEGS];
    let refused =
        [LONG_BY_ONE, LONG_32, LONG_64, MANY_BY_ONE, ONE_BYTE, NO_BYTE, LINK_N, FAR_LINK, NO_LINKS, ELSEWHERE];
    let reads = [READ_NONE, READ_MOST, READ_MORE, READ_ENOUGH, READ_ZERO, READ_MASK, READ_EQUAL, READ_LARGEST];
    let misread = [HALF, IN_A_NUMBER, LAST_BYTE, FIFTH_BYTE, ONE_WORD, NO_WORD];
    let groups = [&lists[..], &cycles, &others, &refused, &reads, &misread, &FEW_WORDS];
    let bools = [false, true];
    groups
        .concat()
        .iter()
        .map(|name| name.to_string())
        .chain(bools.into_iter().flat_map(|first| bools.map(|last| sides(first, last))))
        .chain(LIMITS.rates.iter().map(|&ns_per_octet| rate(ns_per_octet)))
        .chain((1..=5).map(duration_bytes))
        .chain((0..RULES.len()).map(violated))
        .chain(together().into_iter().map(told_with))
        .collect()
}

/// What a call meets, given its answer.
pub fn seen(case: &Case) -> Vec<String> {
    let result = case.expected.result;
    match (case.call.asked, result.checked_sub(REFUSED)) {
        (Asked::Gates(link), None) => seen_list(case, link),
        (Asked::Gates(link), Some(number)) => {
            let order: Vec<u32> = OF_SHAPE.into_iter().chain(AFTER_SHAPE).collect();
            let place = |number: u32| order.iter().position(|other| *other == number);
            let later = case.due.iter().filter(|other| place(**other) > place(number));
            let names = later.map(|&other| told_with((number, other)));
            names.chain(why_refused(case, link, number)).collect()
        }
        (Asked::Read, _) => seen_read(case).into_iter().map(str::to_string).collect(),
    }
}

/// Those that are seen.
fn met(all: &[(bool, &'static str)]) -> Vec<&'static str> {
    all.iter().filter(|(is_seen, _)| *is_seen).map(|(_, name)| *name).collect()
}

fn plan_of(case: &Case) -> Plan {
    Plain.read_plan(&case.call.file).expect("the plan was read")
}

// ---- Lists

/// The pairs that a call wrote: whether the link is held, and for how long.
fn pairs_of(case: &Case) -> Vec<(bool, u64)> {
    let words = read(&RIGHT, &case.expected.list[..case.expected.number as usize]).expect("a list can be read");
    words.chunks_exact(PAIR_WORDS).map(|pair| (pair[0] == HELD, pair[1].into())).collect()
}

fn seen_list(case: &Case, link: u32) -> Vec<String> {
    let (plan, pairs) = (plan_of(case), pairs_of(case));
    let legs = on_link(&plan, link);
    let room = case.call.list.len();
    let mut names = met(&[
        (legs.is_empty() && !plan.legs.is_empty(), NO_LEGS),
        (plan.legs.is_empty(), NONE_AT_ALL),
        (legs.is_empty() && room == 0, NO_BYTES),
        (plan.legs.len() == LIMITS.legs as usize, MOST_LEGS),
    ]);
    let mut told: Vec<String> = Vec::new();
    if let (Some(first), Some(last)) = (pairs.first(), pairs.last()) {
        let cycle = pairs.iter().map(|(_, duration)| duration).sum();
        names.extend(seen_holds(&plan, link, &legs, &pairs));
        names.extend(seen_cycle(&plan, link, &legs, cycle));
        names.extend(met(&[
            (pairs.len() == MOST_PAIRS, MOST),
            (pairs.len() == MOST_PAIRS - 1, ONE_LESS),
            (room == case.expected.number as usize, ENOUGH),
            (pairs.iter().any(|(_, duration)| *duration == 1), ONE_NS),
        ]));
        told.extend([sides(first.0, last.0), rate(plan.links[link as usize].ns_per_octet)]);
        let lengths: Vec<usize> = pairs.iter().map(|(_, duration)| bytes_of(*duration)).collect();
        told.extend((1..=5).filter(|bytes| lengths.contains(bytes)).map(duration_bytes));
    }
    names.into_iter().map(str::to_string).chain(told).collect()
}

/// How many groups of seven bits a number has.
fn bytes_of(number: u64) -> usize {
    (1..).find(|groups| number >> (7 * groups) == 0).expect("a number has an end")
}

fn seen_holds(plan: &Plan, link: u32, legs: &[Sent], pairs: &[(bool, u64)]) -> Vec<&'static str> {
    let is_always = pairs.len() == 1 && pairs[0].0;
    // Whether a hold of the other begins just where one of the first ends, in some repeat.
    let after = |one: &Sent, other: &Sent| {
        let from_end = other.offset as i64 - (one.offset + one.hold) as i64;
        from_end.rem_euclid(divisor(one.period, other.period).into()) == 0
    };
    let follows = |one: usize, other: usize| one != other && after(&legs[one], &legs[other]);
    let follower = |one: usize| (0..legs.len()).filter(move |&other| follows(one, other));
    let touching = (0..legs.len()).any(|one| follower(one).next().is_some());
    let row = (0..legs.len()).any(|one| follower(one).any(|two| follower(two).any(|three| three != one)));
    let at_end = |leg: &Sent| leg.offset + leg.hold == u64::from(leg.period);
    let over_end = (0..legs.len()).any(|one| at_end(&legs[one]) && follower(one).next().is_some());
    let is_late = plan.legs.iter().any(|leg| leg.link == link && leg.periods > 0);
    met(&[
        (is_always && legs.len() == 1, ALWAYS_ONE),
        (is_always && legs.len() > 1, ALWAYS_MORE),
        (touching, TOUCHING),
        (row, ROW),
        (over_end, OVER_END),
        (is_late, LATE),
        (legs.iter().any(|leg| leg.hold != legs[0].hold), FRAMES),
    ])
}

fn seen_cycle(plan: &Plan, link: u32, legs: &[Sent], mine: u64) -> Vec<&'static str> {
    let mut periods: Vec<u64> = legs.iter().map(|leg| leg.period.into()).collect();
    periods.sort_unstable();
    periods.dedup();
    let product = periods.iter().map(|&period| u128::from(period)).product::<u128>();
    let others: Vec<u32> = (0..plan.links.len() as u32).filter(|other| *other != link).take(8).collect();
    let facts: Vec<Facts> = others.iter().map(|&other| Facts::of(plan, other)).filter(|facts| facts.has_legs).collect();
    let is_long = |facts: &Facts| facts.cycle.map_or(true, |cycle| cycle > MOST_CYCLE);
    met(&[
        (periods.len() == 1 && legs.len() > 1, ONE_PERIOD),
        (periods.len() == 2, TWO_PERIODS),
        (periods.len() > 2, THREE_PERIODS),
        (u128::from(mine) < product, NOT_PRODUCT),
        (periods.iter().all(|period| mine > *period), ABOVE_EACH),
        (mine == MOST_CYCLE, AT_LIMIT),
        (mine == MOST_CYCLE - 1, BELOW_LIMIT),
        (facts.iter().any(|facts| facts.cycle != Some(mine)), OTHER_CYCLE),
        (facts.iter().any(is_long), OTHER_LONG),
        (facts.iter().any(|facts| !is_long(facts) && facts.pairs.map_or(true, |pairs| pairs > MOST_PAIRS)), OTHER_MANY),
    ])
}

fn why_refused(case: &Case, link: u32, number: u32) -> Vec<String> {
    let told = |names: Vec<&str>| names.into_iter().map(String::from).collect();
    match number {
        NO_LINK => {
            let links = plan_of(case).links.len() as u32;
            told(met(&[(link == links, LINK_N), (link > links, FAR_LINK), (links == 0, NO_LINKS)]))
        }
        NOT_ACCEPTED => {
            let plan = plan_of(case);
            let checked = whole(&Plain, &plan);
            let (rule, other) = rule_at(checked.cursor.place);
            let leg = checked.cursor.leg as usize;
            let concerned = plan.legs[leg].link == link || (rule == OVERLAP && plan.legs[other].link == link);
            let kept = on_link(&plan, link).iter().all(|leg| Plain.window_holds(leg));
            let elsewhere = Some(ELSEWHERE.to_string()).filter(|_| !concerned && kept);
            elsewhere.into_iter().chain([violated(rule)]).collect()
        }
        LONG_CYCLE => {
            let cycle = cycle(&on_link(&plan_of(case), link));
            let is_far = cycle.map_or(false, |cycle| cycle > u32::MAX.into());
            told(met(&[(cycle == Some(MOST_CYCLE + 1), LONG_BY_ONE), (is_far, LONG_32), (cycle.is_none(), LONG_64)]))
        }
        MANY_PAIRS => {
            let pairs = Facts::of(&plan_of(case), link).pairs;
            told(met(&[(pairs == Some(MOST_PAIRS + 1), MANY_BY_ONE)]))
        }
        NO_ROOM => {
            let (needed, room) = (Facts::of(&plan_of(case), link).bytes, case.call.list.len());
            told(met(&[(needed == room + 1, ONE_BYTE), (room == 0, NO_BYTE)]))
        }
        _ => Vec::new(),
    }
}

// ---- List files

fn seen_read(case: &Case) -> Vec<&'static str> {
    let (file, room, number) = (&case.call.file, case.call.words.len(), case.expected.number as usize);
    match case.expected.result.checked_sub(REFUSED) {
        None => {
            debug_assert_eq!(case.expected.result, GRANTED);
            let pairs: Vec<&[u32]> = case.expected.words[..number].chunks_exact(PAIR_WORDS).collect();
            met(&[
                (file.is_empty(), READ_NONE),
                (pairs.len() == MOST_PAIRS, READ_MOST),
                (pairs.len() > MOST_PAIRS, READ_MORE),
                (number == room, READ_ENOUGH),
                (pairs.iter().any(|pair| pair[1] == 0), READ_ZERO),
                (pairs.iter().any(|pair| pair[0] > 255), READ_MASK),
                (pairs.windows(2).any(|pair| pair[0][0] == pair[1][0]), READ_EQUAL),
                (pairs.iter().any(|pair| pair.contains(&u32::MAX)), READ_LARGEST),
            ])
        }
        Some(NO_ROOM) => {
            let needed = read(&RIGHT, file).expect("the file can be read").len();
            met(&[(needed == room + 1, ONE_WORD), (room == 0, NO_WORD)])
        }
        Some(fault) => {
            let before = words_before(file, number);
            let bad = &file[number..];
            let fifth = bad.len() >= 5 && bad[..4].iter().all(|byte| *byte >= 0x80) && bad[4] > 0x0F;
            met(&[
                (fault == ENDS_EARLY && number == file.len(), HALF),
                (fault == ENDS_EARLY && number < file.len(), IN_A_NUMBER),
                (fault == BAD_FORM && !fifth, LAST_BYTE),
                (fault == BAD_FORM && fifth, FIFTH_BYTE),
                (fault == ENDS_EARLY && before > room, FEW_WORDS[0]),
                (fault == BAD_FORM && before > room, FEW_WORDS[1]),
            ])
        }
    }
}

/// How many numbers lie before a position.
fn words_before(file: &[u8], end: usize) -> usize {
    let mut numbers = Numbers { checker: &Plain, bytes: &file[..end], at: 0 };
    (0..).take_while(|_| numbers.next().is_ok()).count()
}
