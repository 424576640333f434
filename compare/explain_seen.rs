//! What has to come in a run of calls that explain tables: each kind of answer, each edge, and two refusals at once.

use crate::check::{rule_at, Checker, Plain};
use crate::explain::{
    common, first_of_its_stream, is_tried, is_walked, slot, Answer, Call, Kind, Met, Near, Numbers, Slot, Spare,
    Violated, KINDS, RIGHT,
};
use crate::explain_cases::Case;
use crate::format::Plan;
use crate::paper::{
    ABOVE_LIMIT, BAD_FORM, ENDS_EARLY, LEFT_OVER, LEG_WRONG, LINK_RANGE, LINK_TWICE, NO_LEG, NO_PLACE, OVERLAP, RULES,
    STREAM_WRONG, WINDOW,
};

/// The refusals that come before 9 and 10.
const OF_THE_PLAN: [u32; 8] =
    [ABOVE_LIMIT, LINK_RANGE, LINK_TWICE, STREAM_WRONG, LEG_WRONG, ENDS_EARLY, BAD_FORM, LEFT_OVER];
/// Those of the shape, which can be due together with 9 or 10.
const OF_THE_SHAPE: [u32; 4] = [LINK_RANGE, LINK_TWICE, STREAM_WRONG, LEG_WRONG];

const MEETINGS: [&str; 20] = [
    "a meeting in repeat 0 of both",
    "a meeting in repeat 0 of one and a later one of the other",
    "a meeting in later repeats of both",
    "a meeting in repeats above 10,000",
    "a meeting where both begin",
    "a meeting where the leg begins",
    "a meeting where the other leg begins",
    "a meeting at an instant above 4,294,967,295",
    "a meeting of a leg with itself",
    "a meeting of legs of equal periods",
    "a meeting of legs of coprime periods",
    "a meeting by 1 ns",
    "a meeting of a leg that holds its link longer than its period",
    "a meeting of legs that lie periods late",
    "a meeting of a leg whose offset is beyond its period",
    "a meeting with the lower leg first",
    "never, by the divisor",
    "never, by the divisor, with nothing to spare",
    "never, on different links",
    "a meeting told by remainders alone",
];

const NEARS: [&str; 8] = [
    "a nearest offset next to the leg's own",
    "a nearest offset further off",
    "a nearest offset of 0",
    "a nearest offset at the end of the window",
    "nearest offsets of a leg that is beyond its window",
    "nearest offsets of the only leg of its stream, at its deadline",
    "nearest offsets of a leg that lies periods late",
    "nearest offsets from candidates alone",
];

const SURVEYS: [&str; 4] =
    ["a survey without a violated place", "a survey of one", "a survey of several", "a survey of all four rules"];

fn refused(kind: Kind, number: u32) -> String {
    format!("{:?} refused with {}", kind, number)
}

fn at_once(kind: Kind, number: u32) -> String {
    format!("{:?} refused with {}, where the leg or the place is not there either", kind, number)
}

fn spared(rule: usize, spare: Spare) -> String {
    let words = match spare {
        Spare::Free => "free",
        Spare::Left(0) => "with nothing to spare",
        Spare::Left(_) => "with something to spare",
        Spare::Lacks(1) => "violated by 1 ns",
        Spare::Lacks(_) => "violated by more",
    };
    format!("the margin of {} {}", article(rule), words)
}

fn article(rule: usize) -> String {
    format!("{} {}", if rule == OVERLAP { "an" } else { "a" }, RULES[rule].name)
}

fn nears(rule: usize, near: Near) -> String {
    let words = match (near.below, near.above) {
        (Some(_), Some(_)) => "below and above",
        (Some(_), None) => "below alone",
        (None, Some(_)) => "above alone",
        (None, None) => "nowhere",
    };
    format!("nearest offsets of {}: {}", article(rule), words)
}

const ABSENT: [&str; 6] = [
    "10 of the first leg alone",
    "10 of the second leg alone",
    "10 of both legs",
    "9 at the end",
    "9 of a leg that is not there",
    "9 of a place that is not there",
];

const SIDES: [&str; 4] = [
    "an overlap with less to spare before the other leg",
    "an overlap with less to spare after it",
    "an overlap that lacks more before the other leg",
    "an overlap that lacks more after it",
];

/// All that has to come.
pub fn edges() -> Vec<String> {
    let both = Near { below: Some(0), above: Some(0) };
    let ends = [both, Near { above: None, ..both }, Near { below: None, ..both }, Near { below: None, above: None }];
    let spares = [Spare::Left(0), Spare::Left(2), Spare::Lacks(1), Spare::Lacks(2), Spare::Free];
    let rules = || 0..RULES.len();
    let margins = rules().flat_map(|rule| spares.map(|spare| (rule, spare)));
    let margins = margins.filter(|&(rule, spare)| rule != WINDOW || spare != Spare::Free);
    let fixed = MEETINGS.iter().chain(&NEARS).chain(&SURVEYS).chain(&ABSENT).chain(&SIDES);
    fixed
        .map(|name| name.to_string())
        .chain(margins.map(|(rule, spare)| spared(rule, spare)))
        .chain(rules().flat_map(|rule| ends.map(|near| nears(rule, near))))
        .chain(KINDS.into_iter().flat_map(|kind| OF_THE_PLAN.map(|number| refused(kind, number))))
        .chain(
            [(Kind::Meeting, NO_LEG), (Kind::Margin, NO_PLACE), (Kind::Nearest, NO_PLACE)].map(|(k, n)| refused(k, n)),
        )
        .chain(KINDS[..3].iter().flat_map(|&kind| OF_THE_SHAPE.map(|number| at_once(kind, number))))
        .collect()
}

/// What comes with a call.
pub fn seen(case: &Case) -> Vec<String> {
    let call = &case.call;
    let plan = Plain.read_plan(&call.plan).ok();
    match (&case.answer, &plan) {
        (Answer::Refused(refusal), _) => {
            let mut names = vec![refused(call.kind, refusal.number)];
            let is_absent = plan.map_or(false, |plan| (RIGHT.asked)(&plan, call).is_err());
            names.extend(Some(at_once(call.kind, refusal.number)).filter(|_| is_absent));
            names.extend(absent(call, refusal.number).map(str::to_string));
            names
        }
        (Answer::Meeting(met), Some(plan)) => owned(meetings(plan, call, *met)),
        (Answer::Margin(rule, numbers, spare), Some(_)) => {
            let mut names = vec![spared(*rule, *spare)];
            names.extend(sides(*numbers).map(str::to_string));
            names
        }
        (Answer::Nearest(near), Some(plan)) => {
            let mut names = owned(nears_of(plan, call, *near));
            names.push(nears(rule_at(call.second).0, *near));
            names
        }
        (Answer::Survey(found), _) => owned(surveys(found)),
        _ => unreachable!("a plan that is not refused reads"),
    }
}

fn owned(names: Vec<(bool, &str)>) -> Vec<String> {
    names.into_iter().filter(|(is_seen, _)| *is_seen).map(|(_, name)| name.to_string()).collect()
}

fn absent(call: &Call, number: u32) -> Option<&'static str> {
    let legs = Plain.read_plan(&call.plan).ok()?.legs.len() as u32;
    let (first, second) = (call.leg >= legs, call.second >= legs);
    match (number, first, second) {
        (NO_LEG, true, false) => Some(ABSENT[0]),
        (NO_LEG, false, true) => Some(ABSENT[1]),
        (NO_LEG, true, true) => Some(ABSENT[2]),
        (NO_PLACE, _, _) if call.leg == legs && call.second == 0 => Some(ABSENT[3]),
        (NO_PLACE, true, _) => Some(ABSENT[4]),
        (NO_PLACE, false, _) => Some(ABSENT[5]),
        _ => None,
    }
}

fn sides(numbers: Numbers) -> Option<&'static str> {
    let (before, after) = match numbers {
        Numbers::Turns { divisor, after, hold, other } => {
            (after as i64 - hold as i64, divisor as i64 - after as i64 - other as i64)
        }
        _ => return None,
    };
    match (before.min(after) < 0, before < after) {
        (false, true) => Some(SIDES[0]),
        (false, false) => Some(SIDES[1]),
        (true, true) => Some(SIDES[2]),
        (true, false) => Some(SIDES[3]),
    }
}

fn meetings(plan: &Plan, call: &Call, met: Option<Met>) -> Vec<(bool, &'static str)> {
    let legs = [call.leg as usize, call.second as usize];
    let [a, b] = legs.map(|leg| slot(&RIGHT, plan, leg));
    let is_same_link = plan.legs[legs[0]].link == plan.legs[legs[1]].link;
    let Met { first, second, instant } = match met {
        Some(met) => met,
        None => {
            let numbers = (RIGHT.overlap)(&RIGHT, plan, legs[0], legs[1]);
            return vec![
                (is_same_link, MEETINGS[16]),
                ((RIGHT.spare)(numbers) == Spare::Left(0), MEETINGS[17]),
                (!is_same_link, MEETINGS[18]),
            ];
        }
    };
    let is_distinct = legs[0] != legs[1];
    let begins = |slot: &Slot, repeat| slot.begin(repeat) == instant;
    let (a_begins, b_begins) = (begins(&a, first), begins(&b, second));
    let shared = (a.begin(first) + a.hold).min(b.begin(second) + b.hold) - instant;
    let any = |test: fn(&Slot) -> bool| test(&a) || test(&b);
    vec![
        (is_distinct && (first, second) == (0, 0), MEETINGS[0]),
        (is_distinct && first.min(second) == 0 && first.max(second) > 0, MEETINGS[1]),
        (is_distinct && first > 0 && second > 0, MEETINGS[2]),
        (first.min(second) > 10_000, MEETINGS[3]),
        (is_distinct && a_begins && b_begins, MEETINGS[4]),
        (a_begins && !b_begins, MEETINGS[5]),
        (b_begins && !a_begins, MEETINGS[6]),
        (instant > u64::from(u32::MAX), MEETINGS[7]),
        (!is_distinct, MEETINGS[8]),
        (is_distinct && a.period == b.period, MEETINGS[9]),
        (a.period.min(b.period) > 1 && common(&a, &b) == 1, MEETINGS[10]),
        (shared == 1, MEETINGS[11]),
        (is_distinct && any(|slot| slot.hold > slot.period), MEETINGS[12]),
        (is_distinct && legs.iter().all(|&leg| plan.legs[leg].periods > 0), MEETINGS[13]),
        (is_distinct && any(|slot| slot.offset >= slot.period), MEETINGS[14]),
        (legs[0] < legs[1], MEETINGS[15]),
        (!is_walked(&a, &b), MEETINGS[19]),
    ]
}

fn nears_of(plan: &Plan, call: &Call, near: Near) -> Vec<(bool, &'static str)> {
    let leg = call.leg as usize;
    let own = plan.legs[leg].offset;
    let slot = slot(&RIGHT, plan, leg);
    let offsets: Vec<u32> = near.below.into_iter().chain(near.above).collect();
    let any = |test: &dyn Fn(u32) -> bool| offsets.iter().any(|&offset| test(offset));
    let is_only = first_of_its_stream(plan, leg) == leg
        && plan.streams[plan.legs[leg].stream as usize].leg_count == 1
        && call.second == 2;
    vec![
        (any(&|offset| offset.abs_diff(own) == 1), NEARS[0]),
        (any(&|offset| offset.abs_diff(own) > 1), NEARS[1]),
        (any(&|offset| offset == 0), NEARS[2]),
        (any(&|offset| u64::from(offset) + slot.hold == slot.period), NEARS[3]),
        (!offsets.is_empty() && u64::from(own) + slot.hold > slot.period, NEARS[4]),
        (is_only && !offsets.is_empty(), NEARS[5]),
        (!offsets.is_empty() && plan.legs[leg].periods > 0, NEARS[6]),
        (!is_tried(plan, leg), NEARS[7]),
    ]
}

fn surveys(found: &[Violated]) -> Vec<(bool, &'static str)> {
    let has = |result: u32| found.iter().any(|at| at.result == result);
    vec![
        (found.is_empty(), SURVEYS[0]),
        (found.len() == 1, SURVEYS[1]),
        (found.len() > 1, SURVEYS[2]),
        (RULES.iter().all(|rule| has(rule.result)), SURVEYS[3]),
    ]
}
