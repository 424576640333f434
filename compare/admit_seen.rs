//! What admissions show: the edges that a run has to meet, and a second telling of when a stream is refused 20.

use crate::admit::{enlarge, new_legs, newest, Answer, Call, Wanted, ADMITTED, BAD_STREAM, NOT_ACCEPTED, NO_SLOT};
use crate::admit_jump::{conditions, least, Conditions, Forbidden};
use crate::check::{whole, Checker, Plain};
use crate::format::{Link, Plan};
use crate::paper::{DEADLINE, HOP, LIMITS, NO_ROOM, NUMBER_BYTES, OVERLAP, REFUSED, RULES, WINDOW};
use crate::rules::sent;

const AT_ZERO: &str = "admitted at 0";
const AT_THE_LAST: &str = "admitted at the last offset that the first window allows";
const AT_THE_ONLY: &str = "admitted at the only offset that fits";
const JUST_KEPT: &str = "admitted with a deadline that is just kept";
const LATE: &str = "admitted with a leg a period late";
const MOST_LATE: &str = "admitted with a leg seven periods late";
const WITH_A_PERIOD: &str = "admitted with a later leg that starts just with a period";
const ENOUGH: &str = "admitted with just enough bytes";
const MOST_STREAMS: &str = "admitted as the last stream that a table may have";
const MOST_LEGS: &str = "admitted with the last leg that a table may have";
const BY_DEADLINE: &str = "18 by the deadline";
const BY_ONE: &str = "18 by one old leg or one window";
const TOO_LATE: &str = "18 by a leg more than seven periods late";
const BY_ALL: &str = "18 by all together";
const ONE_BYTE: &str = "15 by one byte";
const VIOLATED: [&str; RULES.len()] = ["19 by a window", "19 by a hop", "19 by a deadline", "19 by an overlap"];
const CAUSES: [&str; 13] = [
    "20 for a route without links",
    "20 for a route of too many links",
    "20 for a link that is not there",
    "20 for a route that is broken",
    "20 for a route that comes back to its first node",
    "20 for a route that comes back to another node",
    "20 for a period of 0",
    "20 for a period that is too long",
    "20 for a deadline of 0 or after eight periods",
    "20 for too few octets",
    "20 for too many octets",
    "20 for too many streams",
    "20 for too many legs",
];

/// All that a run has to meet.
pub fn edges() -> Vec<&'static str> {
    let admitted = [AT_ZERO, AT_THE_LAST, AT_THE_ONLY, JUST_KEPT, LATE, MOST_LATE, WITH_A_PERIOD, ENOUGH];
    let others = [MOST_STREAMS, MOST_LEGS, BY_DEADLINE, BY_ONE, TOO_LATE, BY_ALL, ONE_BYTE];
    [&admitted[..], &others, &VIOLATED, &CAUSES].concat()
}

/// What a call meets, given its answer.
pub fn seen(call: &Call, answer: &Answer) -> Vec<&'static str> {
    let plan = || Plain.read_plan(&call.plan).expect("the plan was read");
    match answer.result.checked_sub(REFUSED) {
        None if answer.result == ADMITTED => seen_admitted(call, answer),
        Some(NO_SLOT) => vec![why_no_slot(&enlarge(&plan(), &call.wanted))],
        Some(NO_ROOM) => {
            let needed = NUMBER_BYTES * enlarge(&plan(), &call.wanted).words().len();
            Some(ONE_BYTE).filter(|_| call.new_plan.len() + 1 == needed).into_iter().collect()
        }
        Some(NOT_ACCEPTED) => {
            let violated = whole(&Plain, &plan()).result;
            let rule = [WINDOW, HOP, DEADLINE, OVERLAP].into_iter().find(|&rule| RULES[rule].result == violated);
            vec![VIOLATED[rule.expect("a rule is violated")]]
        }
        Some(BAD_STREAM) => {
            let causes = causes(&plan(), &call.wanted);
            if causes.len() == 1 {
                causes
            } else {
                Vec::new()
            }
        }
        _ => Vec::new(),
    }
}

fn seen_admitted(call: &Call, answer: &Answer) -> Vec<&'static str> {
    let plan = Plain.read_plan(&answer.new_plan[..answer.number as usize]).expect("the new plan can be read");
    let (legs, period) = (&plan.legs[new_legs(&plan)], u64::from(newest(&plan).period));
    let (first, last) = (sent(&Plain, &plan, new_legs(&plan).start), sent(&Plain, &plan, plan.legs.len() - 1));
    let arrival = last.start + last.wire + last.propagation + u64::from(plan.precision);
    let next = conditions(&plan).and_then(|asked| least(&asked, u64::from(answer.offset) + 1..period));
    let latest = legs.iter().map(|leg| leg.periods).max().unwrap_or(0);
    [
        (answer.offset == 0, AT_ZERO),
        (first.offset + first.hold == period, AT_THE_LAST),
        (call.between.is_none() && next.is_none(), AT_THE_ONLY),
        (arrival == first.start + u64::from(newest(&plan).deadline), JUST_KEPT),
        (latest > 0, LATE),
        (latest == LIMITS.periods, MOST_LATE),
        (legs[1..].iter().any(|leg| leg.offset == 0), WITH_A_PERIOD),
        (call.new_plan.len() == NUMBER_BYTES * plan.words().len(), ENOUGH),
        (plan.streams.len() == LIMITS.streams as usize, MOST_STREAMS),
        (plan.legs.len() == LIMITS.legs as usize, MOST_LEGS),
    ]
    .into_iter()
    .filter(|(is_seen, _)| *is_seen)
    .map(|(_, name)| name)
    .collect()
}

fn why_no_slot(enlarged: &Plan) -> &'static str {
    let end = u64::from(newest(enlarged).period);
    match conditions(enlarged) {
        None => BY_DEADLINE,
        Some(asked) if asked.forbidden.iter().any(Forbidden::is_all) => BY_ONE,
        Some(asked) => {
            let is_late = least(&Conditions { end, ..asked }, 0..end).is_some();
            if is_late {
                TOO_LATE
            } else {
                BY_ALL
            }
        }
    }
}

/// All that is wrong with a stream for a table, told one by one. Refusal 20 is due where there is something.
pub fn causes(plan: &Plan, wanted: &Wanted) -> Vec<&'static str> {
    let Wanted { ref route, period, deadline, octets } = *wanted;
    let links: Vec<&Link> = route.iter().filter_map(|&link| plan.links.get(link as usize)).collect();
    let pairs = || links.iter().zip(links.iter().skip(1));
    let comes_back = |to_first: bool| {
        (1..links.len())
            .any(|at| links[..at].iter().any(|met| met.from == links[at].to && (met.from == links[0].from) == to_first))
    };
    let is_wrong = [
        route.is_empty(),
        route.len() > 8,
        links.len() < route.len(),
        links.len() == route.len() && pairs().any(|(one, next)| one.to != next.from),
        links.len() == route.len() && comes_back(true),
        links.len() == route.len() && comes_back(false),
        period == 0,
        period > 1_000_000_000,
        period > 0 && (deadline == 0 || u64::from(deadline) > 8 * u64::from(period)),
        octets < 64,
        octets > 1_522,
        plan.streams.len() + 1 > 512,
        plan.legs.len() + route.len() > 2_048,
    ];
    CAUSES.into_iter().zip(is_wrong).filter(|(_, is_wrong)| *is_wrong).map(|(cause, _)| cause).collect()
}
