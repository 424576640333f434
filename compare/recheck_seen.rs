//! What rechecks show: the kinds of calls that a run has to meet, and those that cannot be.

use crate::check::{rule_at, Checker, Plain};
use crate::format::{Numbers, Plan};
use crate::paper::{
    ABOVE_LIMIT, BAD_FORM, DEADLINE, ENDS_EARLY, HOP, LEFT_OVER, LEG_WRONG, LIMITS, LINK_RANGE, LINK_TWICE,
    NOTHING_VIOLATED, NO_LEG, OVERLAP, REFUSED, RULES, STREAM_WRONG, WINDOW,
};
use crate::recheck::{first_of_its_stream, last_of_its_stream, listed, verdict, Answer, Place, Verdict};
use crate::recheck_cases::{is_refused, Before, Case};
use crate::rules::{arrival, divisor, sent};

/// How a place of the list concerns the moved leg, in the order in which these come.
#[derive(Clone, Copy, Debug, PartialEq, Eq)]
enum Kind {
    OwnWindow,
    OwnHop,
    OwnDeadline,
    WithLower,
    NextHop,
    LaterDeadline,
    WithHigher,
}

use Kind::*;

const KINDS: [Kind; 7] = [OwnWindow, OwnHop, OwnDeadline, WithLower, NextHop, LaterDeadline, WithHigher];

/// Two kinds that can be violated together where the table before was accepted. The first one is told.
const TOGETHER: [(Kind, Kind); 15] = [
    (OwnWindow, OwnHop),
    (OwnWindow, OwnDeadline),
    (OwnWindow, WithLower),
    (OwnWindow, NextHop),
    (OwnWindow, LaterDeadline),
    (OwnWindow, WithHigher),
    (OwnHop, WithLower),
    (OwnHop, WithHigher),
    (OwnDeadline, WithLower),
    (OwnDeadline, WithHigher),
    (WithLower, NextHop),
    (WithLower, LaterDeadline),
    (WithLower, WithHigher),
    (NextHop, WithHigher),
    (LaterDeadline, WithHigher),
];

/// Two that cannot: the first would be violated by a start that is too early, the second by one that is too late, or the
/// other way round; or no move of a leg that can violate the one can violate the other.
const NEVER_TOGETHER: [(Kind, Kind); 4] =
    [(OwnHop, OwnDeadline), (OwnHop, NextHop), (OwnHop, LaterDeadline), (NextHop, LaterDeadline)];

/// The refusals that come before 10. From a file, 1 and 3 cannot come.
pub const BEFORE_NO_LEG: [u32; 8] =
    [ENDS_EARLY, BAD_FORM, ABOVE_LIMIT, LEFT_OVER, LINK_RANGE, LINK_TWICE, STREAM_WRONG, LEG_WRONG];

const FIRST: &str = "first";
const MIDDLE: &str = "middle";
const LAST: &str = "last";
const ONLY: &str = "only";
const CLEAN: &str = "nothing violated";
const PAST_THE_NEXT: &str = "the deadline told at a leg beyond the next";
const SHORT_LIST: &str = "a list of G + 2 places";
const LONG_LIST: &str = "a list of G + 4 places";
const ONE_LEG: &str = "a table of one leg";
const FIRST_LEG: &str = "the first leg of a table moved";
const LAST_LEG: &str = "the last leg of a table moved";
const MOST_LEGS: &str = "a table of the most legs";
const NOT_MOVED: &str = "moved to where it was";
const MOST_LATE: &str = "nothing violated with the moved leg seven periods late";
const BEYOND: &str = "moved beyond its period";
const SOONER: &str = "not accepted before: a place off the list violated sooner";
const ELSEWHERE: &str = "not accepted before: nothing violated at the places looked at, but at others";
const ALIKE: &str = "not accepted before: the verdict of a whole check all the same";
const MIDDLE_DEADLINE: &str = "not accepted before: a deadline told with a middle leg moved";
const LEG_G: &str = "10 for the leg after the last";
const FAR_LEG: &str = "10 for a leg beyond that";
const NO_LEGS: &str = "10 of a table without legs";
const NO_LEG_EITHER: &str = "there is no such leg either";

fn name(kind: Kind) -> &'static str {
    match kind {
        OwnWindow => "its window",
        OwnHop => "its hop",
        OwnDeadline => "its deadline",
        WithLower => "the overlap with a lower leg",
        NextHop => "the next hop",
        LaterDeadline => "the deadline at a later leg",
        WithHigher => "the overlap with a higher leg",
    }
}

fn outcome_of(result: u32) -> &'static str {
    RULES.iter().find(|rule| rule.result == result).map_or(CLEAN, |rule| rule.name)
}

fn moved_leg(position: &str, outcome: &str) -> String {
    format!("{} leg of its stream moved: {}", position, outcome)
}

fn told_with((first, second): (Kind, Kind)) -> String {
    format!("{} told, {} violated too", name(first), name(second))
}

fn told(kind: Kind) -> String {
    format!("{} told", name(kind))
}

fn just_kept(kind: Kind) -> String {
    format!("{} just kept", name(kind))
}

fn just_missed(kind: Kind) -> String {
    format!("{} missed by one ns", name(kind))
}

fn other_word(outcome: &str) -> String {
    format!("moved to another period word: {}", outcome)
}

fn after(before: Before, is_clean: bool) -> String {
    let before = match before {
        Before::Accepted => "an accepted table",
        Before::Clean => "clean moves",
        Before::SameLeg => "violated moves of the same leg",
        Before::NotAccepted | Before::Unknown => "another table",
    };
    format!("after {}: {}", before, if is_clean { CLEAN } else { "violated" })
}

fn either(refusal: u32) -> String {
    format!("{} where {}", refusal, NO_LEG_EITHER)
}

/// The outcomes that no move of a leg at this position can have, after an accepted table.
fn is_impossible(position: &str, outcome: &str) -> bool {
    let (hop, deadline) = (RULES[HOP].name, RULES[DEADLINE].name);
    (position == MIDDLE && outcome == deadline) || (position == ONLY && (outcome == hop || outcome == deadline))
}

/// All outcomes of moves of a leg at each position.
fn outcomes(impossible: bool) -> Vec<String> {
    let outcomes: Vec<&str> = std::iter::once(CLEAN).chain(RULES.iter().map(|rule| rule.name)).collect();
    let pairs = [FIRST, MIDDLE, LAST, ONLY]
        .into_iter()
        .flat_map(|position| outcomes.iter().map(move |outcome| (position, *outcome)));
    pairs
        .filter(|(at, outcome)| is_impossible(at, outcome) == impossible)
        .map(|(at, outcome)| moved_leg(at, outcome))
        .collect()
}

/// All that a run has to meet.
pub fn edges() -> Vec<String> {
    let lists = [PAST_THE_NEXT, SHORT_LIST, LONG_LIST, ONE_LEG, FIRST_LEG, LAST_LEG, MOST_LEGS];
    let moves = [NOT_MOVED, MOST_LATE, BEYOND];
    let others = [SOONER, ELSEWHERE, ALIKE, MIDDLE_DEADLINE, LEG_G, FAR_LEG, NO_LEGS];
    let named = lists.iter().chain(&moves).chain(&others).map(|name| name.to_string());
    let words = [CLEAN, RULES[HOP].name, RULES[DEADLINE].name].map(other_word);
    let premises = [Before::Accepted, Before::Clean, Before::SameLeg];
    let befores = premises.into_iter().flat_map(|before| [after(before, true), after(before, false)]);
    outcomes(false)
        .into_iter()
        .chain(KINDS.iter().flat_map(|&kind| [told(kind), just_kept(kind), just_missed(kind)]))
        .chain(TOGETHER.map(told_with))
        .chain(named)
        .chain(words)
        .chain(befores)
        .chain(BEFORE_NO_LEG.map(either))
        .collect()
}

/// All that a run may never meet.
pub fn impossible() -> Vec<String> {
    outcomes(true).into_iter().chain(NEVER_TOGETHER.map(told_with)).collect()
}

/// What a call meets, given its answer and, where the plan is one, that of a whole check.
pub fn seen(case: &Case, plan: Option<&Plan>, whole: Option<Verdict>) -> Vec<String> {
    let answer = &case.expected;
    let Some(plan) = plan else {
        let is_absent = legs_told(&case.call.plan).map_or(false, |legs| case.call.leg >= legs);
        return Vec::from_iter(Some(either(answer.result - REFUSED)).filter(|_| is_absent));
    };
    if is_refused(answer) {
        return seen_refused(plan, case);
    }
    if case.before.has_premise() {
        return seen_moved(plan, case);
    }
    let moved = case.call.leg as usize;
    let is_middle = position(plan, moved) == MIDDLE;
    let told_deadline = answer.result == RULES[DEADLINE].result;
    let beside = |whole: Verdict| if whole == verdict(answer) { ALIKE } else { sooner_or_elsewhere(answer) };
    let names = whole.map(beside).into_iter().chain(Some(MIDDLE_DEADLINE).filter(|_| is_middle && told_deadline));
    names.map(str::to_string).collect()
}

fn sooner_or_elsewhere(answer: &Answer) -> &'static str {
    if answer.result == NOTHING_VIOLATED {
        ELSEWHERE
    } else {
        SOONER
    }
}

/// How many legs the header of a file tells, where it has one.
pub fn legs_told(file: &[u8]) -> Option<u32> {
    let [_, _, _, legs, _] = Numbers { checker: &Plain, bytes: file, at: 0 }.record().ok()?;
    Some(legs)
}

fn seen_refused(plan: &Plan, case: &Case) -> Vec<String> {
    let legs = plan.legs.len() as u32;
    let number = case.expected.result - REFUSED;
    if number != NO_LEG {
        return Vec::from_iter(Some(either(number)).filter(|_| case.call.leg >= legs));
    }
    let which = if case.call.leg == legs { LEG_G } else { FAR_LEG };
    [(true, which), (legs == 0, NO_LEGS)]
        .into_iter()
        .filter(|(is_seen, _)| *is_seen)
        .map(|(_, name)| name.to_string())
        .collect()
}

fn position(plan: &Plan, leg: usize) -> &'static str {
    let (first, last) = (first_of_its_stream(plan, leg), last_of_its_stream(plan, leg));
    match (leg == first, leg == last) {
        (true, true) => ONLY,
        (true, false) => FIRST,
        (false, true) => LAST,
        (false, false) => MIDDLE,
    }
}

fn kind_of(moved: usize, Place { leg, place }: Place) -> Kind {
    match (rule_at(place).0, leg == moved) {
        (WINDOW, _) => OwnWindow,
        (HOP, true) => OwnHop,
        (HOP, false) => NextHop,
        (DEADLINE, true) => OwnDeadline,
        (DEADLINE, false) => LaterDeadline,
        (_, true) => WithLower,
        (_, false) => WithHigher,
    }
}

/// By how many ns the rule of a place is kept, or missed where that is below 0. Nothing where the rule does not concern it.
fn slack(plan: &Plan, Place { leg, place }: Place) -> Option<i64> {
    let (rule, other) = rule_at(place);
    let (mine, precision) = (sent(&Plain, plan, leg), u64::from(plan.precision));
    let (first, last) = (first_of_its_stream(plan, leg), last_of_its_stream(plan, leg));
    match rule {
        WINDOW => Some(i64::from(mine.period) - (mine.offset + mine.hold) as i64),
        HOP if leg > first => Some(mine.start as i64 - arrival(&sent(&Plain, plan, leg - 1), precision) as i64),
        DEADLINE if leg == last => {
            let latest = mine.deadline + sent(&Plain, plan, first).start;
            Some(latest as i64 - arrival(&mine, precision) as i64)
        }
        OVERLAP if plan.legs[leg].link == plan.legs[other].link => {
            let theirs = sent(&Plain, plan, other);
            let common = i64::from(divisor(mine.period, theirs.period));
            let after = (theirs.offset as i64 - mine.offset as i64).rem_euclid(common);
            Some((after - mine.hold as i64).min(common - after - theirs.hold as i64))
        }
        _ => None,
    }
}

fn seen_moved(plan: &Plan, case: &Case) -> Vec<String> {
    let (answer, moved, legs) = (&case.expected, case.call.leg as usize, plan.legs.len());
    let outcome = outcome_of(answer.result);
    let list = listed(plan, moved);
    let violated: Vec<Place> =
        list.iter().filter(|place| !Plain.holds(plan, place.leg, place.place)).copied().collect();
    let mut names = vec![moved_leg(position(plan, moved), outcome), after(case.before, violated.is_empty())];
    match violated.first() {
        Some(&place) => {
            let kind = kind_of(moved, place);
            names.push(told(kind));
            names.extend(Some(just_missed(kind)).filter(|_| slack(plan, place) == Some(-1)));
            names.extend(Some(PAST_THE_NEXT.to_string()).filter(|_| kind == LaterDeadline && place.leg > moved + 1));
            let with = |other: &Kind| violated.iter().any(|&place| kind_of(moved, place) == *other);
            names.extend(
                KINDS.into_iter().filter(|other| *other != kind).filter(with).map(|other| told_with((kind, other))),
            );
        }
        None => {
            let is_kept =
                |kind: &Kind| list.iter().any(|&place| kind_of(moved, place) == *kind && slack(plan, place) == Some(0));
            names.extend(KINDS.into_iter().filter(is_kept).map(just_kept));
            names.push(if answer.number as usize == legs + 2 { SHORT_LIST } else { LONG_LIST }.to_string());
        }
    }
    let (offset, periods) = (plan.legs[moved].offset, plan.legs[moved].periods);
    let had_word = case.moved_from.map_or(periods, |(_, periods)| periods);
    names.extend(Some(other_word(outcome)).filter(|_| had_word != periods));
    let others = [
        (legs == 1, ONE_LEG),
        (moved == 0, FIRST_LEG),
        (moved + 1 == legs, LAST_LEG),
        (legs == LIMITS.legs as usize, MOST_LEGS),
        (case.moved_from == Some((offset, periods)), NOT_MOVED),
        (violated.is_empty() && periods == LIMITS.periods, MOST_LATE),
        (offset >= sent(&Plain, plan, moved).period, BEYOND),
    ];
    names.extend(others.into_iter().filter(|(is_seen, _)| *is_seen).map(|(_, name)| name.to_string()));
    names
}
