//! Holds the proved admissions against the plain admitter, and shows that wrong ones are caught.
//! Usage: admit SEED STREAMS DRIVER...
//!
//! The driver is that of admit_driver.c. The calls are for so many streams, or a few more.

// Of the checker and of the drafts, not all is used here.
#![allow(dead_code)]

mod admit;
mod admit_calls;
mod admit_cases;
mod admit_drafts;
mod admit_jump;
mod admit_seen;
mod admit_wrong;
mod chance;
mod check;
mod damage;
mod drafts;
mod driver;
mod fail;
mod format;
mod paper;
mod reasons;
mod report;
mod rules;
mod shape;

use admit::{
    answer, each, enlarge, lay, newest, Answer, Call, Wanted, ADMITTED, BAD_STREAM, JUMPING, MOST_TRIED, NONE_YET,
    NOT_ACCEPTED, NO_SLOT, RIGHT, WHOLE_LEGS,
};
use admit_calls::{receive, send, send_flush};
use admit_cases::{batch, is_admission, Case, BATCH};
use admit_seen::{causes, edges, seen};
use admit_wrong::{all, Wrong};
use chance::Chance;
use check::{whole, Checker, Plain};
use driver::{not_caught, Driver};
use fail::given;
use format::{plan_bytes, Plan};
use paper::{
    ABOVE_LIMIT, BAD_FORM, ENDS_EARLY, LAST_REVISION, LEFT_OVER, LEG_WRONG, LINK_RANGE, LINK_TWICE, NOTHING_VIOLATED,
    NO_ROOM, REFUSED, STREAM_WRONG,
};
use report::{both_sides, faults_of, found_in, hex, never_seen, run_with_arguments, tell, tell_seen, Calls, Hunt, Run};
use std::collections::BTreeMap;
use std::sync::{Arc, Mutex};

/// Where offsets are too many to be tried, so many of those below the least one are, and of those where none fits.
const SAMPLES: usize = 12;
/// A new plan of so many legs is checked whole.
const CHECKED_LEGS: usize = 200;
/// What a spoiled driver does, by the number that tells it to.
const SPOILED: [&str; 9] = [
    "changes the last byte of the plan",
    "changes the last byte of the route",
    "changes the last byte lent for the new plan",
    "changes the byte before the plan",
    "changes the byte before the route",
    "changes the byte before the new plan",
    "changes the result",
    "changes the number",
    "changes the offset",
];

/// What a run has found so far.
#[derive(Default)]
struct Found {
    calls: Calls,
    /// Admissions of all offsets: with each offset tried, how many of these by whole checks, and by jumps.
    tried: u64,
    whole: u64,
    by_jumps: u64,
    /// Admissions in pieces.
    pieces: u64,
    /// How often each call gave each result, and met each edge.
    results: BTreeMap<(&'static str, u32), u64>,
    edges: BTreeMap<&'static str, u64>,
}

fn kind(call: &Call) -> &'static str {
    if call.between.is_some() {
        "between"
    } else {
        "whole"
    }
}

fn told(Answer { result, number, offset, new_plan }: &Answer) -> String {
    format!("result {} number {} offset {} new plan [{}]", result, number, offset, hex(new_plan))
}

fn described(call: &Call) -> String {
    let lent = call.new_plan.len();
    format!("{:?}, {:?}, {} bytes lent, plan [{}]", call.wanted, call.between, lent, hex(&call.plan))
}

/// Makes all calls, and gives each answer with what no call may change and yet was changed.
fn answers(driver: &mut Driver, cases: &[Case]) -> Vec<(Answer, Vec<String>)> {
    driver.answers(cases, |input, case| send(input, &case.call), send_flush, |output, case| receive(output, &case.call))
}

/// Says how the proved call differs from the plain one, if it does.
fn difference(case: &Case, answered: &Answer, changed: &[String]) -> Option<String> {
    let Case { call, expected, .. } = case;
    let differs = answered != expected || !changed.is_empty();
    differs.then(|| both_sides(described(call), told(answered), told(expected), changed))
}

/// Says where pieces, one after the other, give something else than the whole: the first that gives more than 'none yet'.
fn difference_of_pieces(cases: &[Case], answers: &[(Answer, Vec<String>)]) -> Vec<String> {
    let gives_more = |at: &usize| cases[*at].piece_of.is_some() && answers[*at].0.result != NONE_YET;
    let differs = |at: &usize| cases[*at].piece_of.map_or(false, |whole| answers[whole].0 != answers[*at].0);
    let told = |at: usize| format!("DIFFERENCE of a piece from the whole: {}", described(&cases[at].call));
    (0..cases.len()).filter(gives_more).filter(differs).map(told).collect()
}

fn is_tried(call: &Call) -> bool {
    call.wanted.period <= MOST_TRIED
}

fn is_checked_whole(call: &Call) -> bool {
    let plan = Plain.read_plan(&call.plan).expect("the plan was read");
    plan.legs.len() + call.wanted.route.len() <= WHOLE_LEGS
}

/// Says how other opinions differ from the plain admitter, if they do.
fn other_opinion(chance: &mut Chance, case: &Case) -> Option<String> {
    let Case { call, expected, .. } = case;
    let other = match expected.result.checked_sub(REFUSED) {
        None | Some(NO_SLOT) => opinion_of_search(chance, case),
        Some(NO_ROOM | NOT_ACCEPTED | BAD_STREAM) => opinion_of_causes(case),
        _ => None,
    }?;
    Some(format!("DIFFERENCE of {}: {}: {}", other, described(call), told(expected)))
}

/// The causes of refusal 20, told one by one.
fn opinion_of_causes(Case { call, expected, .. }: &Case) -> Option<&'static str> {
    let plan = Plain.read_plan(&call.plan).expect("the plan was read");
    let is_due = !causes(&plan, &call.wanted).is_empty();
    Some("the causes of 20").filter(|_| is_due != (expected.result == REFUSED + BAD_STREAM))
}

/// The search by jumps where each offset was tried, the rules at some offsets where none was, and a check of the new plan.
fn opinion_of_search(chance: &mut Chance, Case { call, expected, .. }: &Case) -> Option<&'static str> {
    if is_tried(call) && answer(&JUMPING, call) != *expected {
        return Some("the admitter by jumps");
    }
    let plan = Plain.read_plan(&call.plan).expect("the plan was read");
    let (mut enlarged, is_admitted) = (enlarge(&plan, &call.wanted), expected.result == ADMITTED);
    let (from, until) = call.asked();
    let end = if is_admitted { expected.offset } else { until.min(newest(&enlarged).period) };
    let samples = if is_tried(call) || end <= from { 0 } else { SAMPLES };
    for _ in 0..samples {
        let offset = u64::from(chance.from_to(from, end - 1));
        if each(&RIGHT, &mut enlarged, offset..offset + 1).is_some() {
            return Some("an offset that was passed over");
        }
    }
    let is_checked = is_admitted && enlarged.legs.len() <= CHECKED_LEGS;
    let is_accepted = |mut plan| {
        lay(&RIGHT, &mut plan, expected.offset.into());
        whole(&Plain, &plan).result == NOTHING_VIOLATED
    };
    Some("a whole check of the new plan").filter(|_| is_checked && !is_accepted(enlarged))
}

/// Compares one batch of this number.
fn compare(number: u64, wrong: &[Wrong], cases: &[Case], driver: &mut Driver, found: &Mutex<Found>) {
    let answers = answers(driver, cases);
    let mut hunt = Hunt::new(&found.lock().expect("no thread failed").calls.caught, number);
    let mut chance = Chance::new(number, 1);
    let mut faults = difference_of_pieces(cases, &answers);
    for (at_call, (case, (answered, changed))) in cases.iter().zip(&answers).enumerate() {
        faults.extend(difference(case, answered, changed));
        faults.extend(other_opinion(&mut chance, case));
        hunt.go_on(at_call, |at| given(|| answer(&wrong[at].admitter, &case.call)).as_ref() == Some(&case.expected));
    }
    let met: Vec<&'static str> = cases.iter().flat_map(|case| seen(&case.call, &case.expected)).collect();
    let mut found = found.lock().expect("no thread failed");
    found.calls.add(number, cases.len(), faults, hunt);
    count(&mut found, cases, &met);
}

fn count(found: &mut Found, cases: &[Case], met: &[&'static str]) {
    let admissions = || cases.iter().filter(|case| is_admission(case));
    found.tried += admissions().filter(|case| is_tried(&case.call)).count() as u64;
    found.whole += admissions().filter(|case| is_tried(&case.call) && is_checked_whole(&case.call)).count() as u64;
    found.by_jumps += admissions().filter(|case| !is_tried(&case.call)).count() as u64;
    let is_first_piece = |case: &&Case| case.piece_of.is_some() && case.call.asked().0 == 0;
    found.pieces += cases.iter().filter(is_first_piece).count() as u64;
    for case in cases {
        *found.results.entry((kind(&case.call), case.expected.result)).or_default() += 1;
    }
    for edge in met {
        *found.edges.entry(edge).or_default() += 1;
    }
}

/// Each result that a call can have. From a file, refusals 1 and 3 cannot come.
fn results() -> Vec<(&'static str, u32)> {
    let of_files = [ENDS_EARLY, BAD_FORM, ABOVE_LIMIT, LEFT_OVER, LINK_RANGE, LINK_TWICE, STREAM_WRONG, LEG_WRONG];
    let others = [LAST_REVISION, BAD_STREAM, NO_ROOM, NOT_ACCEPTED, NO_SLOT];
    let refusals: Vec<u32> = of_files.iter().chain(&others).map(|number| REFUSED + number).collect();
    let of = |kind: &'static str, given: &[u32]| -> Vec<(&'static str, u32)> {
        given.iter().chain(&refusals).map(|&result| (kind, result)).collect()
    };
    [of("whole", &[ADMITTED]), of("between", &[ADMITTED, NONE_YET])].concat()
}

/// Makes the calls for so many streams, or a few more, with the command of a driver. Says whether all is well.
fn run(seed: u64, wanted: u64, driver: &[String]) -> bool {
    let wrong = all();
    let nothing = Found { calls: Calls::new(wrong.len()), ..Found::default() };
    let run = Run { seed, wanted, what: "streams", size: BATCH, driver };
    let (found, streams) = found_in(&run, nothing, |number, driver, found| {
        compare(number, &wrong, &batch(seed, number), driver, found);
    });
    let spoilers = not_caught(driver, &SPOILED, &batch(1, 0), answers, difference);
    report(&wrong, &found, streams, &spoilers)
}

/// Whether the plain admitter gives what one counts by hand on Plan A. It is not accepted; its leg 2 at 672 is. Then the
/// first link is taken from 0 to 672 of each 100,000 ns and from there to 1,344 of each 50,000, and the second one from 1,176
/// to 1,848 of each 100,000.
fn keeps_the_examples() -> bool {
    let given = |plan: Plan, period: u32, deadline: u32| {
        let wanted = Arc::new(Wanted { route: vec![0, 1], period, deadline, octets: 64 });
        let call = Call { plan: plan_bytes(&plan).into(), wanted, between: None, new_plan: vec![0; 300] };
        let Answer { result, number, offset, new_plan } = answer(&RIGHT, &call);
        let new = Plain.read_plan(&new_plan[..number as usize]).ok();
        let legs = new.map(|plan| plan.legs[3..].iter().map(|leg| [leg.link, leg.offset, leg.periods]).collect());
        (result, offset, legs.unwrap_or_else(Vec::new))
    };
    given(drafts::plan_a(), 100_000, 2_352).0 == REFUSED + NOT_ACCEPTED
        && given(drafts::accepted_a(), 100_000, 2_352) == (ADMITTED, 1_344, vec![[0, 1_344, 0], [1, 2_520, 0]])
        && given(drafts::accepted_a(), 100_000, 2_351).0 == REFUSED + NO_SLOT
        && given(drafts::accepted_a(), 100_001, 2_352).0 == REFUSED + NO_SLOT
        && given(drafts::accepted_a(), 2_000, 2_352).0 == REFUSED + NO_SLOT
        && given(drafts::accepted_a(), 2_500, 2_352) == (ADMITTED, 1_344, vec![[0, 1_344, 0], [1, 20, 1]])
}

/// Prints what a run found, and says whether all is well.
fn report(wrong: &[Wrong], found: &Found, streams: u64, spoilers: &[String]) -> bool {
    let names = wrong.iter().map(|wrong| wrong.name.as_str());
    let mut faults = faults_of(&found.calls, ("admitter", keeps_the_examples()), names, spoilers);
    let in_words = |(kind, result): &(&str, u32)| format!("{} with the result {}", kind, result);
    faults.extend(never_seen(results(), &found.results, in_words));
    faults.extend(never_seen(edges(), &found.edges, ToString::to_string));
    tell(&faults);
    tell_seen(&found.results, |(kind, result)| format!("{} {}", kind, result));
    for (edge, times) in &found.edges {
        println!("met {} times: {}", times, edge);
    }
    let had = |result: u32| found.results.get(&("whole", result)).copied().unwrap_or(0);
    println!(
        "{} streams, {}, {} with each offset tried, {} of them by whole checks, {} by jumps, {} in pieces, \
         {} admitted, {} refused 18",
        streams,
        found.calls.counted("admitters", SPOILED.len(), spoilers.len()),
        found.tried,
        found.whole,
        found.by_jumps,
        found.pieces,
        had(ADMITTED),
        had(REFUSED + NO_SLOT)
    );
    found.calls.differences == 0 && faults.is_empty()
}

fn main() {
    run_with_arguments("admit SEED STREAMS DRIVER...", run)
}
