//! Holds the proved rechecks against the plain rechecker and against whole checks, and shows that wrong ones are caught.
//! Usage: recheck SEED TABLES DRIVER...
//!
//! The driver is that of recheck_driver.c. The calls are on moves of so many tables, or a few more.

// Of the checker and of the drafts, not all is used here.
#![allow(dead_code)]

mod admit;
mod admit_cases;
mod admit_drafts;
mod admit_jump;
mod chance;
mod check;
mod damage;
mod drafts;
mod driver;
mod fail;
mod format;
mod paper;
mod reasons;
mod recheck;
mod recheck_calls;
mod recheck_cases;
mod recheck_drafts;
mod recheck_seen;
mod recheck_wrong;
mod report;
mod rules;
mod shape;

use check::{Checker, Plain};
use driver::{not_caught, Driver};
use fail::given;
use format::{plan_bytes, Leg, Plan};
use paper::{NOTHING_VIOLATED, NO_LEG, REFUSED, RULES};
use recheck::{
    all_places, answer, last_of_its_stream, listed, verdict, whole_verdict, Answer, Call, Place, Verdict, RIGHT,
};
use recheck_calls::{receive, send, send_flush};
use recheck_cases::{batch, is_refused, Before, Case, BATCH};
use recheck_seen::{edges, impossible, seen, BEFORE_NO_LEG};
use recheck_wrong::{all, Wrong};
use report::{
    both_sides, found_in, never_seen, run_with_arguments, tell, tell_caught, tell_seen, Calls, First, Hunt, Run,
};
use std::collections::BTreeMap;
use std::sync::Mutex;

/// In tables of so many legs each place off the list is looked at before the move and after it.
const COMPARED_LEGS: usize = 60;
/// What a spoiled driver does, by the number that tells it to.
const SPOILED: [&str; 6] = [
    "changes the last byte of the plan",
    "changes the byte before the plan",
    "changes the result",
    "changes the number",
    "changes the leg",
    "changes the place",
];

/// What a run has found so far.
#[derive(Default)]
struct Found {
    calls: Calls,
    /// The first call after an accepted table whose whole check catches each wrong rechecker.
    caught_by_whole: Vec<First>,
    /// How often each was known of the table before, where nothing was refused.
    befores: BTreeMap<Before, u64>,
    /// Where the table before was not accepted: how often a whole check gives another verdict.
    others_differ: u64,
    /// Places off the list that were looked at before the move and after it.
    off_the_list: u64,
    /// How often each result was given, and how often each edge was met.
    results: BTreeMap<u32, u64>,
    edges: BTreeMap<String, u64>,
}

fn told(Answer { result, number, leg, place }: &Answer) -> String {
    format!("result {} number {} leg {} place {}", result, number, leg, place)
}

fn described(Case { call, before, moved_from, .. }: &Case) -> String {
    let bytes: Vec<String> = call.plan.iter().take(600).map(|byte| format!("{:02X}", byte)).collect();
    format!("leg {}, {:?}, moved from {:?}, plan [{}]", call.leg, before, moved_from, bytes.join(" "))
}

/// Makes all calls, and gives each answer with what no call may change and yet was changed.
fn answers(driver: &mut Driver, cases: &[Case]) -> Vec<(Answer, Vec<String>)> {
    driver.answers(cases, |input, case| send(input, &case.call), send_flush, |output, case| receive(output, &case.call))
}

/// Says how the proved call differs from the plain one, if it does.
fn difference(case: &Case, answered: &Answer, changed: &[String]) -> Option<String> {
    let differs = *answered != case.expected || !changed.is_empty();
    differs.then(|| both_sides(described(case), told(answered), told(&case.expected), changed))
}

/// Says how the proved call differs from a whole check, where it may not. If the table before was accepted, the verdicts are
/// the same. If not, a whole check may name a place off the list, which then comes sooner.
fn beside_whole(case: &Case, plan: &Plan, answered: &Answer, whole: Verdict) -> Option<String> {
    let rechecked = verdict(answered);
    let is_listed = |place: Place| listed(plan, case.call.leg as usize).contains(&place);
    let is_sooner = |place: Place| rechecked.map_or(true, |(_, other)| place < other);
    let agrees = rechecked == whole
        || !case.before.has_premise() && whole.map_or(false, |(_, place)| !is_listed(place) && is_sooner(place));
    let told = || format!("DIFFERENCE from a whole check, {:?}: {}: {}", whole, told(answered), described(case));
    Some(told()).filter(|_| !agrees)
}

/// Says where the number of places looked at is none that a list can give: it has G + 2 places for the last leg of a stream,
/// and G + 4 for others, and all are looked at where nothing is violated.
fn out_of_bounds(case: &Case, plan: &Plan, answered: &Answer) -> Option<String> {
    let moved = case.call.leg as usize;
    let length = plan.legs.len() + if moved == last_of_its_stream(plan, moved) { 2 } else { 4 };
    let number = answered.number as usize;
    let is_right = if answered.result == NOTHING_VIOLATED { number == length } else { 0 < number && number <= length };
    let told = || format!("DIFFERENCE from a list of {} places: {}: {}", length, told(answered), described(case));
    Some(told()).filter(|_| !is_right)
}

/// How many places off the list there are, and one that holds before the move and not after it, or the other way round.
fn off_the_list(case: &Case, plan: &Plan) -> (u64, Option<String>) {
    let moved = case.call.leg as usize;
    let Some((offset, periods)) = case.moved_from.filter(|_| plan.legs.len() <= COMPARED_LEGS) else {
        return (0, None);
    };
    let mut before = plan.clone();
    before.legs[moved] = Leg { offset, periods, ..before.legs[moved] };
    let list = listed(plan, moved);
    let others: Vec<Place> = all_places(plan).filter(|place| list.binary_search(place).is_err()).collect();
    let holds = |plan: &Plan, place: &Place| Plain.holds(plan, place.leg, place.place);
    let changed = others.iter().find(|place| holds(&before, place) != holds(plan, place));
    let told = |place| format!("DIFFERENCE at {:?}, which is off the list: {}", place, described(case));
    (others.len() as u64, changed.map(told))
}

/// What one batch shows.
#[derive(Default)]
struct Shown {
    faults: Vec<String>,
    others_differ: u64,
    off_the_list: u64,
    met: Vec<String>,
}

impl Shown {
    /// Looks at one call, and how it stands beside a whole check. Gives its verdict where the table before was accepted.
    fn judge(&mut self, case: &Case, answered: &Answer, changed: &[String]) -> Option<Verdict> {
        self.faults.extend(difference(case, answered, changed));
        let plan = Plain.read_plan(&case.call.plan).ok();
        let rechecked = plan.as_ref().filter(|_| !is_refused(&case.expected));
        let whole = rechecked.map(whole_verdict);
        if let (Some(plan), Some(whole), false) = (rechecked, whole, is_refused(answered)) {
            self.faults.extend(beside_whole(case, plan, answered, whole));
            self.faults.extend(out_of_bounds(case, plan, answered));
            self.others_differ += u64::from(verdict(answered) != whole);
            let (count, changed) = off_the_list(case, plan);
            self.off_the_list += count;
            self.faults.extend(changed);
        }
        self.met.extend(seen(case, plan.as_ref(), whole));
        whole.filter(|_| case.before.has_premise())
    }
}

/// Compares one batch of this number.
fn compare(number: u64, wrong: &[Wrong], cases: &[Case], driver: &mut Driver, found: &Mutex<Found>) {
    let answers = answers(driver, cases);
    let (mut hunt, mut hunt_by_whole) = {
        let found = found.lock().expect("no thread failed");
        (Hunt::new(&found.calls.caught, number), Hunt::new(&found.caught_by_whole, number))
    };
    hunt_by_whole.at_large.retain(|&at| wrong[at].by_whole);
    let mut shown = Shown::default();
    for (at_call, (case, (answered, changed))) in cases.iter().zip(&answers).enumerate() {
        let whole = shown.judge(case, answered, changed);
        let theirs = |at: usize| given(|| answer(&wrong[at].rechecker, &case.call));
        hunt.go_on(at_call, |at| theirs(at) == Some(case.expected));
        if let Some(whole) = whole {
            hunt_by_whole.go_on(at_call, |at| theirs(at).map_or(false, |answer| verdict(&answer) == whole));
        }
    }
    let mut found = found.lock().expect("no thread failed");
    found.calls.add(number, cases.len(), shown.faults, hunt);
    hunt_by_whole.end(&mut found.caught_by_whole, number);
    found.others_differ += shown.others_differ;
    found.off_the_list += shown.off_the_list;
    count(&mut found, cases, shown.met);
}

fn count(found: &mut Found, cases: &[Case], met: Vec<String>) {
    for case in cases {
        *found.results.entry(case.expected.result).or_default() += 1;
        if !is_refused(&case.expected) {
            *found.befores.entry(case.before).or_default() += 1;
        }
    }
    for edge in met {
        *found.edges.entry(edge).or_default() += 1;
    }
}

/// Each result that a call can have.
fn results() -> Vec<u32> {
    let refusals = BEFORE_NO_LEG.into_iter().chain([NO_LEG]).map(|number| REFUSED + number);
    std::iter::once(NOTHING_VIOLATED).chain(RULES.iter().map(|rule| rule.result)).chain(refusals).collect()
}

/// Makes the calls on so many tables, or a few more, with the command of a driver. Says whether all is well.
fn run(seed: u64, wanted: u64, driver: &[String]) -> bool {
    let wrong = all();
    let (calls, caught_by_whole) = (Calls::new(wrong.len()), vec![None; wrong.len()]);
    let nothing = Found { calls, caught_by_whole, ..Found::default() };
    let run = Run { seed, wanted, what: "tables", size: BATCH, driver };
    let (found, tables) = found_in(&run, nothing, |number, driver, found| {
        compare(number, &wrong, &batch(seed, number), driver, found);
    });
    let spoilers = not_caught(driver, &SPOILED, &batch(1, 0), answers, difference);
    report(&wrong, &found, tables, &spoilers)
}

/// Whether the plain rechecker gives what one counts by hand on Plan A with leg 2 at 672, which is accepted. Stream 0 has
/// legs 0 and 1, stream 1 has leg 2. For leg 0 the places are (0,0) to (0,2), (1,1), (1,2), (1,3) and (2,3); for leg 1
/// (1,0) to (1,3) and (2,4); for leg 2 its own five.
fn keeps_the_examples() -> bool {
    let plan = drafts::accepted_a();
    let given = |leg: usize, offset: u32| {
        let mut moved = plan.clone();
        moved.legs[leg].offset = offset;
        let Answer { result, number, leg, place } =
            answer(&RIGHT, &Call { plan: plan_bytes(&moved).into(), leg: leg as u32 });
        [result, number, leg, place]
    };
    let refused = answer(&RIGHT, &Call { plan: plan_bytes(&plan).into(), leg: 3 });
    given(0, 0) == [0, 7, 0, 0]
        && given(1, 1_176) == [0, 5, 0, 0]
        && given(2, 672) == [0, 5, 0, 0]
        && given(0, 600) == [3, 4, 1, 1]
        && given(0, 99_329) == [2, 1, 0, 0]
        && given(1, 1_175) == [3, 2, 1, 1]
        && given(1, 1_177) == [4, 3, 1, 2]
        && given(2, 671) == [5, 4, 2, 3]
        && refused == Answer { result: 110, number: 0, leg: 0, place: 0 }
}

/// Prints what a run found, and says whether all is well.
fn report(wrong: &[Wrong], found: &Found, tables: u64, spoilers: &[String]) -> bool {
    found.calls.tell_differences();
    let mut faults = Vec::new();
    if !keeps_the_examples() {
        faults.push("DIFFERENCE of the plain rechecker from what is counted by hand".to_string());
    }
    for (at, Wrong { name, by_whole, .. }) in wrong.iter().enumerate() {
        tell_caught(found.calls.caught[at], name, &mut faults);
        match found.caught_by_whole[at] {
            Some((batch, call)) => println!("  by a whole check in call {} of batch {}", call + 1, batch + 1),
            None if *by_whole => faults.push(format!("NOT CAUGHT by a whole check: {}", name)),
            None => {}
        }
    }
    faults.extend_from_slice(spoilers);
    faults.extend(never_seen(results(), &found.results, |result| format!("the result {}", result)));
    faults.extend(never_seen(edges(), &found.edges, String::clone));
    let met = impossible().into_iter().filter(|edge| found.edges.contains_key(edge));
    faults.extend(met.map(|edge| format!("CANNOT BE, AND WAS SEEN: {}", edge)));
    tell(&faults);
    print_counts(found);
    let had = |before: Before| found.befores.get(&before).copied().unwrap_or(0);
    let others = had(Before::NotAccepted) + had(Before::Unknown);
    println!(
        "{} tables, {}, {} of {} by whole checks too, {} accepted tables with one leg moved, {} moves after clean ones, \
         {} of the same leg again, {} tables not known to be accepted before, \
         {} of them with another verdict by a whole check, {} places off the list compared",
        tables,
        found.calls.counted("recheckers", SPOILED.len(), spoilers.len()),
        found.caught_by_whole.iter().flatten().count(),
        wrong.iter().filter(|wrong| wrong.by_whole).count(),
        had(Before::Accepted),
        had(Before::Clean),
        had(Before::SameLeg),
        others,
        found.others_differ,
        found.off_the_list
    );
    found.calls.differences == 0 && faults.is_empty() && found.others_differ > 0
}

fn print_counts(found: &Found) {
    tell_seen(&found.results, u32::to_string);
    for edge in edges() {
        println!("met {} times: {}", found.edges.get(&edge).unwrap_or(&0), edge);
    }
    for edge in impossible() {
        println!("met {} times, which cannot be: {}", found.edges.get(&edge).unwrap_or(&0), edge);
    }
}

fn main() {
    run_with_arguments("recheck SEED TABLES DRIVER...", run)
}
