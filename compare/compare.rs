//! Holds the proved calls against the plain checker, and shows that wrong checkers are caught.

use crate::calls::{answer, receive, send, send_flush, Answer, Call, Kind};
use crate::cases::{batch, Case, BATCH};
use crate::driver::{not_caught, Driver};
use crate::fail::given;
use crate::paper::{
    ABOVE_LIMIT, BAD_FORM, ENDS_EARLY, GRANTED, LAST_REVISION, LEFT_OVER, LEG_WRONG, LINK_RANGE, LINK_TWICE, NO_LEG,
    NO_PLACE, NO_ROOM, PAUSED, REFUSED, RULES, STALE, STREAM_WRONG, TOO_LATE,
};
use crate::report::{found_in, hex, never_seen, tell, tell_seen, Calls, First, Hunt, Run};
use crate::wrong::{all, Wrong};
use std::collections::BTreeMap;
use std::sync::Mutex;

/// Plans up to this length are given to the third opinion too.
const LAID_OUT_BYTES: usize = 2_000;
/// What a spoiled driver does, by the number that tells it to.
const SPOILED: [&str; 8] = [
    "changes the plan",
    "changes the cursor",
    "changes the last byte for the new plan",
    "changes the last byte lent for the cursor",
    "changes the byte before the plan",
    "changes the byte before the cursor",
    "changes the byte before the new plan",
    "changes the byte before the lent cursor",
];

/// What a run has found so far.
struct Found {
    calls: Calls,
    /// The first call whose third opinion catches each wrong checker.
    caught_by_layout: Vec<First>,
    pairs_laid_out: u64,
    /// How often each call gave each result.
    seen: BTreeMap<(Kind, u32), u64>,
}

fn told(answer: &Answer) -> String {
    let (result, number) = (answer.result as u32, answer.result >> 32);
    format!("result {} number {} out [{}] new plan [{}]", result, number, hex(&answer.out), hex(&answer.new_plan))
}

fn described(number: u64, call: &Call) -> String {
    format!(
        "DIFFERENCE in call {}: {:?}, number {}, offset {}, periods {}, cursor [{}], out [{}], new plan of {}, plan [{}]",
        number,
        call.kind,
        call.number,
        call.offset,
        call.periods,
        hex(&call.cursor),
        hex(&call.out),
        call.new_plan.len(),
        hex(&call.plan)
    )
}

/// Makes all calls, and gives each answer with what no call may change and yet was changed.
fn answers(driver: &mut Driver, cases: &[Case]) -> Vec<(Answer, Vec<String>)> {
    driver.answers(cases, |input, case| send(input, &case.call), send_flush, |output, case| receive(output, &case.call))
}

/// Says how the proved call differs from the plain one, if it does.
fn difference(number: u64, case: &Case, answered: &Answer, changed: &[String]) -> Option<String> {
    if *answered == case.expected && changed.is_empty() {
        return None;
    }
    Some(format!(
        "{}\n    proved: {}\n    plain:  {}\n    {}",
        described(number, &case.call),
        told(answered),
        told(&case.expected),
        changed.join(", ")
    ))
}

/// The number in the run of a call of this batch. All batches are of one length.
fn number_in_run(batch: u64, call: usize) -> u64 {
    batch * BATCH as u64 + call as u64
}

/// Whether a wrong checker is one that the third opinion has to catch too.
fn judges_overlap(name: &str) -> bool {
    name.starts_with("overlap")
}

/// Compares one batch of this number.
fn compare(number: u64, wrong: &[Wrong], cases: &[Case], driver: &mut Driver, found: &Mutex<Found>) {
    let answers = answers(driver, cases);
    let (mut by_call, mut by_layout) = {
        let found = found.lock().expect("no thread failed");
        (Hunt::new(&found.calls.caught, number), Hunt::new(&found.caught_by_layout, number))
    };
    by_layout.at_large.retain(|&at| judges_overlap(&wrong[at].name));
    let (mut faults, mut pairs_laid_out) = (Vec::new(), 0);
    for (at_call, (case, (answered, changed))) in cases.iter().zip(&answers).enumerate() {
        let in_run = number_in_run(number, at_call);
        let theirs = |at: usize| given(|| answer(&wrong[at].checker, &case.call));
        faults.extend(difference(in_run, case, answered, changed));
        by_call.go_on(at_call, |at| theirs(at).as_ref() == Some(answered));
        let slices = matches!(case.call.kind, Kind::Slice | Kind::SliceFull);
        if slices && case.call.plan.len() < LAID_OUT_BYTES {
            let third = crate::layout::opinion(&case.call);
            pairs_laid_out += third.laid_out;
            if third.answer != case.expected {
                faults.push(format!("{}\n    laid out: {}", described(in_run, &case.call), told(&third.answer)));
            }
            if third.laid_out > 0 && third.left == 0 {
                by_layout.go_on(at_call, |at| theirs(at).as_ref() == Some(&third.answer));
            }
        }
    }
    let mut found = found.lock().expect("no thread failed");
    found.calls.add(number, cases.len(), faults, by_call);
    by_layout.end(&mut found.caught_by_layout, number);
    found.pairs_laid_out += pairs_laid_out;
    for case in cases {
        *found.seen.entry((case.call.kind, case.expected.result as u32)).or_default() += 1;
    }
}

/// Each result that a call can have. From a file, refusals 1 and 3 cannot come.
fn results() -> Vec<(Kind, u32)> {
    let refusals = |numbers: &[u32]| numbers.iter().map(|number| REFUSED + number).collect::<Vec<_>>();
    let of_shape = [LINK_RANGE, LINK_TWICE, STREAM_WRONG, LEG_WRONG];
    let of_files = [ABOVE_LIMIT, ENDS_EARLY, BAD_FORM, LEFT_OVER, NO_ROOM];
    let start = [vec![GRANTED], refusals(&of_shape), refusals(&of_files)].concat();
    let violated = RULES.iter().map(|rule| rule.result).collect();
    let slice = [start.clone(), vec![PAUSED], violated, refusals(&[STALE, NO_PLACE])].concat();
    let moves = [start.clone(), refusals(&[STALE, NO_PLACE, NO_LEG, LAST_REVISION, TOO_LATE])].concat();
    let convert = [vec![GRANTED], refusals(&of_files)].concat();
    let slices = [(Kind::Slice, &slice), (Kind::SliceFull, &slice)];
    let others = [(Kind::Start, &start), (Kind::Move, &moves), (Kind::Convert, &convert)];
    let of = |(kind, results): &(Kind, &Vec<u32>)| results.iter().map(|&result| (*kind, result)).collect::<Vec<_>>();
    slices.iter().chain(&others).flat_map(of).collect()
}

/// Makes so many calls, or a few more, with the command that makes the calls of driver.c. Says whether all is well.
pub fn run(seed: u64, wanted: u64, driver: &[String]) -> bool {
    let wrong = all();
    let nothing = Found {
        calls: Calls::new(wrong.len()),
        caught_by_layout: vec![None; wrong.len()],
        pairs_laid_out: 0,
        seen: BTreeMap::new(),
    };
    let run = Run { seed, wanted, what: "calls", size: BATCH, driver };
    let (found, _) = found_in(&run, nothing, |number, driver, found| {
        compare(number, &wrong, &batch(seed, number), driver, found);
    });
    let differs = |case: &Case, answered: &Answer, changed: &[String]| difference(0, case, answered, changed);
    report(&wrong, &found, &not_caught(driver, &SPOILED, &batch(1, 0), answers, differs))
}

/// Prints what a run found, and says whether all is well.
fn report(wrong: &[Wrong], found: &Found, spoilers: &[String]) -> bool {
    found.calls.tell_differences();
    let mut faults = Vec::new();
    for (at, Wrong { name, .. }) in wrong.iter().enumerate() {
        match found.calls.caught[at] {
            Some((batch, call)) => println!("caught in call {}: {}", number_in_run(batch, call) + 1, name),
            None => faults.push(format!("NOT CAUGHT: {}", name)),
        }
        if judges_overlap(name) && found.caught_by_layout[at].is_none() {
            faults.push(format!("NOT CAUGHT by layout: {}", name));
        }
    }
    faults.extend_from_slice(spoilers);
    let in_words = |(kind, result): &(Kind, u32)| format!("{:?} with the result {}", kind, result);
    faults.extend(never_seen(results(), &found.seen, in_words));
    tell(&faults);
    tell_seen(&found.seen, |(kind, result)| format!("{:?} {}", kind, result));
    let counted = found.calls.counted("checkers", SPOILED.len(), spoilers.len());
    println!("{}, {} pairs of legs laid out", counted, found.pairs_laid_out);
    found.calls.differences == 0 && faults.is_empty() && found.pairs_laid_out > 0
}
