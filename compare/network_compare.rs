//! Holds the proved calls on networks against the plain solver, and shows that wrong ones are caught.
//! Usage: network SEED NETWORKS DRIVER...
//!
//! The driver is that of network_driver.c. All calls are on so many networks, or a few more.

// Of the numbers by chance, not all kinds are used here.
#![allow(dead_code)]

mod chance;
mod driver;
mod fail;
mod network;
mod network_calls;
mod network_cases;
mod network_drafts;
mod network_pairs;
mod network_wrong;
mod report;

use driver::{not_caught, Driver};
use fail::given;
use network::{
    answer, is_right, Answer, Call, Kind, ABOVE_LIMIT, BROKEN, CHAIN, NO_CHAIN, NO_ROOM, OUT_OF_RANGE, REFUSED, RIGHT,
    TIMES,
};
use network_calls::{receive, send, send_flush};
use network_cases::{batch, Case, BATCH};
use network_wrong::{all, Wrong};
use report::{both_sides, faults_of, found_in, never_seen, run_with_arguments, tell, tell_seen, Calls, Hunt, Run};
use std::collections::BTreeMap;
use std::sync::{Arc, Mutex};

/// What a spoiled driver does, by the number that tells it to.
const SPOILED: [&str; 9] = [
    "changes the last byte of the constraints",
    "changes the last byte of the times",
    "changes the last byte of the chain",
    "changes the byte before the constraints",
    "changes the byte before the times",
    "changes the byte before the chain",
    "changes the result",
    "changes the number",
    "changes the last of 128 times",
];

/// What a run has found so far.
struct Found {
    calls: Calls,
    /// How many networks the third opinion was asked of.
    by_pairs: u64,
    /// How often each call gave each result.
    seen: BTreeMap<(Kind, u32), u64>,
}

fn shortened(text: String) -> String {
    text.chars().take(2_000).collect()
}

fn told(answer: &Answer) -> String {
    let used = answer.times.iter().rposition(|&time| time != 0).map_or(0, |last| last + 1);
    let (result, number) = (answer.result, answer.number);
    shortened(format!("result {} number {} times {:?} chain {:?}", result, number, &answer.times[..used], answer.chain))
}

/// Makes all calls, and gives each answer with what no call may change and yet was changed.
fn answers(driver: &mut Driver, cases: &[Case]) -> Vec<(Answer, Vec<String>)> {
    driver.answers(cases, |input, case| send(input, &case.call), send_flush, |output, case| receive(output, &case.call))
}

/// Says how the proved call differs from the plain one, if it does. A chain of the plain one has to be right, too.
fn difference(case: &Case, answered: &Answer, changed: &[String]) -> Option<String> {
    let Case { call, expected } = case;
    let is_well = is_right(call, expected, expected) && is_right(call, expected, answered) && changed.is_empty();
    (!is_well).then(|| both_sides(shortened(format!("{:?}", call)), told(answered), told(expected), changed))
}

/// Whether the third opinion was asked of a network.
fn is_asked(case: &Case) -> bool {
    let is_solved = case.expected.result == TIMES || case.expected.result == CHAIN;
    case.call.kind == Kind::Solve && is_solved && case.call.network.events <= network_pairs::EVENTS
}

/// Says how the third opinion differs from the plain one, if it does.
fn other_opinion(case: &Case) -> Option<String> {
    let Case { call, expected } = case;
    let used = call.network.events as usize;
    let plain = Some(expected.times[..used].to_vec()).filter(|_| expected.result == TIMES);
    let third = network_pairs::latest(&call.network);
    Some(format!("DIFFERENCE of the third opinion, {:?}: {:?}", third, call)).filter(|_| third != plain)
}

/// Compares one batch of this number.
fn compare(number: u64, wrong: &[Wrong], cases: &[Case], driver: &mut Driver, found: &Mutex<Found>) {
    let answers = answers(driver, cases);
    let mut hunt = Hunt::new(&found.lock().expect("no thread failed").calls.caught, number);
    let mut faults = Vec::new();
    for (at_call, (case, (answered, changed))) in cases.iter().zip(&answers).enumerate() {
        faults.extend(difference(case, answered, changed));
        faults.extend(Some(case).filter(|case| is_asked(case)).and_then(other_opinion));
        hunt.go_on(at_call, |at| {
            let theirs = given(|| answer(&wrong[at].solver, &case.call));
            theirs.map_or(false, |theirs| is_right(&case.call, &case.expected, &theirs))
        });
    }
    let mut found = found.lock().expect("no thread failed");
    found.calls.add(number, cases.len(), faults, hunt);
    found.by_pairs += cases.iter().filter(|case| is_asked(case)).count() as u64;
    for case in cases {
        *found.seen.entry((case.call.kind, case.expected.result)).or_default() += 1;
    }
}

/// Each result that a call can have.
fn results() -> Vec<(Kind, u32)> {
    let refusals = [REFUSED + OUT_OF_RANGE, REFUSED + ABOVE_LIMIT];
    let of =
        |kind: Kind, others: &[u32]| [others, &refusals[..]].concat().into_iter().map(move |result| (kind, result));
    of(Kind::Solve, &[TIMES, CHAIN, REFUSED + NO_ROOM])
        .chain(of(Kind::Times, &[TIMES, BROKEN]))
        .chain(of(Kind::Chain, &[CHAIN, NO_CHAIN]))
        .collect()
}

/// Makes the calls on so many networks, or a few more, with the command of a driver. Says whether all is well.
fn run(seed: u64, wanted: u64, driver: &[String]) -> bool {
    let wrong = all();
    let nothing = Found { calls: Calls::new(wrong.len()), by_pairs: 0, seen: BTreeMap::new() };
    let run = Run { seed, wanted, what: "networks", size: BATCH, driver };
    let (found, networks) = found_in(&run, nothing, |number, driver, found| {
        compare(number, &wrong, &batch(seed, number), driver, found);
    });
    let spoilers = not_caught(driver, &SPOILED, &batch(1, 0), answers, difference);
    report(&wrong, &found, networks, &spoilers)
}

/// Whether the plain solver gives what the request says of its example.
fn keeps_the_example() -> bool {
    let solved = |last: i64| {
        let network = Arc::new(network_drafts::example(last));
        answer(&RIGHT, &Call { kind: Kind::Solve, network, times: Vec::new(), chain: vec![9; 3] })
    };
    let (times, mut chain) = (solved(-6), solved(-7));
    chain.chain.sort_unstable();
    (times.result, &times.times[..3]) == (TIMES, &[-10, 0, -4])
        && (chain.result, &chain.chain[..]) == (CHAIN, &[0, 1, 2])
}

/// Prints what a run found, and says whether all is well.
fn report(wrong: &[Wrong], found: &Found, networks: u64, spoilers: &[String]) -> bool {
    let names = wrong.iter().map(|wrong| wrong.name);
    let mut faults = faults_of(&found.calls, ("solver", keeps_the_example()), names, spoilers);
    let in_words = |(kind, result): &(Kind, u32)| format!("{:?} with the result {}", kind, result);
    faults.extend(never_seen(results(), &found.seen, in_words));
    tell(&faults);
    tell_seen(&found.seen, |(kind, result)| format!("{:?} {}", kind, result));
    let had = |result: u32| found.seen.get(&(Kind::Solve, result)).copied().unwrap_or(0);
    println!(
        "{} networks, {}, {} networks by pairs, {} with times, {} with a chain, {} refused 15, \
         {} refused 16, {} refused 27",
        networks,
        found.calls.counted("solvers", SPOILED.len(), spoilers.len()),
        found.by_pairs,
        had(TIMES),
        had(CHAIN),
        had(REFUSED + NO_ROOM),
        had(REFUSED + OUT_OF_RANGE),
        had(REFUSED + ABOVE_LIMIT)
    );
    found.calls.differences == 0 && faults.is_empty() && found.by_pairs > 0
}

fn main() {
    run_with_arguments("network SEED NETWORKS DRIVER...", run)
}
