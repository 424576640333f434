//! The proved admission beside two quick ones, all in this process and on the same plans: full ones with usual periods, and
//! two on which the search goes on for long.
//! Usage: admit-bench ROUNDS PLAN...

// Of the checker and of the drafts, not all is used here.
#![allow(dead_code)]

mod admit;
mod admit_drafts;
mod admit_jump;
mod admit_quick;
mod admit_seen;
mod chance;
mod check;
mod clock;
mod divisors;
mod drafts;
mod format;
mod paper;
mod quick;
mod reasons;
mod rules;
mod shape;

use admit::{answer, enlarge, Answer, Call, Wanted, ADMITTED, JUMPING, NO_SLOT};
use admit_drafts::{along, hold, line, put, take_last};
use admit_quick::quick;
use check::{whole, Checker, Plain};
use clock::{median, print_times, time};
use drafts::longest_deadline;
use format::{plan_bytes, Plan};
use paper::{LIMITS, NOTHING_VIOLATED, NUMBER_BYTES, REFUSED};
use quick::{Chained, Nested};
use std::sync::Arc;

/// What a call for C gives.
#[repr(C)]
struct Admission {
    result: u32,
    number: u32,
    offset: u32,
}

extern "C" {
    #[link_name = "conepalhui_admit_3"]
    fn conepalhui_admit(
        plan: *const u8,
        plan_len: usize,
        route: *const u32,
        route_len: usize,
        period: u32,
        deadline: u32,
        octets: u32,
        new_plan: *mut u8,
        new_plan_len: usize,
    ) -> Admission;
}

/// Admits a stream to the plan of a file, and writes the new one.
type Admit = fn(&[u8], &Wanted, &mut [u8]) -> Admission;

fn proved(plan: &[u8], wanted: &Wanted, new_plan: &mut [u8]) -> Admission {
    let Wanted { ref route, period, deadline, octets } = *wanted;
    // Each pointer comes from a slice together with its length.
    unsafe {
        let (lent, lent_len) = (new_plan.as_mut_ptr(), new_plan.len());
        let (plan, plan_len, links, count) = (plan.as_ptr(), plan.len(), route.as_ptr(), route.len());
        conepalhui_admit(plan, plan_len, links, count, period, deadline, octets, lent, lent_len)
    }
}

fn by<C: Checker>(checker: &C, plan: &[u8], wanted: &Wanted, new_plan: &mut [u8]) -> Admission {
    match quick(checker, plan, wanted, new_plan.len()) {
        Ok((bytes, offset)) => {
            new_plan[..bytes.len()].copy_from_slice(&bytes);
            Admission { result: ADMITTED, number: bytes.len() as u32, offset }
        }
        Err(refusal) => Admission { result: REFUSED + refusal.number, number: refusal.at as u32, offset: 0 },
    }
}

fn plain(plan: &[u8], wanted: &Wanted, new_plan: &mut [u8]) -> Admission {
    by(&Nested, plan, wanted, new_plan)
}

fn same(plan: &[u8], wanted: &Wanted, new_plan: &mut [u8]) -> Admission {
    by(&Chained, plan, wanted, new_plan)
}

const SIDES: [Admit; 3] = [proved, plain, same];
/// Searches that go on for long are timed in so many rounds at the most.
const LONG_ROUNDS: u32 = 3;

/// An admission, its answer, and the times of each side.
struct Timed {
    what: &'static str,
    call: Call,
    expected: Answer,
    times: [Vec<f64>; SIDES.len()],
}

impl Timed {
    /// All sides have to give what the admitter of the comparison gives: result, number, offset and every byte lent.
    fn new(what: &'static str, plan: &Plan, wanted: Wanted) -> Timed {
        let lent = NUMBER_BYTES * enlarge(plan, &wanted).words().len();
        let (plan, wanted) = (plan_bytes(plan).into(), Arc::new(wanted));
        let call = Call { plan, wanted, between: None, new_plan: vec![0xA5; lent] };
        let expected = answer(&JUMPING, &call);
        for admit in SIDES {
            let mut new_plan = call.new_plan.clone();
            let Admission { result, number, offset } = admit(&call.plan, &call.wanted, &mut new_plan);
            assert!(Answer { result, number, offset, new_plan } == expected, "the sides differ: {}", what);
        }
        Timed { what, call, expected, times: Default::default() }
    }

    fn round(&mut self) {
        let mut new_plan = self.call.new_plan.clone();
        for (admit, times) in SIDES.iter().zip(&mut self.times) {
            times.push(time(1, || {
                let result = admit(&self.call.plan, &self.call.wanted, &mut new_plan).result;
                assert_eq!(result, self.expected.result, "an answer changed");
            }));
        }
    }

    fn told(&self) -> String {
        match self.expected.result.checked_sub(REFUSED) {
            None => format!("{}: slot at {} ns", self.what, self.expected.offset),
            Some(NO_SLOT) => format!("{}: no slot", self.what),
            Some(number) => format!("{}: refused {}", self.what, number),
        }
    }

    fn print(&self) {
        let [proved, plain, same] = self.times.clone().map(median);
        print_times(self.what, proved, &[("plain", plain), ("same", same)]);
    }
}

fn bench(name: &str, plan: &Plan, mut kinds: Vec<Timed>, rounds: u32) {
    for _ in 0..rounds {
        kinds.iter_mut().for_each(Timed::round);
    }
    let told: Vec<String> = kinds.iter().map(Timed::told).collect();
    println!("{}: {} streams, {} legs; {}", name, plan.streams.len(), plan.legs.len(), told.join(", "));
    kinds.iter().for_each(Timed::print);
}

/// Takes the last stream out of an accepted plan, or as many as leave room for the longest route, and admits it again: as it
/// was, with the longest frame, and with a deadline that no offset keeps.
fn bench_file(file: &str, rounds: u32) {
    let bytes = std::fs::read(file).unwrap_or_else(|fault| panic!("{}: {}", file, fault));
    let mut plan = Plain.read_plan(&bytes).expect("the numbers of the plans can be read");
    if Plain.judge(&plan).is_err() || whole(&Chained, &plan).result != NOTHING_VIOLATED {
        println!("admissions to {}: left out, since it is not accepted", file);
        return;
    }
    let mut last = take_last(&mut plan);
    while plan.legs.len() + LIMITS.route.1 as usize > LIMITS.legs as usize {
        last = take_last(&mut plan);
    }
    let again = last.expect("there are streams");
    let long = Wanted { octets: LIMITS.octets.1, deadline: longest_deadline(again.period), ..again.clone() };
    let missed = Wanted { deadline: 1, ..again.clone() };
    let kinds = [("its last stream", again), ("with the longest frame", long), ("with a missed deadline", missed)];
    let kinds = kinds.map(|(what, wanted)| Timed::new(what, &plan, wanted)).into();
    bench(&format!("admissions to {}", file), &plan, kinds, rounds);
}

fn empty() -> Plan {
    Plan { revision: 0, precision: 0, links: Vec::new(), streams: Vec::new(), legs: Vec::new() }
}

/// The shortest frame with the longest period along the first links of a line.
fn seldom(plan: &Plan, hops: u32) -> Wanted {
    let period = LIMITS.period.1;
    Wanted { route: along(plan, 0..hops), period, deadline: longest_deadline(period), octets: LIMITS.octets.0 }
}

/// Two links whose old legs come every 1,600 and 2,000 ns and leave the new one 8 ns more than it needs. Its first offset,
/// divided by 400, would have to leave 120 to 128 for the one and 344 to 352 for the other. The third link has many legs, of
/// which each candidate is asked.
fn two_divisors() -> Plan {
    let mut plan = empty();
    line(&mut plan, &[0, 0, 0]);
    put(&mut plan, 0, 1_600, 95, 0);
    put(&mut plan, 1, 2_000, 145, 0);
    for at in 0..250 {
        put(&mut plan, 2, LIMITS.period.1, LIMITS.octets.0, 4_000_000 * at);
    }
    plan
}

/// A link that is full of legs every millisecond, the last one first.
fn descending() -> Plan {
    let mut plan = empty();
    line(&mut plan, &[0]);
    let (octets, period) = (470, 1_000_000);
    let count = period / hold(octets);
    for at in (0..count).rev() {
        put(&mut plan, 0, period, octets, at * hold(octets));
    }
    plan
}

fn main() {
    let arguments: Vec<String> = std::env::args().skip(1).collect();
    let rounds = arguments.first().and_then(|text| text.parse().ok()).expect("usage: admit-bench ROUNDS PLAN...");
    arguments[1..].iter().for_each(|file| bench_file(file, rounds));
    for (name, plan, hops) in [("two divisors", two_divisors(), 3), ("a full link", descending(), 1)] {
        let timed = Timed::new("the longest period", &plan, seldom(&plan, hops));
        bench(&format!("long searches, {}", name), &plan, vec![timed], rounds.min(LONG_ROUNDS));
    }
}
