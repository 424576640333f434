//! The proved check beside two quick ones, all in this process and on the same plans; the proved recheck beside a plain one
//! and beside the whole check; and ways to find divisors.
//! Usage: bench ROUNDS PLAN...

// Of the checker, the benchmark uses the slice alone, and of the recheckers the right one.
#![allow(dead_code)]

mod chance;
mod check;
mod clock;
mod divisors;
mod format;
mod paper;
mod proved_slice;
mod quick;
mod reasons;
mod recheck;
mod recheck_quick;
mod recheck_times;
mod rules;
mod shape;

use check::{begin, host_slice, packed, Checker, Plain};
use clock::{median, print_times, time};
use divisors::{Pair, IN_USE, METHODS};
use format::{cursor_bytes, Cursor, Plan};
use paper::{CURSOR_BYTES, NOTHING_VIOLATED, REFUSED};
use proved_slice::proved_slice;
use quick::{asked, Chained, Nested};
use recheck_times::Rechecks;

fn proved(plan: &[u8], cursor: &[u8], budget: u32, out: &mut [u8]) -> u64 {
    let answer = proved_slice(plan, cursor, budget, out);
    packed(answer.result, answer.number.into())
}

fn plain(plan: &[u8], cursor: &[u8], budget: u32, out: &mut [u8]) -> u64 {
    host_slice(&Nested, plan, cursor, budget, out)
}

fn same(plan: &[u8], cursor: &[u8], budget: u32, out: &mut [u8]) -> u64 {
    host_slice(&Chained, plan, cursor, budget, out)
}

fn place_by_place(plan: &[u8], cursor: &[u8], budget: u32, out: &mut [u8]) -> u64 {
    host_slice(&Plain, plan, cursor, budget, out)
}

/// A slice of a plan from a cursor on. It gives the result and, in the high bits, the steps.
type Slice = fn(&[u8], &[u8], u32, &mut [u8]) -> u64;

const SIDES: [Slice; 3] = [proved, plain, same];

/// One kind of call on a plan, its answer, and the times of each side.
struct Timed {
    what: &'static str,
    cursor: Vec<u8>,
    budget: u32,
    answer: u64,
    calls: u32,
    times: [Vec<f64>; SIDES.len()],
}

impl Timed {
    /// All sides have to give what the checker of the comparison gives: result, steps and the cursor's bytes.
    fn new(what: &'static str, plan: &[u8], from: Cursor, budget: u32, calls: u32) -> Timed {
        let cursor = cursor_bytes(from);
        let given = |slice: Slice| {
            let mut out = [0; CURSOR_BYTES];
            (slice(plan, &cursor, budget, &mut out), out)
        };
        let expected = given(place_by_place);
        for slice in SIDES {
            assert_eq!(given(slice), expected, "the sides differ: {}", what);
        }
        Timed { what, cursor, budget, answer: expected.0, calls, times: Default::default() }
    }

    fn result(&self) -> u32 {
        self.answer as u32
    }

    fn round(&mut self, plan: &[u8]) {
        let mut out = [0; CURSOR_BYTES];
        for (slice, times) in SIDES.iter().zip(&mut self.times) {
            times.push(time(self.calls, || {
                assert_eq!(slice(plan, &self.cursor, self.budget, &mut out), self.answer, "an answer changed");
            }));
        }
    }

    fn medians(&self) -> [f64; SIDES.len()] {
        self.times.clone().map(median)
    }

    fn print(&self) {
        let [proved, plain, same] = self.medians();
        print_times(self.what, proved, &[("plain", plain), ("same", same)]);
    }
}

/// The pairs of periods whose divisors a whole check takes, and the times that each method takes for all of them.
struct Divisors {
    pairs: Vec<Pair>,
    sum: u64,
    times: [Vec<f64>; METHODS.len()],
}

impl Divisors {
    fn new(pairs: Vec<Pair>) -> Divisors {
        divisors::compare(pairs.iter().copied());
        let sum = (METHODS[0].sum)(&pairs);
        Divisors { pairs, sum, times: Default::default() }
    }

    fn round(&mut self) {
        for (method, times) in METHODS.iter().zip(&mut self.times) {
            times.push(time(1, || assert_eq!((method.sum)(&self.pairs), self.sum, "{} is wrong", method.name)));
        }
    }

    /// Prints the mean time of each method and, for the one in use, its share of the proved whole check.
    fn print(&self, whole: f64) {
        for (method, times) in METHODS.iter().zip(&self.times) {
            let all = median(times.clone());
            let share = format!("  in use: {:.3} of the whole check", all / whole);
            let said = if method.name == IN_USE { &share } else { "" };
            println!("  {:<32} {:>9.2} ns{}", format!("by {}", method.name), all / self.pairs.len() as f64, said);
        }
    }
}

/// How many pairs of legs share a link.
fn pairs_on_links(plan: &Plan) -> u64 {
    let (mut legs, mut pairs) = (vec![0; plan.links.len()], 0);
    for leg in &plan.legs {
        pairs += legs[leg.link as usize];
        legs[leg.link as usize] += 1;
    }
    pairs
}

/// Times an accepted plan, all kinds of calls in each round and the sides in turn.
fn bench(name: &str, bytes: &[u8], rounds: u32) {
    let plan = Plain.read_plan(bytes).expect("the numbers of the plans can be read");
    let whole = Timed::new("whole check", bytes, begin(&plan), u32::MAX, 1);
    if whole.result() != NOTHING_VIOLATED {
        println!("{}: left out, since it is {}", name, if whole.result() < REFUSED { "violated" } else { "refused" });
        return;
    }
    let half = Cursor { leg: plan.legs.len() as u32 / 2, ..begin(&plan) };
    let resumed = |what, budget| Timed::new(what, bytes, half, budget, 10);
    let mut kinds = [whole, resumed("resumed, budget 0", 0), resumed("resumed, budget 300", 300)];
    let mut rechecks = Rechecks::new(bytes, plan.legs.len() as u32);
    let mut divisors = Divisors::new(asked(&plan, begin(&plan)));
    for _ in 0..rounds {
        kinds.iter_mut().for_each(|kind| kind.round(bytes));
        rechecks.round(bytes);
        divisors.round();
    }
    let (links, legs) = (plan.links.len(), plan.legs.len());
    println!("{}: {} links, {} legs, {} places, {} bytes", name, links, legs, Plain.places(legs as u64), bytes.len());
    print_found(&kinds, &rechecks, &divisors, pairs_on_links(&plan));
}

fn print_found(kinds: &[Timed; 3], rechecks: &Rechecks, divisors: &Divisors, pairs: u64) {
    kinds.iter().for_each(Timed::print);
    rechecks.print(kinds[0].medians()[0]);
    let (whole, fixed) = (kinds[0].medians(), kinds[1].medians());
    let [proved, plain, same] = [0, 1, 2].map(|side| (whole[side] - fixed[side]) / pairs as f64);
    let what = "a pair that shares a link";
    println!("  {:<32} proved {:>9.2} ns  plain {:>9.2} ns  same {:>9.2} ns", what, proved, plain, same);
    println!("  {:<32} {:>9} for {} pairs that share a link", "divisors", divisors.pairs.len(), pairs);
    if !divisors.pairs.is_empty() {
        divisors.print(whole[0]);
    }
}

fn main() {
    let arguments: Vec<String> = std::env::args().skip(1).collect();
    let rounds = arguments.first().and_then(|text| text.parse().ok()).expect("usage: bench ROUNDS PLAN...");
    divisors::test();
    for file in &arguments[1..] {
        let bytes = std::fs::read(file).unwrap_or_else(|fault| panic!("{}: {}", file, fault));
        bench(file, &bytes, rounds);
    }
}
