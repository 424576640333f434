//! Holds the proved calls that explain a plan against the plain explainer, and shows that wrong ones are caught.
//! Usage: explain SEED TABLES DRIVER...
//!
//! The driver is that of explain_driver.c. The calls are on so many tables, or a few more.

// Of the checker and of the drafts, not all is used here.
#![allow(dead_code)]

mod admit;
mod admit_cases;
mod admit_drafts;
mod admit_jump;
mod chance;
mod check;
mod damage;
mod drafts;
mod driver;
mod explain;
mod explain_calls;
mod explain_cases;
mod explain_drafts;
mod explain_far;
mod explain_seen;
mod explain_wrong;
mod fail;
mod format;
mod paper;
mod reasons;
mod report;
mod rules;
mod shape;

use check::{Checker, Plain};
use driver::{not_caught, Driver};
use explain::{
    by_instants, cycle, is_overlap, is_tried, is_walked, meet, repeats_of_a_cycle, slot, tells, Answer, Call, Kind,
    Met, Near, Slot, Spare, Told, NUMBERS, RIGHT,
};
use explain_calls::{receive, send, send_flush};
use explain_cases::{batch, Case, BATCH};
use explain_far::{by_remainders, from_candidates};
use explain_seen::{edges, seen};
use explain_wrong::{all, Wrong};
use fail::given;
use format::{plan_bytes, Plan};
use paper::REFUSED;
use report::{both_sides, faults_of, found_in, hex, never_seen, run_with_arguments, tell, Calls, Hunt, Run};
use std::collections::BTreeMap;
use std::sync::Mutex;

/// What a spoiled driver does, by the number that tells it to.
const SPOILED: [&str; 4 + NUMBERS] = [
    "changes the last byte of the plan",
    "changes the last byte of the places",
    "changes the byte before the plan",
    "changes the byte before the places",
    "changes the result",
    "changes the position",
    "changes the third number",
    "changes the fourth number",
    "changes the fifth number",
    "changes the sixth number",
    "changes the seventh number",
    "changes the eighth number",
    "changes the ninth number",
    "changes the tenth number",
    "changes the eleventh number",
    "changes the twelfth number",
];

/// How often something was done.
type Counts = BTreeMap<String, u64>;

/// What a run has found so far.
#[derive(Default)]
struct Found {
    calls: Calls,
    /// How often each kind of call was made, and told in a second and a third way.
    ways: Counts,
    edges: Counts,
    violated: u64,
}

fn described(case: &Case) -> String {
    let Call { kind, leg, second, plan } = &case.call;
    format!("{:?} leg {} and {}, plan [{}]", kind, leg, second, hex(plan))
}

fn shown(told: &Told) -> String {
    format!("{:?} {:?}", told.numbers, told.places.iter().take(60).collect::<Vec<_>>())
}

/// Makes all calls, and gives what each told, with what no call may change and yet was changed.
fn answers(driver: &mut Driver, cases: &[Case]) -> Vec<(Told, Vec<String>)> {
    driver.answers(
        cases,
        |input, case| send(input, &case.call, case.room()),
        send_flush,
        |output, case| receive(output, &case.call, case.room()),
    )
}

/// Says how the proved call differs from the plain one, if it does. The words that are lent for more places stay 0.
fn difference(case: &Case, told: &Told, changed: &[String]) -> Option<String> {
    let mut expected = case.expected.clone();
    expected.places.resize(case.room(), 0);
    let differs = *told != expected || !changed.is_empty();
    differs.then(|| both_sides(described(case), shown(told), shown(&case.expected), changed))
}

// ---- A second and a third way

/// So many instants are looked at one by one, at the most, and at so many repeats in each.
const INSTANTS: u64 = 6_000;
const REPEATS: u64 = 40;

/// What one batch shows.
#[derive(Default)]
struct Shown {
    faults: Vec<String>,
    ways: Counts,
    edges: Counts,
    violated: u64,
}

impl Shown {
    fn count(&mut self, way: &str) {
        *self.ways.entry(way.to_string()).or_default() += 1;
    }

    /// Holds what was told in one way against what another tells.
    fn same<T: PartialEq + std::fmt::Debug>(&mut self, case: &Case, way: &str, one: T, other: T) {
        self.count(way);
        if one != other {
            self.faults.push(format!("DIFFERENCE {}: {:?} and {:?}: {}", way, one, other, described(case)));
        }
    }

    fn judge(&mut self, case: &Case, told: &Told, changed: &[String]) {
        self.faults.extend(difference(case, told, changed));
        for name in seen(case) {
            *self.edges.entry(name).or_default() += 1;
        }
        self.count(match case.call.kind {
            Kind::Meeting => "meetings",
            Kind::Margin => "margins",
            Kind::Nearest => "nearest offsets",
            Kind::Survey => "surveys",
        });
        let (leg, second) = (case.call.leg as usize, case.call.second);
        match &case.answer {
            Answer::Refused(_) => self.count("refused"),
            Answer::Survey(found) => self.violated += found.len() as u64,
            Answer::Meeting(met) => self.meeting(case, &read(case), leg, second as usize, *met),
            Answer::Margin(_, _, spare) => self.margin(case, &read(case), leg, second, *spare),
            Answer::Nearest(near) => self.nearest(case, &read(case), leg, second, *near),
        }
    }

    fn meeting(&mut self, case: &Case, plan: &Plan, leg: usize, other: usize, met: Option<Met>) {
        if plan.legs[leg].link != plan.legs[other].link {
            return;
        }
        let [a, b] = [leg, other].map(|leg| slot(&RIGHT, plan, leg));
        if is_walked(&a, &b) {
            self.same(case, "meetings walked and by remainders", met, by_remainders(&a, &b));
        }
        let instants = a.offset.max(b.offset) + cycle(&a, &b);
        if instants <= INSTANTS && repeats_of_a_cycle(&a, &b) <= REPEATS {
            self.same(case, "meetings instant by instant", met, by_instants(&a, &b));
        }
        let turned = met.map(|Met { first, second, instant }| Met { first: second, second: first, instant });
        self.same(case, "meetings the other way round", turned, meet(&b, &a));
    }

    /// A place is violated where something lacks; and two legs of one link meet just there.
    fn margin(&mut self, case: &Case, plan: &Plan, leg: usize, place: u32, spare: Spare) {
        let is_kept = !matches!(spare, Spare::Lacks(_));
        self.same(case, "margins beside a check", is_kept, Plain.holds(plan, leg, place));
        if is_overlap(place) {
            let met = (RIGHT.meeting)(&RIGHT, plan, leg, place as usize - 3);
            self.same(case, "margins beside meetings", is_kept, met.is_none());
        }
    }

    fn nearest(&mut self, case: &Case, plan: &Plan, leg: usize, place: u32, near: Near) {
        if is_tried(plan, leg) {
            self.same(
                case,
                "nearest offsets tried and from candidates",
                near,
                from_candidates(&RIGHT, plan, leg, place),
            );
        }
    }
}

fn read(case: &Case) -> Plan {
    Plain.read_plan(&case.call.plan).expect("a plan that is not refused reads")
}

/// Compares one batch of this number.
fn compare(number: u64, wrong: &[Wrong], cases: &[Case], driver: &mut Driver, found: &Mutex<Found>) {
    let answers = answers(driver, cases);
    let mut hunt = Hunt::new(&found.lock().expect("no thread failed").calls.caught, number);
    let mut shown = Shown::default();
    for (at_call, (case, (told, changed))) in cases.iter().zip(&answers).enumerate() {
        shown.judge(case, told, changed);
        hunt.go_on(at_call, |at| {
            let Wrong { explainer, of, .. } = &wrong[at];
            of.map_or(false, |kind| kind != case.call.kind)
                || given(|| tells(explainer, &case.call)).as_ref() == Some(&case.expected)
        });
    }
    let mut found = found.lock().expect("no thread failed");
    found.calls.add(number, cases.len(), shown.faults, hunt);
    found.violated += shown.violated;
    add(&mut found.ways, shown.ways);
    add(&mut found.edges, shown.edges);
}

fn add(to: &mut Counts, more: Counts) {
    for (name, times) in more {
        *to.entry(name).or_default() += times;
    }
}

/// Makes the calls on so many tables, or a few more, with the command of a driver. Says whether all is well.
fn run(seed: u64, wanted: u64, driver: &[String]) -> bool {
    let wrong = all();
    let nothing = Found { calls: Calls::new(wrong.len()), ..Found::default() };
    let run = Run { seed, wanted, what: "tables", size: BATCH, driver };
    let (found, tables) = found_in(&run, nothing, |number, driver, found| {
        compare(number, &wrong, &batch(seed, number), driver, found);
    });
    let spoilers = not_caught(driver, &SPOILED, &batch(1, 0), answers, difference);
    report(&wrong, &found, tables, &spoilers)
}

/// Whether the plain explainer tells what one counts by hand. Plan A has legs 0 and 2 on link 0, both at 0, and leg 1 at 1,176 on
/// link 1, which is the time at which leg 0 is ready. Its periods are 100,000 ns and, of leg 2, 150,000 ns.
fn keeps_the_examples() -> bool {
    let plan = drafts::plan_a();
    let at = |offset: u32| {
        let mut moved = plan.clone();
        moved.legs[2].offset = offset;
        moved
    };
    let asked = |kind, plan: &Plan, leg, second| {
        let Told { numbers, places } = tells(&RIGHT, &Call { kind, plan: plan_bytes(plan).into(), leg, second });
        [numbers.to_vec(), places.into_iter().map(u64::from).collect()].concat()
    };
    let is = |told: Vec<u64>, numbers: &[u64]| told.len() >= numbers.len() && told[..numbers.len()] == *numbers;
    let long = |offset, period, hold| Slot { offset, period, hold };
    is(asked(Kind::Meeting, &plan, 2, 0), &[1, 0, 0, 0, 0])
        && is(asked(Kind::Meeting, &at(50_000), 2, 0), &[1, 0, 1, 2, 200_000])
        && is(asked(Kind::Meeting, &at(672), 2, 0), &[0, 0, 0, 0, 0])
        && is(asked(Kind::Meeting, &plan, 1, 0), &[0, 0, 0, 0, 0])
        && is(asked(Kind::Meeting, &plan, 3, 0), &[u64::from(REFUSED) + 10, 0, 0, 0, 0])
        && is(asked(Kind::Margin, &plan, 2, 3), &[5, 0, 5, 1, 0, 672, 0, 0, 50_000, 0, 672, 672])
        && is(asked(Kind::Margin, &plan, 1, 1), &[0, 0, 3, 1, 0, 0, 1_176, 1_176])
        && is(asked(Kind::Margin, &plan, 0, 1), &[0, 0, 3, 0, 0, 0])
        && is(asked(Kind::Margin, &plan, 2, 5), &[u64::from(REFUSED) + 9, 0, 0, 0])
        && is(asked(Kind::Nearest, &plan, 2, 3), &[0, 0, 0, 0, 1, 672])
        && is(asked(Kind::Nearest, &at(149_328), 2, 4), &[0, 0, 1, 149_327, 0, 0])
        && asked(Kind::Survey, &plan, 0, 1) == [&[0, 1][..], &[0; 10], &[2, 3, 5]].concat()
        && by_remainders(&long(0, 1_000_000_000, 1), &long(999_999_999, 999_999_999, 1))
            == Some(Met { first: 999_999_999, second: 999_999_999, instant: 999_999_999_000_000_000 })
}

/// Prints what a run found, and says whether all is well.
fn report(wrong: &[Wrong], found: &Found, tables: u64, spoilers: &[String]) -> bool {
    let names = wrong.iter().map(|wrong| wrong.name.as_str());
    let mut faults = faults_of(&found.calls, ("explainer", keeps_the_examples()), names, spoilers);
    faults.extend(never_seen(edges(), &found.edges, String::clone));
    tell(&faults);
    for edge in edges() {
        println!("met {} times: {}", found.edges.get(&edge).unwrap_or(&0), edge);
    }
    let ways: Vec<String> = found.ways.iter().map(|(way, times)| format!("{} {}", times, way)).collect();
    println!(
        "{} tables, {}, {} violated places, {}",
        tables,
        found.calls.counted("explainers", SPOILED.len(), spoilers.len()),
        found.violated,
        ways.join(", ")
    );
    found.calls.differences == 0 && faults.is_empty()
}

fn main() {
    run_with_arguments("explain SEED TABLES DRIVER...", run)
}
