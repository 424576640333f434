//! The proved call for gate lists beside a plain one and beside the proved whole check, all in this process and on the same
//! plans: those of files, and some whose lists take long.
//! Usage: gates-bench ROUNDS PLAN...

// Of the checker and of the drafts, not all is used here.
#![allow(dead_code)]

mod admit;
mod admit_drafts;
mod admit_jump;
mod chance;
mod check;
mod clock;
mod divisors;
mod drafts;
mod format;
mod gates;
mod gates_quick;
mod paper;
mod proved_slice;
mod quick;
mod reasons;
mod rules;
mod shape;

use admit_drafts::{hold, line, put};
use chance::Chance;
use check::{begin, whole, Checker, Plain};
use clock::{median, print_times, time};
use format::{cursor_bytes, plan_bytes, Plan};
use gates::{read, MOST_CYCLE, PAIR_WORDS, RIGHT};
use gates_quick::{cycle, holds, on_link, quick};
use paper::{CURSOR_BYTES, GRANTED, LIMITS, NOTHING_VIOLATED, REFUSED};
use proved_slice::{proved_slice, Answer};
use quick::{Chained, Nested};

extern "C" {
    #[link_name = "conepalhui_gates_3"]
    fn conepalhui_gates(plan: *const u8, plan_len: usize, link: u32, list: *mut u8, list_len: usize) -> Answer;
}

/// Writes the list of a link of the plan of a file.
type Gates = fn(&[u8], u32, &mut [u8]) -> Answer;

fn proved(plan: &[u8], link: u32, list: &mut [u8]) -> Answer {
    // Each pointer comes from a slice together with its length.
    unsafe { conepalhui_gates(plan.as_ptr(), plan.len(), link, list.as_mut_ptr(), list.len()) }
}

fn plain(plan: &[u8], link: u32, list: &mut [u8]) -> Answer {
    match quick(&Nested, plan, link, list.len()) {
        Ok(bytes) => {
            list[..bytes.len()].copy_from_slice(&bytes);
            Answer { result: GRANTED, number: bytes.len() as u32 }
        }
        Err(refusal) => Answer { result: REFUSED + refusal.number, number: refusal.at as u32 },
    }
}

/// The proved whole check, which each list begins with.
fn checked(plan: &[u8], cursor: &[u8]) -> u32 {
    let mut out = [0; CURSOR_BYTES];
    proved_slice(plan, cursor, u32::MAX, &mut out).result
}

const SIDES: [Gates; 2] = [proved, plain];
/// Room for each list.
const LIST_BYTES: usize = 10_240;
/// Lists that take long are timed in so many rounds at the most.
const LONG_ROUNDS: u32 = 3;

/// The list of one link of an accepted plan, its answer, and the times of each side and of the whole check.
struct Timed {
    plan: Vec<u8>,
    cursor: Vec<u8>,
    link: u32,
    expected: Answer,
    list: Vec<u8>,
    times: [Vec<f64>; SIDES.len()],
    whole: Vec<f64>,
}

impl Timed {
    /// Both sides have to give the same, in every byte lent.
    fn new(plan: &Plan, link: u32) -> Timed {
        let (plan, cursor) = (plan_bytes(plan), cursor_bytes(begin(plan)));
        let mut list = vec![0xA5; LIST_BYTES];
        let expected = plain(&plan, link, &mut list);
        for gates in SIDES {
            let mut lent = vec![0xA5; LIST_BYTES];
            let given = gates(&plan, link, &mut lent);
            assert!(given == expected && lent == list, "the sides differ: {:?} and {:?}", given, expected);
        }
        Timed { plan, cursor, link, expected, list, times: Default::default(), whole: Vec::new() }
    }

    fn round(&mut self) {
        let mut list = vec![0; LIST_BYTES];
        for (gates, times) in SIDES.iter().zip(&mut self.times) {
            times.push(time(1, || {
                assert_eq!(gates(&self.plan, self.link, &mut list), self.expected, "an answer changed");
            }));
        }
        self.whole.push(time(1, || {
            assert_eq!(checked(&self.plan, &self.cursor), NOTHING_VIOLATED, "a verdict changed");
        }));
    }

    fn told(&self) -> String {
        match self.expected.result.checked_sub(REFUSED) {
            None => {
                let words = read(&RIGHT, &self.list[..self.expected.number as usize]).expect("a list can be read");
                format!("{} pairs", words.len() / PAIR_WORDS)
            }
            Some(number) => format!("refused {}", number),
        }
    }

    fn print(&self, what: &str) {
        let [proved, plain] = self.times.clone().map(median);
        print_times(what, proved, &[("plain", plain), ("whole", median(self.whole.clone()))]);
    }
}

/// Times the list of a link, and says what it is.
fn bench(name: &str, plan: &Plan, link: u32, what: &str, rounds: u32) {
    let mut timed = Timed::new(plan, link);
    (0..rounds).for_each(|_| timed.round());
    let legs = on_link(plan, link);
    let cycle = match cycle(&legs) {
        Some(cycle) if cycle <= MOST_CYCLE => format!("cycle {} ns, {} holds", cycle, holds(&legs, cycle)),
        _ => "cycle past the limit".to_string(),
    };
    println!("{}: {} legs, {}, {}", name, legs.len(), cycle, timed.told());
    timed.print(what);
}

/// The link of an accepted plan that most legs take.
fn bench_file(file: &str, rounds: u32) {
    let bytes = std::fs::read(file).unwrap_or_else(|fault| panic!("{}: {}", file, fault));
    let plan = Plain.read_plan(&bytes).expect("the numbers of the plans can be read");
    if Plain.judge(&plan).is_err() || whole(&Chained, &plan).result != NOTHING_VIOLATED {
        println!("gate lists of {}: left out, since it is not accepted", file);
        return;
    }
    let legs_on = |link: &u32| plan.legs.iter().filter(|leg| leg.link == *link).count();
    let fullest = (0..plan.links.len() as u32).max_by_key(legs_on).expect("there are links");
    bench(&format!("gate lists of {}, link {}", file, fullest), &plan, fullest, "its gate list", rounds);
}

// ---- Lists that take long

const SHORTEST: u32 = LIMITS.octets.0;

/// Instants that a leg may hold a link at: each so many-th from a first one on, counted in holds of the shortest frame.
#[derive(Clone, Copy)]
struct Class {
    first: u32,
    each: u32,
}

/// One link, with a leg for each class.
fn held_by(classes: &[Class]) -> Plan {
    let mut plan = Plan { revision: 0, precision: 0, links: Vec::new(), streams: Vec::new(), legs: Vec::new() };
    line(&mut plan, &[0]);
    let unit = hold(SHORTEST);
    classes.iter().for_each(|class| put(&mut plan, 0, class.each * unit, SHORTEST, class.first * unit));
    plan
}

/// Shares a class between so many others and one more: each of these takes half of what those before it left.
fn by_halves(mut class: Class, halvings: u32) -> Vec<Class> {
    let mut classes = Vec::new();
    for _ in 0..halvings {
        classes.push(Class { each: 2 * class.each, ..class });
        class = Class { first: class.first + class.each, each: 2 * class.each };
    }
    classes.push(class);
    classes
}

/// A link that is held all the time, by legs each of which comes half as often as the one before it.
fn halves() -> Plan {
    held_by(&by_halves(Class { first: 0, each: 1 }, 20))
}

/// The same, but that 497 legs of one period come first and share all but the last place of it.
fn places_and_halves() -> Plan {
    let place = |first| Class { first, each: 498 };
    let mut classes: Vec<Class> = (0..497).map(place).collect();
    classes.extend(by_halves(place(497), 11));
    held_by(&classes)
}

/// A link that is held all the time, where most holds are followed by one of a leg with a lower offset: of four places in a
/// row the first is shared by many legs, each next one by fewer. Whoever passes over the legs in the order of their offsets,
/// and moves on from the end of each hold, has to begin anew after most holds.
fn falling() -> Plan {
    let shared_by = [449, 46, 9, 1];
    let places = shared_by.len() as u32;
    let mut classes = Vec::new();
    for (place, legs) in (0..places).zip(shared_by) {
        classes.extend((0..legs).map(|at| Class { first: place + places * at, each: places * legs }));
    }
    let halved = classes.remove(0);
    classes.extend(by_halves(halved, 2));
    held_by(&classes)
}

/// The most legs, each link taken by 512 of one period, end to end.
fn full_line() -> Plan {
    let mut plan = drafts::full_line(&mut Chance::new(1, 0));
    plan.streams.iter_mut().for_each(|stream| stream.period = 1_000_000);
    plan
}

/// As many holds as make the most pairs, and none of them touches another.
fn apart() -> Plan {
    held_by(&(0..512).map(|at| Class { first: 2 * at, each: 1_024 }).collect::<Vec<_>>())
}

/// Two legs whose list has too many pairs, in the longest cycle.
fn many() -> Plan {
    let mut plan = held_by(&[]);
    put(&mut plan, 0, 4_000, SHORTEST, 0);
    put(&mut plan, 0, LIMITS.period.1, SHORTEST, 1_000);
    plan
}

fn main() {
    let arguments: Vec<String> = std::env::args().skip(1).collect();
    let rounds = arguments.first().and_then(|text| text.parse().ok()).expect("usage: gates-bench ROUNDS PLAN...");
    arguments[1..].iter().for_each(|file| bench_file(file, rounds));
    let long = [
        ("halves", halves()),
        ("places and halves", places_and_halves()),
        ("falling offsets", falling()),
        ("a full line", full_line()),
        ("holds apart", apart()),
        ("too many pairs", many()),
    ];
    for (name, plan) in long {
        bench(&format!("long gate lists, {}", name), &plan, 0, "the list of a full cycle", rounds.min(LONG_ROUNDS));
    }
}
