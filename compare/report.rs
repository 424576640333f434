//! What the comparisons share: the run in batches, the hunt for what is wrong on purpose, and what is told of both.

use crate::driver::{in_batches, Driver};
use crate::fail::fail_silently;
use std::collections::BTreeMap;
use std::sync::Mutex;

/// So many differences are told at the most.
const SHOWN: usize = 5;

/// The first call that caught something wrong: the number of its batch, and its own in the batch.
pub type First = Option<(u64, usize)>;

/// What is wrong on purpose and at large in a batch, and what was caught in it, each with the number of the call.
pub struct Hunt {
    pub at_large: Vec<usize>,
    caught: Vec<(usize, usize)>,
}

impl Hunt {
    /// Begins in the batch of this number, with all that no batch before it has caught.
    pub fn new(known: &[First], number: u64) -> Hunt {
        let at_large = |at: &usize| known[*at].map_or(true, |(batch, _)| batch > number);
        Hunt { at_large: (0..known.len()).filter(at_large).collect(), caught: Vec::new() }
    }

    /// Goes on with one call, which catches what does not escape.
    pub fn go_on(&mut self, call: usize, escapes: impl Fn(usize) -> bool) {
        let caught = &mut self.caught;
        self.at_large.retain(|&at| {
            let escapes = escapes(at);
            if !escapes {
                caught.push((at, call));
            }
            escapes
        });
    }

    /// Notes the first call that caught each.
    pub fn end(self, known: &mut [First], number: u64) {
        for (at, call) in self.caught {
            known[at] = known[at].into_iter().chain(Some((number, call))).min();
        }
    }
}

/// The calls of a run: how many there were, where they differ, and what they caught.
#[derive(Default)]
pub struct Calls {
    made: u64,
    pub differences: u64,
    shown: Vec<String>,
    /// For each wrong one, by its number.
    pub caught: Vec<First>,
}

impl Calls {
    /// None yet, with so many wrong ones to be caught.
    pub fn new(wrong: usize) -> Calls {
        Calls { caught: vec![None; wrong], ..Calls::default() }
    }

    /// Adds those of the batch of this number, and their differences.
    pub fn add(&mut self, number: u64, made: usize, differences: Vec<String>, hunt: Hunt) {
        self.made += made as u64;
        self.differences += differences.len() as u64;
        let room = SHOWN.saturating_sub(self.shown.len());
        self.shown.extend(differences.into_iter().take(room));
        hunt.end(&mut self.caught, number);
    }

    /// Tells some of the differences.
    pub fn tell_differences(&self) {
        tell(&self.shown);
    }

    /// Counts them and what they caught, in words.
    pub fn counted(&self, wrong: &str, spoiled: usize, spoilers_at_large: usize) -> String {
        format!(
            "{} calls, {} differences, {} of {} wrong {} and {} of {} spoiled drivers caught",
            self.made,
            self.differences,
            self.caught.iter().flatten().count(),
            self.caught.len(),
            wrong,
            spoiled - spoilers_at_large,
            spoiled
        )
    }
}

/// Runs a comparison as its arguments say, and ends the program: with 0 where all is well.
pub fn run_with_arguments(usage: &str, run: fn(u64, u64, &[String]) -> bool) -> ! {
    fail_silently();
    let arguments: Vec<String> = std::env::args().skip(1).collect();
    let number = |at: usize| arguments.get(at).and_then(|text| text.parse().ok());
    std::process::exit(match (number(0), number(1)) {
        (Some(seed), Some(wanted)) if arguments.len() > 2 => i32::from(!run(seed, wanted, &arguments[2..])),
        _ => {
            eprintln!("usage: {}", usage);
            4
        }
    })
}

/// What a run compares: so many of a kind that are wanted, in whole batches of a size, with the command of a driver.
pub struct Run<'a> {
    pub seed: u64,
    pub wanted: u64,
    pub what: &'a str,
    pub size: usize,
    pub driver: &'a [String],
}

/// Compares the batches of a run, each by its number. Gives what was found in them, and how many of a kind they had.
pub fn found_in<F: Send>(run: &Run, nothing: F, compare: impl Fn(u64, &mut Driver, &Mutex<F>) + Sync) -> (F, u64) {
    let Run { seed, wanted, what, driver, .. } = *run;
    let size = run.size as u64;
    let batches = (wanted + size - 1) / size;
    println!("seed {}, {} {} in batches of {}", seed, batches * size, what, size);
    let found = Mutex::new(nothing);
    in_batches(driver, batches, |driver, number| compare(number, driver, &found));
    (found.into_inner().expect("no thread failed"), batches * size)
}

/// Bytes, as a report shows them: the first ones.
pub fn hex(bytes: &[u8]) -> String {
    let shown: Vec<String> = bytes.iter().take(600).map(|byte| format!("{:02X}", byte)).collect();
    format!("{}{}", shown.join(" "), if bytes.len() > 600 { " ..." } else { "" })
}

/// Says how the two sides answer a call, and what no call may change and yet was changed.
pub fn both_sides(call: String, proved: String, plain: String, changed: &[String]) -> String {
    format!("DIFFERENCE: {}\n    proved: {}\n    plain:  {}\n    {}", call, proved, plain, changed.join(", "))
}

pub fn tell(lines: &[String]) {
    for line in lines {
        println!("{}", line);
    }
}

/// Tells the first call that caught something wrong. Where there is none, that is a fault.
pub fn tell_caught(first: First, name: &str, faults: &mut Vec<String>) {
    match first {
        Some((batch, call)) => println!("caught in call {} of batch {}: {}", call + 1, batch + 1, name),
        None => faults.push(format!("NOT CAUGHT: {}", name)),
    }
}

/// Begins the report of a run: tells its differences, and what caught each wrong one. Gives its faults so far: a plain side that
/// is not what one counts by hand, and all that was not caught.
pub fn faults_of<'a>(
    calls: &Calls,
    (plain, is_right): (&str, bool),
    wrong: impl Iterator<Item = &'a str>,
    spoilers: &[String],
) -> Vec<String> {
    calls.tell_differences();
    let mut faults = Vec::new();
    if !is_right {
        faults.push(format!("DIFFERENCE of the plain {} from what is counted by hand", plain));
    }
    for (name, &first) in wrong.zip(&calls.caught) {
        tell_caught(first, name, &mut faults);
    }
    faults.extend_from_slice(spoilers);
    faults
}

/// Tells how often each result was seen.
pub fn tell_seen<R>(seen: &BTreeMap<R, u64>, in_words: impl Fn(&R) -> String) {
    let counts: Vec<String> = seen.iter().map(|(result, times)| format!("{}: {}", in_words(result), times)).collect();
    println!("seen: {}", counts.join(", "));
}

/// A fault for each of these that was never seen.
pub fn never_seen<K: Ord>(all: Vec<K>, seen: &BTreeMap<K, u64>, in_words: impl Fn(&K) -> String) -> Vec<String> {
    let unseen = all.iter().filter(|one| !seen.contains_key(one));
    unseen.map(|one| format!("NEVER SEEN: {}", in_words(one))).collect()
}
