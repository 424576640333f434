//! Rechecks in the benchmark: the proved call beside a plain one, and beside a whole check.

use crate::check::rule_at;
use crate::clock::{median, print_times, time};
use crate::paper::{NOTHING_VIOLATED, REFUSED, RULES};
use crate::recheck::{answer, Answer, Call, RIGHT};
use crate::recheck_quick::quick;

/// What the call for C gives.
#[repr(C)]
struct Rechecked {
    result: u32,
    number: u32,
    leg: u32,
    place: u32,
}

extern "C" {
    #[link_name = "conepalhui_recheck_3"]
    fn conepalhui_recheck(plan: *const u8, plan_len: usize, leg: u32) -> Rechecked;
}

fn proved(plan: &[u8], moved: u32) -> Answer {
    // The pointer comes from a slice together with its length.
    let Rechecked { result, number, leg, place } = unsafe { conepalhui_recheck(plan.as_ptr(), plan.len(), moved) };
    Answer { result, number, leg, place }
}

fn plain(plan: &[u8], moved: u32) -> Answer {
    match quick(plan, moved) {
        Ok((number, None)) => Answer { result: NOTHING_VIOLATED, number, leg: 0, place: 0 },
        Ok((number, Some(at))) => {
            Answer { result: RULES[rule_at(at.place).0].result, number, leg: at.leg as u32, place: at.place }
        }
        Err(refusal) => Answer { result: REFUSED + refusal.number, number: refusal.at as u32, leg: 0, place: 0 },
    }
}

const SIDES: [fn(&[u8], u32) -> Answer; 2] = [proved, plain];
/// Calls are timed by their mean over so many.
const CALLS: u32 = 10;

/// Rechecks of some legs of an accepted plan, with the times of each side. Nothing is violated, so each looks at all of its
/// list.
pub struct Rechecks {
    kinds: Vec<Timed>,
}

struct Timed {
    what: &'static str,
    leg: u32,
    expected: Answer,
    times: [Vec<f64>; SIDES.len()],
}

impl Rechecks {
    /// Both sides have to give what the rechecker of the comparison gives, of a plan of so many legs.
    pub fn new(plan: &[u8], legs: u32) -> Rechecks {
        let timed = |(what, leg)| {
            let expected = answer(&RIGHT, &Call { plan: plan.into(), leg });
            for side in SIDES {
                assert_eq!(side(plan, leg), expected, "the sides differ: {}", what);
            }
            Timed { what, leg, expected, times: Default::default() }
        };
        let kinds =
            [("recheck, the first leg", 0), ("recheck, a middle leg", legs / 2), ("recheck, the last leg", legs - 1)];
        Rechecks { kinds: kinds.into_iter().map(timed).collect() }
    }

    pub fn round(&mut self, plan: &[u8]) {
        for Timed { leg, expected, times, .. } in &mut self.kinds {
            for (side, times) in SIDES.iter().zip(times) {
                times.push(time(CALLS, || assert_eq!(side(plan, *leg), *expected, "an answer changed")));
            }
        }
    }

    /// Prints the times of each leg and of all, beside that of a whole check by the proved call, in ns.
    pub fn print(&self, whole: f64) {
        let print =
            |what: &str, [proved, plain]: [f64; 2]| print_times(what, proved, &[("plain", plain), ("whole", whole)]);
        self.kinds.iter().for_each(|kind| print(kind.what, kind.times.clone().map(median)));
        let all = |side: usize| median(self.kinds.iter().flat_map(|kind| kind.times[side].clone()).collect());
        print("recheck, all three", [all(0), all(1)]);
    }
}
