//! A recheck as one writes it in an hour: the plan is read and judged once, and two loops go over the other legs.

use crate::check::{own_holds, Checker, Plain};
use crate::format::{refused, Outcome, Plan};
use crate::paper::{DEADLINE, HOP, NO_LEG, OVERLAPS, WINDOW};
use crate::recheck::{last_of_its_stream, Place};
use crate::rules::sent;

/// How many places were looked at, and the last of them where it is violated.
pub type Looked = (u32, Option<Place>);

pub fn quick(file: &[u8], leg: u32) -> Outcome<Looked> {
    let plan = Plain.read_plan(file)?;
    Plain.judge(&plan)?;
    if leg as usize >= plan.legs.len() {
        return refused(NO_LEG, 0);
    }
    let mut looked = 0;
    let violated = first_violated(&plan, leg as usize, &mut looked);
    Ok((looked, violated))
}

fn first_violated(plan: &Plan, moved: usize, looked: &mut u32) -> Option<Place> {
    let (link, mine, last) = (plan.legs[moved].link, sent(&Plain, plan, moved), last_of_its_stream(plan, moved));
    let frame = |leg| sent(&Plain, plan, leg);
    let meets = |other: usize| plan.legs[other].link == link && !Plain.apart(&frame(other), &mine);
    for rule in [WINDOW, HOP, DEADLINE] {
        *looked += 1;
        if !own_holds(&Plain, plan, moved, rule, frame) {
            return Some(Place { leg: moved, place: rule as u32 });
        }
    }
    for other in 0..moved {
        *looked += 1;
        if meets(other) {
            return Some(Place { leg: moved, place: OVERLAPS + other as u32 });
        }
    }
    for other in moved + 1..plan.legs.len() {
        // The next hop, where there is one, and the deadline of the stream.
        for (is_due, rule) in [(other == moved + 1 && moved < last, HOP), (other == last, DEADLINE)] {
            *looked += u32::from(is_due);
            if is_due && !own_holds(&Plain, plan, other, rule, frame) {
                return Some(Place { leg: other, place: rule as u32 });
            }
        }
        *looked += 1;
        if meets(other) {
            return Some(Place { leg: other, place: OVERLAPS + moved as u32 });
        }
    }
    None
}
