//! The calls on a table of which one leg was moved, in the list of cases: how they are written there, and what the program prints for each.
//!
//!   recheck LEG of PLAN
//!   same-but LEG beside OTHER of PLAN     whether OTHER, a plan as list.rs has it, is the same but for this leg
//!
//! What is spelled out has after a colon the words of OTHER.

use crate::answers::yes;
use crate::check::{Checker, Plain};
use crate::format::{index_of, table, Outcome};
use crate::list::{joined, number, numbers};
use crate::paper::NOTHING_VIOLATED;
use crate::recheck::{listed, look, moved_leg, RIGHT};
use crate::told::{refusal, rule_named};

pub fn is_call(verb: &str) -> bool {
    matches!(verb, "recheck" | "same-but")
}

/// The line that the program reads for a call beside another table.
pub fn spelled(call: &str, other: &[u32]) -> String {
    format!("{}: {}", call, joined(other))
}

/// What the program prints for a call on a table, spelled out.
pub fn told(verb: &str, rest: &str, given: &[u32]) -> Result<String, String> {
    let told = match (verb, rest.split_once(':')) {
        ("recheck", None) => recheck(given, number(rest)?),
        ("same-but", Some((leg, other))) => same_but(given, number(leg)?, &numbers(other)?),
        _ => return Err(format!("there is no call '{}' like this", verb)),
    };
    Ok(told.unwrap_or_else(refusal))
}

fn recheck(given: &[u32], leg: u32) -> Outcome<String> {
    let plan = table(&Plain, given)?;
    Plain.judge(&plan)?;
    let moved = moved_leg(&plan, leg)?;
    let answer = look(&RIGHT, &plan, moved, &listed(&plan, moved));
    Ok(match answer.result {
        NOTHING_VIOLATED => format!("nothing violated: looked at {}\n", answer.number),
        result => format!(
            "violated: place {} {} rule {} looked at {}\n",
            answer.leg,
            answer.place,
            rule_named(&Plain, result),
            answer.number
        ),
    })
}

fn same_but(given: &[u32], leg: u32, other: &[u32]) -> Outcome<String> {
    let plan = table(&Plain, given)?;
    let moved = moved_leg(&plan, leg)?;
    let words = ["offset", "periods"].map(|word| index_of(&plan, "leg", moved, word));
    let may_differ = |at: usize| at == 0 || words.contains(&Some(at));
    Ok(yes(given.len() == other.len() && (0..given.len()).all(|at| may_differ(at) || given[at] == other[at])))
}
