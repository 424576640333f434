//! What the programs print of a plan, or of the refusal that its file met, and what they say of that refusal.

use crate::check::{whole, Checker};
use crate::format::{Layout, Outcome, Plan, Refusal};
use crate::paper::VIOLATED;
use crate::reasons::{self, Said};

#[derive(Clone, Copy, Debug, PartialEq, Eq)]
pub enum Verb {
    Words,
    Shape,
    Check,
}

impl Verb {
    pub fn named(name: &str) -> Option<Verb> {
        match name {
            "words" => Some(Verb::Words),
            "shape" => Some(Verb::Shape),
            "check" => Some(Verb::Check),
            _ => None,
        }
    }
}

/// What the program prints whose input is this plan.
pub fn printed<C: Checker>(c: &C, verb: Verb, plan: Outcome<Plan>) -> String {
    let told = match verb {
        Verb::Words => plan.map(|plan| words(&plan)),
        Verb::Shape => plan.and_then(|plan| c.judge(&plan)).map(|_| "well-formed\n".to_string()),
        Verb::Check => plan.and_then(|plan| check(c, &plan)),
    };
    told.unwrap_or_else(refusal)
}

/// What the program says on standard error of a file that it refuses.
pub fn said<C: Checker>(c: &C, verb: Verb, bytes: &[u8]) -> Said<()> {
    let plan = reasons::read(c, bytes)?;
    match verb {
        Verb::Words => Ok(()),
        Verb::Shape | Verb::Check => reasons::judge(c, &plan),
    }
}

pub fn refusal(refusal: Refusal) -> String {
    format!("refused {} {}\n", refusal.number, refusal.at)
}

/// Numbers with something between each two.
pub fn joined(numbers: &[u32], between: &str) -> String {
    numbers.iter().map(u32::to_string).collect::<Vec<_>>().join(between)
}

/// The words of a table, a record in each line.
pub fn words(plan: &Plan) -> String {
    plan.records(Layout::Second).iter().map(|record| joined(record, " ") + "\n").collect()
}

/// The name of the rule that gave a result.
pub fn rule_named<C: Checker>(c: &C, result: u32) -> &'static str {
    c.rules().iter().find(|rule| rule.result == result).map_or("no rule", |rule| rule.name)
}

fn check<C: Checker>(c: &C, plan: &Plan) -> Outcome<String> {
    c.judge(plan)?;
    let sliced = whole(c, plan);
    let verdict = match sliced.result {
        VIOLATED.. => {
            format!("violated {} {} {}", sliced.cursor.leg, sliced.cursor.place, rule_named(c, sliced.result))
        }
        _ => "accepted".to_string(),
    };
    let legs = plan.legs.len();
    Ok(format!("legs {} places {}\n{}\n", legs, c.places(legs as u64), verdict))
}
