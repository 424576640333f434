//! The calls that admit a stream in the list of cases: how they are written there, and what the program prints for each.
//!
//!   admit PERIOD DEADLINE OCTETS over LINKS into WORDS of PLAN
//!   admit-between FROM UNTIL PERIOD DEADLINE OCTETS over LINKS into WORDS of PLAN
//!
//! LINKS is the route, and so many words are lent for the enlarged table. PLAN, as list.rs has it, may also be
//!
//!   row 8 with 255 of 8 and 1 of 1   eight links in a row, 255 streams over all of them, and one over the first
//!
//! What is spelled out has the words that are lent after OCTETS, then FROM and UNTIL, and after a colon the links.

use crate::admit::{answer, Call, Wanted, ADMITTED, NONE_YET, RIGHT};
use crate::answers::{row, WORD_MARK};
use crate::check::{Checker, Plain};
use crate::format::{encoded, table, Leg, Link, Plan, Refusal, Stream};
use crate::list::{joined, number, numbers};
use crate::paper::{NUMBER_BYTES, REFUSED};
use crate::told::{refusal, words};
use std::sync::Arc;

pub fn is_call(verb: &str) -> bool {
    matches!(verb, "admit" | "admit-between")
}

/// The line that the program reads for a call.
pub fn spelled(call: &str) -> Result<String, String> {
    let (front, rest) = call.split_once(" over").ok_or("no route")?;
    let (route, lent) = rest.split_once(" into ").ok_or("no words are lent")?;
    let (verb, front) = front.split_once(' ').ok_or("no stream")?;
    let front = numbers(front)?;
    let (between, stream) = match (verb, front.len()) {
        ("admit", 3) | ("admit-between", 5) => front.split_at(front.len() - 3),
        (verb, n) => return Err(format!("there is no call '{}' with {} numbers", verb, n)),
    };
    let given = [stream, &[number(lent)?], between].concat();
    Ok(format!("{} {}: {}", verb, joined(&given), joined(&numbers(route)?)))
}

/// What the program prints for a call on a table, spelled out.
pub fn told(verb: &str, rest: &str, given: &[u32]) -> Result<String, String> {
    let (front, route) = rest.split_once(':').ok_or("no route")?;
    let (stream, between) = match (verb, &numbers(front)?[..]) {
        ("admit", &[period, deadline, octets, lent]) => ([period, deadline, octets, lent], None),
        ("admit-between", &[period, deadline, octets, lent, from, until]) => {
            ([period, deadline, octets, lent], Some((from, until)))
        }
        (verb, numbers) => return Err(format!("there is no call '{}' with {} numbers", verb, numbers.len())),
    };
    let [period, deadline, octets, lent] = stream;
    let rest = |used: usize| format!("rest: {}", row(&vec![WORD_MARK; lent as usize - used]));
    // The length of a table is judged here; a file has no wrong one.
    if let Err(fault) = table(&Plain, given) {
        return Ok(refusal(fault) + &rest(0));
    }
    let wanted = Arc::new(Wanted { route: numbers(route)?, period, deadline, octets });
    // As many words are lent as numbers of the greatest length in these bytes.
    let new_plan = vec![0; NUMBER_BYTES * lent as usize];
    let answer = answer(&RIGHT, &Call { plan: encoded(given).into(), wanted, between, new_plan });
    Ok(match answer.result {
        ADMITTED => {
            let file = &answer.new_plan[..answer.number as usize];
            let plan = Plain.read_plan(file).map_err(|fault| format!("the new plan is {}", refusal(fault)))?;
            let n = plan.words().len();
            format!("admitted {} words {}:\n{}{}", answer.offset, n, words(&plan), rest(n))
        }
        NONE_YET => format!("none yet\n{}", rest(0)),
        result => refusal(Refusal { number: result - REFUSED, at: answer.number as usize }) + &rest(0),
    })
}

/// The words of a row of links with streams, each of which begins at the first link and at 0 ns.
pub fn row_of_links(text: &str) -> Result<Vec<u32>, String> {
    let mut parts = text.split(" with ").flat_map(|part| part.split(" and "));
    let links = number(parts.next().unwrap_or(""))?;
    let mut plan = Plan { revision: 0, precision: 0, links: Vec::new(), streams: Vec::new(), legs: Vec::new() };
    plan.links.extend((1..=links).map(|from| Link { from, to: from + 1, ns_per_octet: 8, propagation: 0 }));
    for part in parts {
        let (count, leg_count) = part.split_once(" of ").ok_or("so many streams of so many legs")?;
        let leg_count = number(leg_count)?;
        for _ in 0..number(count)? {
            let (stream, first_leg) = (plan.streams.len() as u32, plan.legs.len() as u32);
            plan.streams.push(Stream { period: 1, deadline: 1, octets: 64, first_leg, leg_count });
            plan.legs.extend((0..leg_count).map(|link| Leg { stream, link, offset: 0, periods: 0 }));
        }
    }
    Ok(plan.words())
}
