//! Admissions as driver and comparison send them to each other (admit_driver.c says how).

use crate::admit::{Answer, Call};
use crate::driver::{buffer, kept};
use std::io::{self, Read, Write};

/// The calls, and what has the driver write out all its answers in place of one.
const WHOLE: u32 = 0;
const BETWEEN: u32 = 1;
const FLUSH: u32 = 2;

fn bytes_of(words: &[u32]) -> Vec<u8> {
    words.iter().flat_map(|word| word.to_le_bytes()).collect()
}

pub fn send(to: &mut impl Write, call: &Call) -> io::Result<()> {
    let (kind, wanted) = (if call.between.is_some() { BETWEEN } else { WHOLE }, &call.wanted);
    let (from, until) = call.asked();
    to.write_all(&bytes_of(&[kind, wanted.period, wanted.deadline, wanted.octets, from, until]))?;
    to.write_all(&bytes_of(&[call.plan.len(), wanted.route.len(), call.new_plan.len()].map(|length| length as u32)))?;
    to.write_all(&call.plan)?;
    to.write_all(&bytes_of(&wanted.route))?;
    to.write_all(&call.new_plan)
}

pub fn send_flush(to: &mut impl Write) -> io::Result<()> {
    to.write_all(&bytes_of(&[FLUSH, 0, 0, 0, 0, 0, 0, 0, 0]))?;
    to.flush()
}

/// Reads what the driver answered, and what it changed that no call may change.
pub fn receive(from: &mut impl Read, call: &Call) -> io::Result<(Answer, Vec<String>)> {
    let mut numbers = [[0; 4]; 3];
    for number in &mut numbers {
        from.read_exact(number)?;
    }
    let [result, number, offset] = numbers.map(u32::from_le_bytes);
    let mut faults = Vec::new();
    kept(from, &call.plan, "plan", &mut faults)?;
    kept(from, &bytes_of(&call.wanted.route), "route", &mut faults)?;
    let new_plan = buffer(from, call.new_plan.len(), "new plan", &mut faults)?;
    Ok((Answer { result, number, offset, new_plan }, faults))
}
