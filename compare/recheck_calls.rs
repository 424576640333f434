//! Rechecks as driver and comparison send them to each other (recheck_driver.c says how).

use crate::driver::kept;
use crate::recheck::{Answer, Call};
use std::io::{self, Read, Write};

/// The call, and what has the driver write out all its answers in place of one.
const RECHECK: u32 = 0;
const FLUSH: u32 = 1;

fn head(kind: u32, leg: u32, length: usize) -> Vec<u8> {
    [kind, leg, length as u32].iter().flat_map(|number| number.to_le_bytes()).collect()
}

pub fn send(to: &mut impl Write, call: &Call) -> io::Result<()> {
    to.write_all(&head(RECHECK, call.leg, call.plan.len()))?;
    to.write_all(&call.plan)
}

pub fn send_flush(to: &mut impl Write) -> io::Result<()> {
    to.write_all(&head(FLUSH, 0, 0))?;
    to.flush()
}

/// Reads what the driver answered, and what it changed that no call may change.
pub fn receive(from: &mut impl Read, call: &Call) -> io::Result<(Answer, Vec<String>)> {
    let mut numbers = [[0; 4]; 4];
    for number in &mut numbers {
        from.read_exact(number)?;
    }
    let [result, number, leg, place] = numbers.map(u32::from_le_bytes);
    let mut faults = Vec::new();
    kept(from, &call.plan, "plan", &mut faults)?;
    Ok((Answer { result, number, leg, place }, faults))
}
