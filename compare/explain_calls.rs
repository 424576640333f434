//! The calls that explain a plan, as driver and comparison send them to each other (explain_driver.c says how).

use crate::driver::{buffer, kept};
use crate::explain::{Call, Told, KINDS, NUMBERS};
use std::io::{self, Read, Write};

/// What has the driver write out all its answers in place of one.
const FLUSH: u32 = KINDS.len() as u32;

fn head(kind: u32, leg: u32, second: u32, lengths: [usize; 2]) -> Vec<u8> {
    let numbers = [kind, leg, second, lengths[0] as u32, lengths[1] as u32];
    numbers.iter().flat_map(|number| number.to_le_bytes()).collect()
}

/// Sends a call with room for so many words of places.
pub fn send(to: &mut impl Write, call: &Call, room: usize) -> io::Result<()> {
    to.write_all(&head(call.kind as u32, call.leg, call.second, [call.plan.len(), room]))?;
    to.write_all(&call.plan)?;
    to.write_all(&vec![0; 4 * room])
}

pub fn send_flush(to: &mut impl Write) -> io::Result<()> {
    to.write_all(&head(FLUSH, 0, 0, [0, 0]))?;
    to.flush()
}

/// Reads what the driver answered, and what it changed that no call may change.
pub fn receive(from: &mut impl Read, call: &Call, room: usize) -> io::Result<(Told, Vec<String>)> {
    let mut numbers = [0; NUMBERS];
    for number in &mut numbers {
        let mut bytes = [0; 8];
        from.read_exact(&mut bytes)?;
        *number = u64::from_le_bytes(bytes);
    }
    let mut faults = Vec::new();
    kept(from, &call.plan, "plan", &mut faults)?;
    let bytes = buffer(from, 4 * room, "places", &mut faults)?;
    let words = bytes.chunks_exact(4).map(|word| u32::from_le_bytes(word.try_into().expect("it has four bytes")));
    Ok((Told { numbers, places: words.collect() }, faults))
}
