//! A call for C with all that it is lent, and what it gives.

use crate::check::{host_convert, host_move, host_slice, host_start, Checker};
use crate::driver::{buffer, kept};
use crate::format::Move;
use std::io::{self, Read, Write};
use std::sync::Arc;

/// The calls, by the number that the driver has for each.
#[derive(Clone, Copy, Debug, PartialEq, Eq, PartialOrd, Ord)]
pub enum Kind {
    Slice,
    SliceFull,
    Start,
    Move,
    Convert,
}

/// The driver writes out all its answers where it meets this in place of a call.
const FLUSH: u32 = 5;

#[derive(Clone)]
pub struct Call {
    pub kind: Kind,
    /// For a conversion, the old file.
    pub plan: Arc<[u8]>,
    pub cursor: Vec<u8>,
    /// The budget of a slice, or the leg of a move.
    pub number: u32,
    pub offset: u32,
    pub periods: u32,
    /// What lies in the lent buffers before the call.
    pub new_plan: Vec<u8>,
    pub out: Vec<u8>,
}

impl Call {
    fn wanted(&self) -> Move {
        Move { leg: self.number, offset: self.offset, periods: self.periods }
    }
}

#[derive(Clone, Debug, PartialEq, Eq)]
pub struct Answer {
    pub result: u64,
    pub new_plan: Vec<u8>,
    pub out: Vec<u8>,
}

/// What a checker of this program answers.
pub fn answer<C: Checker>(c: &C, call: &Call) -> Answer {
    let (mut new_plan, mut out) = (call.new_plan.clone(), call.out.clone());
    let result = match call.kind {
        Kind::Slice => host_slice(c, &call.plan, &call.cursor, call.number, &mut out) & u64::from(u32::MAX),
        Kind::SliceFull => host_slice(c, &call.plan, &call.cursor, call.number, &mut out),
        Kind::Start => host_start(c, &call.plan, &mut out),
        Kind::Move => host_move(c, &call.plan, &call.cursor, call.wanted(), &mut new_plan, &mut out),
        Kind::Convert => host_convert(c, &call.plan, &mut new_plan),
    };
    Answer { result, new_plan, out }
}

fn put(to: &mut impl Write, number: u32) -> io::Result<()> {
    to.write_all(&number.to_le_bytes())
}

pub fn send(to: &mut impl Write, call: &Call) -> io::Result<()> {
    let buffers: [&[u8]; 4] = [&call.plan, &call.cursor, &call.new_plan, &call.out];
    for number in [call.kind as u32, call.number, call.offset, call.periods] {
        put(to, number)?;
    }
    for buffer in buffers {
        put(to, buffer.len() as u32)?;
    }
    for buffer in buffers {
        to.write_all(buffer)?;
    }
    Ok(())
}

pub fn send_flush(to: &mut impl Write) -> io::Result<()> {
    for number in [FLUSH, 0, 0, 0, 0, 0, 0, 0] {
        put(to, number)?;
    }
    to.flush()
}

/// Reads what the driver answered, and what it changed that no call may change.
pub fn receive(from: &mut impl Read, call: &Call) -> io::Result<(Answer, Vec<String>)> {
    let (mut result, mut faults) = ([0; 8], Vec::new());
    from.read_exact(&mut result)?;
    kept(from, &call.plan, "plan", &mut faults)?;
    kept(from, &call.cursor, "cursor", &mut faults)?;
    let new_plan = buffer(from, call.new_plan.len(), "new plan", &mut faults)?;
    let out = buffer(from, call.out.len(), "lent cursor", &mut faults)?;
    Ok((Answer { result: u64::from_le_bytes(result), new_plan, out }, faults))
}
