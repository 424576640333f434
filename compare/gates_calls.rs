//! Calls for gate lists as driver and comparison send them to each other (gates_driver.c says how).

use crate::driver::{buffer, kept};
use crate::gates::{Answer, Asked, Call};
use std::io::{self, Read, Write};

/// The calls, and what has the driver write out all its answers in place of one.
const GATES: u32 = 0;
const READ: u32 = 1;
const FLUSH: u32 = 2;

fn bytes_of(words: &[u32]) -> Vec<u8> {
    words.iter().flat_map(|word| word.to_le_bytes()).collect()
}

pub fn send(to: &mut impl Write, call: &Call) -> io::Result<()> {
    let (kind, link) = match call.asked {
        Asked::Gates(link) => (GATES, link),
        Asked::Read => (READ, 0),
    };
    let lengths = [call.file.len(), call.list.len(), call.words.len()].map(|length| length as u32);
    to.write_all(&bytes_of(&[kind, link, lengths[0], lengths[1], lengths[2]]))?;
    to.write_all(&call.file)?;
    to.write_all(&call.list)?;
    to.write_all(&bytes_of(&call.words))
}

pub fn send_flush(to: &mut impl Write) -> io::Result<()> {
    to.write_all(&bytes_of(&[FLUSH, 0, 0, 0, 0]))?;
    to.flush()
}

/// Reads what the driver answered, and what it changed that no call may change.
pub fn receive(from: &mut impl Read, call: &Call) -> io::Result<(Answer, Vec<String>)> {
    let mut numbers = [[0; 4]; 2];
    for number in &mut numbers {
        from.read_exact(number)?;
    }
    let [result, number] = numbers.map(u32::from_le_bytes);
    let mut faults = Vec::new();
    kept(from, &call.file, "file", &mut faults)?;
    let list = buffer(from, call.list.len(), "list", &mut faults)?;
    let words = buffer(from, 4 * call.words.len(), "words", &mut faults)?;
    let word = |bytes: &[u8]| u32::from_le_bytes(bytes.try_into().expect("a word has four bytes"));
    Ok((Answer { result, number, list, words: words.chunks_exact(4).map(word).collect() }, faults))
}
