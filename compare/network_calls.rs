//! The calls on networks as driver and comparison send them to each other (network_driver.c says how).

use crate::driver::{buffer, kept};
use crate::network::{Answer, Call, ALL_TIMES};
use std::io::{self, Read, Write};

/// The driver writes out all its answers where it meets this in place of a call.
const FLUSH: u32 = 3;

fn bytes_of_words(words: &[i64]) -> Vec<u8> {
    words.iter().flat_map(|word| word.to_le_bytes()).collect()
}

fn bytes_of_chain(chain: &[u32]) -> Vec<u8> {
    chain.iter().flat_map(|number| number.to_le_bytes()).collect()
}

fn send_head(to: &mut impl Write, kind: u32, events: u64, lengths: [usize; 3]) -> io::Result<()> {
    to.write_all(&events.to_le_bytes())?;
    to.write_all(&kind.to_le_bytes())?;
    lengths.iter().try_for_each(|&length| to.write_all(&(length as u32).to_le_bytes()))
}

pub fn send(to: &mut impl Write, call: &Call) -> io::Result<()> {
    let words = &call.network.words;
    send_head(to, call.kind as u32, call.network.events, [words.len(), call.times.len(), call.chain.len()])?;
    to.write_all(&bytes_of_words(words))?;
    to.write_all(&bytes_of_words(&call.times))?;
    to.write_all(&bytes_of_chain(&call.chain))
}

pub fn send_flush(to: &mut impl Write) -> io::Result<()> {
    send_head(to, FLUSH, 0, [0; 3])?;
    to.flush()
}

fn number(from: &mut impl Read) -> io::Result<u32> {
    let mut bytes = [0; 4];
    from.read_exact(&mut bytes)?;
    Ok(u32::from_le_bytes(bytes))
}

/// Reads what the driver answered, and what it changed that no call may change.
pub fn receive(from: &mut impl Read, call: &Call) -> io::Result<(Answer, Vec<String>)> {
    let (result, count) = (number(from)?, number(from)?);
    let mut times = [0; ALL_TIMES];
    for time in &mut times {
        let mut bytes = [0; 8];
        from.read_exact(&mut bytes)?;
        *time = i64::from_le_bytes(bytes);
    }
    let mut faults = Vec::new();
    for (words, name) in [(&call.network.words, "constraints"), (&call.times, "times")] {
        kept(from, &bytes_of_words(words), name, &mut faults)?;
    }
    let lent = buffer(from, 4 * call.chain.len(), "chain", &mut faults)?;
    let chain = lent.chunks_exact(4).map(|b| u32::from_le_bytes([b[0], b[1], b[2], b[3]])).collect();
    Ok((Answer { result, number: count, times, chain }, faults))
}
