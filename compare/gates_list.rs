//! The calls on gate lists and on their files, in the list of cases: how they are written there, and what the program prints for each.
//!
//!   gate-list LINK BYTES of PLAN     the list of a link, where so many bytes are lent for its file
//!   write-list BYTES of WORDS        words as a list file
//!   read-list WORDS of FILE          a list file, where so many words are lent
//!
//! A list is told in words: a mask and a duration in turn.

use crate::answers::{row, written, MARK, WORD_MARK};
use crate::check::{Checker, Plain};
use crate::format::{encoded, refused, table, Outcome, Refusal};
use crate::gates::{answer, read, Answer, Asked, Call, PAIR_WORDS, RIGHT};
use crate::list::numbers;
use crate::paper::{ENDS_EARLY, REFUSED};
use crate::told::refusal;

pub fn is_call(verb: &str) -> bool {
    matches!(verb, "gate-list" | "write-list" | "read-list")
}

/// What the program prints for a call on a table, or on the bytes that stand for a plan.
pub fn told(verb: &str, rest: &str, given: &[u32], file: &[u8]) -> Result<String, String> {
    Ok(match (verb, &numbers(rest)?[..]) {
        ("gate-list", &[link, room]) => gate_list(given, link, room as usize),
        ("write-list", &[room]) => written(write_list(given, room as usize), 0, room as usize),
        ("read-list", &[room]) => read_list(file, room as usize),
        (verb, numbers) => return Err(format!("there is no call '{}' with {} numbers", verb, numbers.len())),
    })
}

fn gate_list(given: &[u32], link: u32, room: usize) -> String {
    let unchanged = |bytes: usize| format!("rest: {} unchanged\n", bytes);
    // The length of a table is judged here; a file has no wrong one.
    if let Err(fault) = table(&Plain, given) {
        return refusal(fault) + &unchanged(room);
    }
    let file = encoded(given).into();
    let call = Call { asked: Asked::Gates(link), file, list: vec![MARK; room], words: Vec::new() };
    let Answer { result, number, list, .. } = answer(&RIGHT, &call);
    if result >= REFUSED {
        return refusal(Refusal { number: result - REFUSED, at: number as usize }) + &unchanged(room);
    }
    let size = number as usize;
    let words = read(&RIGHT, &list[..size]).map_or_else(refusal, |words| row(&words));
    format!("bytes {}: {}{}", size, words, unchanged(room - size))
}

/// Half a pair is refused where its duration would stand.
fn write_list(words: &[u32], room: usize) -> Outcome<Vec<u8>> {
    let bytes = encoded(words);
    if words.len() % PAIR_WORDS != 0 {
        return refused(ENDS_EARLY, bytes.len());
    }
    Plain.room(bytes.len(), room)?;
    Ok(bytes)
}

fn read_list(file: &[u8], room: usize) -> String {
    let call = Call { asked: Asked::Read, file: file.into(), list: Vec::new(), words: vec![WORD_MARK; room] };
    let Answer { result, number, words, .. } = answer(&RIGHT, &call);
    if result >= REFUSED {
        return format!("{}rest: {}", refusal(Refusal { number: result - REFUSED, at: number as usize }), row(&words));
    }
    let (list, rest) = words.split_at(number as usize);
    format!("words {}: {}rest: {}", number, row(list), row(rest))
}
