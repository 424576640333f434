//! What the program of cases prints for a list that is spelled out, a call in each line.

use crate::admit_list;
use crate::check::{begin, host_convert, host_move, host_slice, host_start, Checker, Plain};
use crate::explain_list;
use crate::format::{
    encoded, table, table_words, write_cursor, write_plan, Cursor, Layout, Move, Outcome, Plan, Refusal,
};
use crate::gates_list;
use crate::list::{bytes, hex, joined, numbers};
use crate::network_list;
use crate::paper::{LIMITS, NOTHING_VIOLATED, NUMBER_BYTES, PAUSED};
use crate::recheck_list;
use crate::told::{refusal, rule_named, words};

type Told = Result<String, String>;

/// The marks of lent bytes and words.
pub const MARK: u8 = 0xEE;
pub const WORD_MARK: u32 = 7777;

/// The number that what is kept beside a cursor begins with.
const SEEN_MARK: u32 = 2_718_281_828;

struct Calls {
    table: Vec<u32>,
    plan: Vec<u8>,
    saved: Vec<u8>,
    cursor: Cursor,
}

fn cursor_told(cursor: Cursor) -> String {
    format!("cursor {}", joined(&cursor.words()))
}

/// Words of a lent buffer on one line.
pub fn row(words: &[u32]) -> String {
    if words.is_empty() {
        "none\n".to_string()
    } else {
        joined(words) + "\n"
    }
}

/// What was written into a marked buffer of this length.
pub fn written(bytes: Outcome<Vec<u8>>, at: usize, room: usize) -> String {
    let mut lent = vec![MARK; room];
    match bytes {
        Ok(bytes) => {
            lent[at..at + bytes.len()].copy_from_slice(&bytes);
            format!("bytes {}: {}\n", bytes.len(), hex(&lent))
        }
        Err(fault) => format!("{}rest: {}\n", refusal(fault), hex(&lent)),
    }
}

/// What a call for C gives: its result, and the number beside it.
fn both(given: u64) -> String {
    format!("{} {}\n", given as u32, given >> 32)
}

impl Calls {
    /// A start or a move: the cursor that it gives, or the one that a refusal gives back.
    fn granted(&mut self, given: Outcome<Cursor>, back: Cursor) -> String {
        self.cursor = given.unwrap_or(back);
        match given {
            Ok(cursor) => format!("granted: {}\n", cursor_told(cursor)),
            Err(fault) => self.given_back(fault),
        }
    }

    fn given_back(&self, fault: Refusal) -> String {
        format!("{}given back: {}\n", refusal(fault), cursor_told(self.cursor))
    }

    fn start(&mut self) -> String {
        let given = table(&Plain, &self.table).and_then(|plan| Plain.judge(&plan).map(|_| begin(&plan)));
        self.granted(given, Cursor::of([0, 0, 0]))
    }

    fn slice(&mut self, budget: u32) -> String {
        let opened = table(&Plain, &self.table).and_then(|plan| {
            Plain.judge(&plan)?;
            Plain.fits(&plan, self.cursor)?;
            Ok(plan)
        });
        let plan = match opened {
            Ok(plan) => plan,
            Err(fault) => return self.given_back(fault),
        };
        let sliced = Plain.slice(&plan, self.cursor, budget);
        self.cursor = sliced.cursor;
        let (kind, rule) = match sliced.result {
            NOTHING_VIOLATED => ("nothing violated", String::new()),
            PAUSED => ("paused", String::new()),
            result => ("violated", format!(" rule {}", rule_named(&Plain, result))),
        };
        format!("{}: {} steps {}{}\n", kind, cursor_told(sliced.cursor), sliced.steps, rule)
    }

    fn move_leg(&mut self, wanted: Move) -> String {
        let moved = table(&Plain, &self.table).and_then(|mut plan| {
            Plain.judge(&plan)?;
            Plain.fits(&plan, self.cursor)?;
            let cursor = Plain.moved(&mut plan, self.cursor, wanted)?;
            Ok((plan.words(), cursor))
        });
        if let Ok((words, _)) = &moved {
            self.table = words.clone();
        }
        let told = self.granted(moved.map(|(_, cursor)| cursor), self.cursor);
        format!("{}table: {}", told, row(&self.table))
    }

    fn read_plan(&self, plan: Outcome<Plan>, room: usize) -> String {
        let read = plan.and_then(|plan| {
            Plain.room(plan.words().len(), room)?;
            Ok(plan)
        });
        match read {
            Ok(plan) => {
                let n = plan.words().len();
                format!("words {}:\n{}rest: {}", n, words(&plan), row(&vec![WORD_MARK; room - n]))
            }
            Err(fault) => format!("{}rest: {}", refusal(fault), row(&vec![WORD_MARK; room])),
        }
    }

    /// A table as long as any, these words in front and all else at the largest word: written, read back, and read into one word too few.
    fn largest(&self, front: &[u32]) -> Told {
        let most = table_words(&[0, LIMITS.links, LIMITS.streams, LIMITS.legs, 0]) as usize;
        let mut words = vec![u32::MAX; most];
        words[..front.len()].copy_from_slice(front);
        let file = match write_plan(&Plain, &words, NUMBER_BYTES * most) {
            Ok(file) => file,
            Err(fault) => return Ok(refusal(fault)),
        };
        let read = Plain.read_plan(&file).map_err(|fault| refusal(fault))?.words();
        let same = if read == words { "same" } else { "DIFFERENT" };
        let short = Plain.room(read.len(), most - 1).err().ok_or("there is room for it")?;
        Ok(format!("bytes {}\nwords {}\n{}\n{}same\n", file.len(), read.len(), same, refusal(short)))
    }

    fn read_number(&self, at: usize) -> String {
        match Plain.number(&self.plan, at) {
            Ok((value, next)) => format!("number {} next {}\n", value, next),
            Err(fault) => refusal(fault),
        }
    }

    fn write_number(&self, word: u32, at: usize, room: usize) -> String {
        let bytes = encoded(&[word]);
        let enough = Plain.room(at.saturating_add(bytes.len()), room);
        written(enough.map(|_| bytes), at, room)
    }

    fn read_cursor(&self) -> String {
        Plain.read_cursor(&self.saved).map_or_else(refusal, |cursor| cursor_told(cursor) + "\n")
    }

    fn write_cursor(&self, room: usize) -> String {
        let bytes = write_cursor(&Plain, self.cursor, room);
        let back = if bytes.is_ok() { String::new() } else { format!("given back: {}\n", cursor_told(self.cursor)) };
        written(bytes, 0, room) + &back
    }

    fn host_start(&self, room: usize) -> String {
        let mut out = vec![MARK; room];
        let given = host_start(&Plain, &self.plan, &mut out);
        format!("start {}{}\n", both(given), hex(&out))
    }

    fn host_convert(&self, room: usize) -> String {
        let mut file = vec![MARK; room];
        let given = host_convert(&Plain, &self.plan, &mut file);
        format!("convert {}{}\n", both(given), hex(&file))
    }

    fn host_slice(&self, budget: u32, room: usize) -> String {
        let mut out = vec![MARK; room];
        let given = host_slice(&Plain, &self.plan, &self.saved, budget, &mut out);
        let lent = hex(&out);
        format!("slice {}{}\nalone {}\n{}\n", both(given), lent, given as u32, lent)
    }

    fn host_move(&self, wanted: Move, file_room: usize, room: usize) -> String {
        let (mut file, mut out) = (vec![MARK; file_room], vec![MARK; room]);
        let given = host_move(&Plain, &self.plan, &self.saved, wanted, &mut file, &mut out);
        format!("move {}{}\n{}\n", both(given), hex(&file), hex(&out))
    }

    /// A line: it sets something, or it makes a call, whose answer is told.
    fn line(&mut self, line: &str) -> Told {
        let (verb, rest) = line.split_once(' ').unwrap_or((line, ""));
        match verb {
            "#" => return Ok(format!("{}\n", line)),
            "table" => self.table = numbers(rest)?,
            "plan" => self.plan = bytes(rest)?,
            "saved" => self.saved = bytes(rest)?,
            "cursor" => {
                let words = numbers(rest)?;
                self.cursor = Cursor::of(words[..].try_into().map_err(|_| "a cursor has three words")?);
            }
            _ if network_list::is_call(verb) => return network_list::told(verb, rest),
            _ if admit_list::is_call(verb) => return admit_list::told(verb, rest, &self.table),
            _ if recheck_list::is_call(verb) => return recheck_list::told(verb, rest, &self.table),
            _ if explain_list::is_call(verb) => return explain_list::told(verb, rest, &self.table),
            _ if gates_list::is_call(verb) => return gates_list::told(verb, rest, &self.table, &self.plan),
            _ => return self.call(verb, &numbers(rest)?),
        }
        Ok(String::new())
    }

    fn call(&mut self, verb: &str, given: &[u32]) -> Told {
        let room = |at: usize| given[at] as usize;
        Ok(match (verb, given) {
            ("shape", []) => table(&Plain, &self.table)
                .and_then(|plan| Plain.judge(&plan))
                .map_or_else(refusal, |_| "well-formed\n".to_string()),
            ("start", []) => self.start(),
            ("slice", [budget]) => self.slice(*budget),
            ("move", &[leg, offset, periods]) => self.move_leg(Move { leg, offset, periods }),
            ("places", [legs]) => format!("places {}\n", Plain.places(u64::from(*legs))),
            ("read-plan", [_]) => self.read_plan(Plain.read_plan(&self.plan), room(0)),
            ("read-first", [_]) => self.read_plan(Plain.read_first(&self.plan), room(0)),
            ("write-plan", [_]) => written(write_plan(&Plain, &self.table, room(0)), 0, room(0)),
            ("largest", front) => return self.largest(front),
            ("read-number", [_]) => self.read_number(room(0)),
            ("write-number", [word, _, _]) => self.write_number(*word, room(1), room(2)),
            ("write-number-last", [word, _]) => self.write_number(*word, usize::MAX, room(1)),
            ("read-cursor", []) => self.read_cursor(),
            ("write-cursor", [_]) => self.write_cursor(room(0)),
            ("host-start", [_]) => self.host_start(room(0)),
            ("host-slice", [budget, _]) => self.host_slice(*budget, room(1)),
            ("host-move", &[leg, offset, periods, _, _]) => {
                self.host_move(Move { leg, offset, periods }, room(3), room(4))
            }
            ("host-convert", [_]) => self.host_convert(room(0)),
            ("digits", []) => digits(&self.saved),
            ("time", []) => time(in_ns(&self.saved)),
            ("rate", []) => time(rate(&self.saved)),
            ("same", []) => yes(self.plan == self.saved),
            ("known", [edition]) => {
                let is_known = |seen: Seen| seen.first == self.plan || seen.other == self.plan;
                yes(seen(&self.saved).map_or(false, |seen| seen.edition == *edition && is_known(seen)))
            }
            ("copy", [edition]) => {
                let is_copy = |seen: Seen| seen.edition == *edition && are_plans(seen, Layout::Second);
                yes(seen(&self.saved).map_or(false, is_copy))
            }
            ("edition", []) => match edition_of(&self.saved) {
                Some(edition) => format!("edition {}\n", edition),
                None => "none\n".to_string(),
            },
            _ => return Err(format!("there is no call '{}' with {} numbers", verb, given.len())),
        })
    }
}

pub fn yes(holds: bool) -> String {
    if holds {
        "yes\n".to_string()
    } else {
        "no\n".to_string()
    }
}

/// A number as a person types it: digits and nothing else.
fn digits(text: &[u8]) -> String {
    if text.is_empty() {
        return "empty\n".to_string();
    }
    if let Some(at) = text.iter().position(|byte| !byte.is_ascii_digit()) {
        return format!("no digit at {}\n", at);
    }
    let value =
        text.iter().fold(0u128, |value, digit| (value * 10 + u128::from(digit - b'0')).min(u128::from(u64::MAX)));
    match u32::try_from(value) {
        Ok(value) => format!("value {}\n", value),
        Err(_) => "too large\n".to_string(),
    }
}

/// A time with a unit, reckoned in billionths of a ns: what is left over below 1 ns makes it no time.
fn in_ns(text: &[u8]) -> Option<u32> {
    let units =
        [("ns", 1u128), ("us", 1000), ("\u{b5}s", 1000), ("\u{3bc}s", 1000), ("ms", 1_000_000), ("s", 1_000_000_000)];
    let text = std::str::from_utf8(text).ok()?;
    let (number, unit) = units.iter().find_map(|&(name, ns)| Some((text.strip_suffix(name)?, ns)))?;
    let (whole, part) = number.split_once('.').map_or((number, None), |(whole, part)| (whole, Some(part)));
    let is_number = |digits: &str| !digits.is_empty() && digits.bytes().all(|byte| byte.is_ascii_digit());
    if !is_number(whole) || part.map_or(false, |part| !is_number(part) || part.len() > 9) {
        return None;
    }
    let billionths = format!("{}{:0<9}", whole, part.unwrap_or("")).parse::<u128>().ok()? * unit;
    if billionths % 1_000_000_000 != 0 {
        return None;
    }
    u32::try_from(billionths / 1_000_000_000).ok()
}

/// A rate by its name, or as a time for an octet.
fn rate(text: &[u8]) -> Option<u32> {
    match text {
        b"10M" => Some(800),
        b"100M" => Some(80),
        b"1G" => Some(8),
        _ => in_ns(text.strip_suffix(b"/octet")?),
    }
}

fn time(ns: Option<u32>) -> String {
    ns.map_or("no time\n".to_string(), |ns| format!("ns {}\n", ns))
}

/// What is kept beside a cursor: the edition of the rules that it was made with, and the plans that were seen.
#[derive(Clone, Copy)]
struct Seen<'a> {
    edition: u32,
    first: &'a [u8],
    other: &'a [u8],
}

/// The edition of all that was kept before an edition was told in it. Its plans are of the first layout.
const UNTOLD: u32 = 1;

/// Two plans: how many bytes the first has, as a number, that plan, and the other one or nothing.
fn plans(bytes: &[u8], edition: u32) -> Option<Seen<'_>> {
    let (size, next) = Plain.number(bytes, 0).ok()?;
    let (first, other) = (bytes.get(next..)?.get(..size as usize)?, bytes.get(next + size as usize..)?);
    Some(Seen { edition, first, other })
}

/// The mark, the edition, and two plans.
fn seen(bytes: &[u8]) -> Option<Seen<'_>> {
    let (front, next) = Plain.number(bytes, 0).ok()?;
    let (edition, next) = Plain.number(bytes, next).ok()?;
    plans(&bytes[next..], edition).filter(|_| front == SEEN_MARK)
}

fn are_plans(seen: Seen, layout: Layout) -> bool {
    let is_plan = |file: &[u8]| match layout {
        Layout::First => Plain.read_first(file).is_ok(),
        Layout::Second => Plain.read_plan(file).is_ok(),
    };
    is_plan(seen.first) && (seen.other.is_empty() || is_plan(seen.other))
}

/// The edition that bytes were kept with. No plan has as many bytes as the mark says, so none that tells no edition begins with it.
fn edition_of(bytes: &[u8]) -> Option<u32> {
    let untold = || plans(bytes, UNTOLD).filter(|plans| are_plans(*plans, Layout::First));
    seen(bytes).or_else(untold).map(|seen| seen.edition)
}

/// What the program prints for these lines.
pub fn answers(list: &str) -> Told {
    let mut calls = Calls { table: Vec::new(), plan: Vec::new(), saved: Vec::new(), cursor: Cursor::of([0, 0, 0]) };
    let mut told = String::new();
    for line in list.lines() {
        told += &calls.line(line).map_err(|fault| format!("'{}': {}", line, fault))?;
    }
    Ok(told)
}
