//! The list of cases (crates/cases/list), spelled out for the program that makes the calls.
//!
//!   # TEXT                           printed as it stands; a line that begins with ## says something of the list
//!   let NAME = PLAN                  a name for a plan
//!   VERB NUMBERS [from CURSOR] [of PLAN]
//!
//! PLAN is a name, or words, with | between records, and changes, each after a comma: revision 7, link 1 ns_per_octet 80, words 31 (so many
//! alone). A call on bytes takes the file of such words, or bytes as they stand, =80 00 or "text"; its changes may be bytes 40 (so many
//! alone), and 00 (so much more), leg 1 offset as 98 00. CURSOR is three words, for a call on bytes their file or bytes as they stand.
//! A call without them goes on with those of the call before it, and with what that call made of them. network_list.rs has the calls on networks,
//! admit_list.rs those that admit a stream, recheck_list.rs those on a table of which one leg was moved, explain_list.rs
//! those that explain a place, gates_list.rs those on gate lists.

use crate::admit_list;
use crate::check::Plain;
use crate::format::{encoded, index_of, table, Plan, HEADER};
use crate::network_list;
use crate::paper::CURSOR_WORDS;
use crate::recheck_list;
use std::collections::HashMap;

type Spelled<T> = Result<T, String>;

/// The calls that take a plan and a cursor as bytes.
fn on_bytes(verb: &str) -> bool {
    verb.starts_with("host-")
        || verb.starts_with("read-")
        || matches!(verb, "digits" | "time" | "rate" | "same" | "known" | "copy" | "edition")
}

pub fn number(text: &str) -> Spelled<u32> {
    text.parse().map_err(|_| format!("'{}' is no number", text))
}

pub fn numbers(text: &str) -> Spelled<Vec<u32>> {
    text.split_whitespace().map(number).collect()
}

pub fn bytes(text: &str) -> Spelled<Vec<u8>> {
    let byte = |word: &str| u8::from_str_radix(word, 16).map_err(|_| format!("'{}' is no byte", word));
    match text.strip_prefix('"').and_then(|rest| rest.strip_suffix('"')) {
        Some(typed) => Ok(typed.as_bytes().to_vec()),
        None => text.split_whitespace().map(byte).collect(),
    }
}

/// A plan's words, each with the bytes that it has in a file, and what the file has after them.
#[derive(Clone)]
struct Written {
    words: Vec<(u32, Vec<u8>)>,
    after: Vec<u8>,
    cut: Option<usize>,
}

impl Written {
    fn of(words: &[u32]) -> Written {
        let spelled = |&word: &u32| (word, encoded(&[word]));
        Written { words: words.iter().map(spelled).collect(), after: Vec::new(), cut: None }
    }

    fn table(&self) -> Vec<u32> {
        self.words.iter().map(|(word, _)| *word).collect()
    }

    fn file(&self) -> Vec<u8> {
        let mut bytes =
            self.words.iter().flat_map(|(_, bytes)| bytes.clone()).chain(self.after.clone()).collect::<Vec<_>>();
        bytes.truncate(self.cut.unwrap_or(bytes.len()));
        bytes
    }

    /// Where a word of a plan stands, by its names.
    fn at(&self, plan: &Plan, names: &[&str]) -> Spelled<usize> {
        let at = match names {
            [word] => HEADER.iter().position(|name| name == word),
            [kind, record, word] => index_of(plan, kind, number(record)? as usize, word),
            _ => None,
        };
        at.filter(|at| *at < self.words.len()).ok_or_else(|| format!("there is no word '{}'", names.join(" ")))
    }

    /// Makes a change. The names of words are those of the plan as it was before all changes.
    fn change(&mut self, before: &[u32], change: &str) -> Spelled<()> {
        if let Some(more) = change.trim().strip_prefix("and ") {
            self.after.extend(bytes(more)?);
            return Ok(());
        }
        let words: Vec<&str> = change.split_whitespace().collect();
        match &words[..] {
            ["words", n] => match number(n)? as usize {
                n if n < self.words.len() => self.words.truncate(n),
                _ => return Err(format!("'{}' cuts nothing", change)),
            },
            ["bytes", n] => match number(n)? as usize {
                n if n < self.file().len() => self.cut = Some(n),
                _ => return Err(format!("'{}' cuts nothing", change)),
            },
            _ => {
                let plan = table(&Plain, before).map_err(|_| format!("'{}' is of no plan", change))?;
                let (names, value, bytes) = match words.iter().position(|word| *word == "as") {
                    Some(at) => (&words[..at], None, bytes(&words[at + 1..].join(" "))?),
                    None => {
                        let (value, names) = words.split_last().ok_or("an empty change")?;
                        let value = number(value)?;
                        (names, Some(value), encoded(&[value]))
                    }
                };
                let at = self.at(&plan, names)?;
                self.words[at] = (value.unwrap_or(self.words[at].0), bytes);
            }
        }
        Ok(())
    }
}

struct List {
    names: HashMap<String, Written>,
    /// What the lines so far have set, so that nothing is set twice.
    set: HashMap<&'static str, String>,
    /// The network of the call before, below the same heading.
    network: Option<network_list::Words>,
    out: String,
}

impl List {
    fn plan(&self, text: &str) -> Spelled<Written> {
        let mut parts = text.split(',');
        let base = parts.next().unwrap_or("").trim();
        let mut plan = match self.names.get(base) {
            Some(known) => known.clone(),
            None if base.starts_with('=') || base.starts_with('"') => {
                Written { words: Vec::new(), after: bytes(base.trim_start_matches('='))?, cut: None }
            }
            None => match base.strip_prefix("row ") {
                Some(row) => Written::of(&admit_list::row_of_links(row)?),
                None => Written::of(&numbers(&base.replace('|', " "))?),
            },
        };
        let before = plan.table();
        for change in parts {
            plan.change(&before, change)?;
        }
        Ok(plan)
    }

    fn say(&mut self, line: &str) {
        self.out.push_str(line.trim_end());
        self.out.push('\n');
    }

    fn set(&mut self, what: &'static str, value: String) {
        if self.set.get(what) != Some(&value) {
            self.say(&format!("{} {}", what, value));
            self.set.insert(what, value);
        }
    }

    fn network_call(&mut self, line: &str) -> Spelled<()> {
        let (call, network) = parted(line, " of ");
        if let Some(text) = network {
            self.network = Some(network_list::words(text)?);
        }
        let spelled = network_list::spelled(call, self.network.as_ref().ok_or("no network")?)?;
        self.say(&spelled);
        Ok(())
    }

    fn call(&mut self, line: &str) -> Spelled<()> {
        if network_list::is_call(line.split(' ').next().unwrap_or("")) {
            return self.network_call(line);
        }
        let (line, plan) = parted(line, " of ");
        let (line, cursor) = parted(line, " from ");
        let verb = line.split(' ').next().unwrap_or("");
        if on_bytes(verb) {
            if let Some(text) = plan {
                let file = self.plan(text)?.file();
                self.set("plan", hex(&file));
            }
            if let Some(text) = cursor {
                let file = self.plan(text)?.file();
                self.set("saved", hex(&file));
            }
        } else {
            if let Some(text) = plan {
                let table = self.plan(text)?.table();
                self.set("table", joined(&table));
            }
            if let Some(text) = cursor {
                let cursor = numbers(text)?;
                if cursor.len() != CURSOR_WORDS {
                    return Err(format!("'{}' is no cursor", text));
                }
                self.set("cursor", joined(&cursor));
            }
            // A call leaves another cursor, and a move another table.
            self.set.remove("cursor");
            if verb == "move" {
                self.set.remove("table");
            }
        }
        let spelled = match line.split_once(" beside ") {
            Some((call, other)) => recheck_list::spelled(call, &self.plan(other)?.table()),
            None if admit_list::is_call(verb) => admit_list::spelled(line)?,
            None => line.to_string(),
        };
        self.say(&spelled);
        Ok(())
    }

    fn line(&mut self, line: &str) -> Spelled<()> {
        if line.starts_with("# ") {
            // What stands below a heading can be run alone (tests/edits.test).
            self.network = None;
            self.set.remove("table");
            self.say(line);
            return Ok(());
        }
        match line.strip_prefix("let ").and_then(|rest| rest.split_once(" = ")) {
            Some((name, plan)) => {
                let plan = self.plan(plan)?;
                self.names.insert(name.to_string(), plan);
                Ok(())
            }
            None => self.call(line),
        }
    }
}

fn parted<'a>(line: &'a str, at: &str) -> (&'a str, Option<&'a str>) {
    match line.split_once(at) {
        Some((before, after)) => (before, Some(after)),
        None => (line, None),
    }
}

pub fn joined(words: &[u32]) -> String {
    words.iter().map(u32::to_string).collect::<Vec<_>>().join(" ")
}

pub fn hex(bytes: &[u8]) -> String {
    bytes.iter().map(|byte| format!("{:02x}", byte)).collect::<Vec<_>>().join(" ")
}

/// The lines that the program reads.
pub fn spelled(list: &str) -> Spelled<String> {
    let mut state = List { names: HashMap::new(), set: HashMap::new(), network: None, out: String::new() };
    for (number, line) in list.lines().enumerate() {
        if !line.is_empty() && !line.starts_with("##") {
            state.line(line).map_err(|fault| format!("line {}: {}", number + 1, fault))?;
        }
    }
    Ok(state.out)
}
