//! The judge: the plain checker, asked by scripts. Usage: judge QUESTION... or judge serve, for a question in each line.
//! What serve answers ends with an empty line.
//!
//!   encode NUMBERS                  the bytes of these numbers
//!   write WORDS LENT                the file of this table, in a lent buffer of so many bytes
//!   save CURSOR LENT                the file of this cursor, likewise
//!   words|shape|check PLAN          what the programs print
//!   cursor CURSOR                   cursor REVISION LEG PLACE
//!   start PLAN                      granted REVISION LEG PLACE
//!   slice PLAN CURSOR BUDGET        nothing violated|paused|violated REVISION LEG PLACE steps STEPS [RULE]
//!   move PLAN CURSOR LEG OFFSET [PERIODS]
//!                                   granted REVISION LEG PLACE, and in a second line the new table
//!   convert FILE LENT               the file of today that this one of the first layout becomes, in so many lent bytes
//!   places LEGS                     how many places there are
//!   word PLAN stream 0 octets       which word of the table this is; also word PLAN revision
//!   plan SEED STREAMS [late]        a table in which nothing is violated, of so many streams or fewer; some of them may pass
//!                                   the end of their period
//!   why words|shape|check PLAN      the sentence that the program says on standard error, or none where it does not refuse
//!   why slice PLAN CURSOR           likewise for a slice: the sentence of the plan, or that of the cursor
//!   why move PLAN CURSOR LEG OFFSET [PERIODS]
//!                                   likewise for a move: the sentence of the plan, of the cursor, or that of the move
//!   why convert FILE                likewise for a file of the first layout
//!
//! PLAN and CURSOR are bytes, x0AFF or @FILE, or words, w0,2,2. Each may be refused: refused NUMBER AT. Where the question
//! is why, words are the file that has them, and bytes of a cursor have to be readable: reasons.rs has no sentence for others.
//!
//! These commands are no questions:
//!
//!   judge inputs words|shape|check SEED MOST      plan files for a program, so many of each family, in lines
//!   judge list                                    the list of cases on standard input, spelled out (list.rs)
//!   judge answers                                 what the program of cases has to print for what list made
//!   judge compare SEED CALLS DRIVER...            holds the calls for C against the checker; the driver is that of driver.c

#[allow(dead_code)] // It also serves the comparison of admissions.
mod admit;
mod admit_jump;
mod admit_list;
mod answers;
mod calls;
mod cases;
mod chance;
mod check;
mod compare;
mod damage;
#[allow(dead_code)] // It also serves the other comparisons.
mod drafts;
mod driver;
mod explain_list;
mod fail;
mod format;
#[allow(dead_code)] // It also serves the comparison of gate lists.
mod gates;
mod gates_list;
#[allow(dead_code)] // The comparison of gate lists holds it against gates.rs.
mod gates_quick;
mod inputs;
mod layout;
mod list;
#[allow(dead_code)] // It also serves the comparison of networks.
mod network;
mod network_list;
mod paper;
mod reasons;
#[allow(dead_code)] // It also serves the comparison of rechecks.
mod recheck;
mod recheck_list;
#[allow(dead_code)] // It also serves the comparisons that are programs of their own.
mod report;
mod rules;
mod shape;
mod told;
mod wrong;

use chance::Chance;
use check::{begin, Checker, Plain};
use format::{encoded, index_of, table, write_cursor, write_plan, Cursor, Move, Outcome, Plan, HEADER};
use paper::{CURSOR_WORDS, NOTHING_VIOLATED, PAUSED};
use reasons::Said;
use std::io::{BufRead, Read, Write};
use told::{joined, printed, rule_named, said, Verb};

/// What is wrong with a question.
type Asked<T> = Result<T, String>;

enum Given {
    Bytes(Vec<u8>),
    Words(Vec<u32>),
}

impl Given {
    fn of(text: &str) -> Asked<Given> {
        let rest = text.get(1..).unwrap_or("");
        match text.as_bytes().first() {
            Some(b'x') => Ok(Given::Bytes(bytes(rest)?)),
            Some(b'@') => std::fs::read(rest).map(Given::Bytes).map_err(|fault| format!("{}: {}", rest, fault)),
            Some(b'w') => Ok(Given::Words(numbers(rest)?)),
            _ => Err(format!("'{}' is no bytes and no words", text)),
        }
    }

    fn plan(&self) -> Outcome<Plan> {
        match self {
            Given::Bytes(bytes) => Plain.read_plan(bytes),
            Given::Words(words) => table(&Plain, words),
        }
    }

    /// The plan file that this is.
    fn file(self) -> Vec<u8> {
        match self {
            Given::Bytes(bytes) => bytes,
            Given::Words(words) => encoded(&words),
        }
    }

    fn cursor(&self) -> Asked<Outcome<Cursor>> {
        match self {
            Given::Bytes(bytes) => Ok(Plain.read_cursor(bytes)),
            Given::Words(words) => {
                let words: &[u32; CURSOR_WORDS] = words[..].try_into().map_err(|_| "a cursor has three words")?;
                Ok(Ok(Cursor::of(*words)))
            }
        }
    }
}

fn number(text: &str) -> Asked<u32> {
    text.parse().map_err(|_| format!("'{}' is no word", text))
}

fn numbers(text: &str) -> Asked<Vec<u32>> {
    text.split(',').filter(|word| !word.is_empty()).map(number).collect()
}

fn bytes(hex: &str) -> Asked<Vec<u8>> {
    let byte = |at: usize| hex.get(at..at + 2).and_then(|pair| u8::from_str_radix(pair, 16).ok());
    (0..hex.len()).step_by(2).map(byte).collect::<Option<_>>().ok_or_else(|| format!("'{}' is no hex", hex))
}

fn hex(bytes: &[u8]) -> String {
    bytes.iter().map(|byte| format!("{:02x}", byte)).collect()
}

fn shown(bytes: Vec<u8>) -> String {
    format!("x{}\n", hex(&bytes))
}

fn told(cursor: Cursor) -> String {
    joined(&cursor.words(), " ")
}

/// What a plan and a cursor are taken for, before a slice or a move.
fn opened(plan: &Given, cursor: &Given) -> Asked<Outcome<(Plan, Cursor)>> {
    let cursor = cursor.cursor()?;
    let taken = || {
        let (plan, cursor) = (plan.plan()?, cursor?);
        Plain.judge(&plan)?;
        Plain.fits(&plan, cursor)?;
        Ok((plan, cursor))
    };
    Ok(taken())
}

fn start(plan: &Given) -> Outcome<String> {
    let plan = plan.plan()?;
    Plain.judge(&plan)?;
    Ok(format!("granted {}\n", told(begin(&plan))))
}

fn slice(plan: &Plan, cursor: Cursor, budget: u32) -> String {
    let sliced = Plain.slice(plan, cursor, budget);
    let kind = match sliced.result {
        NOTHING_VIOLATED => "nothing violated",
        PAUSED => "paused",
        _ => "violated",
    };
    let rule = if kind == "violated" { format!(" {}", rule_named(&Plain, sliced.result)) } else { String::new() };
    format!("{} {} steps {}{}\n", kind, told(sliced.cursor), sliced.steps, rule)
}

fn moved(mut plan: Plan, cursor: Cursor, wanted: Move) -> Outcome<String> {
    let cursor = Plain.moved(&mut plan, cursor, wanted)?;
    Ok(format!("granted {}\nw{}\n", told(cursor), joined(&plan.words(), ",")))
}

/// What a slice or a move says of the plan, of the cursor, and of the move.
fn said_of_call(plan: Given, cursor: &Given, wanted: Option<Move>) -> Asked<Said<()>> {
    let (plan, cursor) = match (reasons::read(&Plain, &plan.file()), cursor.cursor()?) {
        (Err(sentence), _) => return Ok(Err(sentence)),
        (Ok(_), Err(_)) => return Err("a cursor that cannot be read has no sentence".to_string()),
        (Ok(plan), Ok(cursor)) => (plan, cursor),
    };
    let said = || {
        reasons::judge(&Plain, &plan)?;
        reasons::fits(&Plain, &plan, cursor)?;
        wanted.map_or(Ok(()), |wanted| reasons::moved(&Plain, &plan, cursor, wanted))
    };
    Ok(said())
}

/// What a move sets: a leg, its offset and its period word, which is 0 where it is not given.
fn wanted(numbers: &[&str]) -> Asked<Move> {
    let word = |at: usize| numbers.get(at).map_or(Ok(0), |text| number(text));
    match numbers.len() {
        2 | 3 => Ok(Move { leg: word(0)?, offset: word(1)?, periods: word(2)? }),
        _ => Err("this is no move".to_string()),
    }
}

/// The sentence of a refusal, or none.
fn why(question: &[&str]) -> Asked<String> {
    let given = |at: usize| Given::of(question[at]);
    let said = match question {
        ["slice", _, _] => said_of_call(given(1)?, &given(2)?, None)?,
        ["move", _, _, numbers @ ..] => said_of_call(given(1)?, &given(2)?, Some(wanted(numbers)?))?,
        ["convert", _] => reasons::read_first(&Plain, &given(1)?.file()).map(|_| ()),
        [verb, _] => said(&Plain, Verb::named(verb).ok_or("no program of this name")?, &given(1)?.file()),
        _ => return Err("this is no refusal".to_string()),
    };
    Ok(said.err().unwrap_or_else(|| "none".to_string()) + "\n")
}

/// Which word of a table has this name.
fn index(plan: &Plan, name: &[&str]) -> Asked<String> {
    let found = match name {
        [word] => HEADER.iter().position(|name| name == word),
        [kind, record, word] => index_of(plan, kind, number(record)? as usize, word),
        _ => None,
    };
    found.map(|at| format!("{}\n", at)).ok_or_else(|| format!("there is no word '{}'", name.join(" ")))
}

fn answer(question: &[&str]) -> Asked<String> {
    let given = |at: usize| Given::of(question[at]);
    let told = match question {
        ["encode", _] => match given(1)? {
            Given::Words(words) => Ok(shown(encoded(&words))),
            Given::Bytes(_) => return Err("bytes are encoded already".to_string()),
        },
        ["write", _, lent] => match given(1)? {
            Given::Words(words) => write_plan(&Plain, &words, number(lent)? as usize).map(shown),
            Given::Bytes(_) => return Err("bytes are written already".to_string()),
        },
        ["save", _, lent] => {
            let lent = number(lent)? as usize;
            given(1)?.cursor()?.and_then(|cursor| write_cursor(&Plain, cursor, lent)).map(shown)
        }
        ["cursor", _] => given(1)?.cursor()?.map(|cursor| format!("cursor {}\n", told(cursor))),
        ["start", _] => start(&given(1)?),
        ["slice", _, _, budget] => {
            let budget = number(budget)?;
            opened(&given(1)?, &given(2)?)?.map(|(plan, cursor)| slice(&plan, cursor, budget))
        }
        ["move", _, _, numbers @ ..] => {
            let wanted = wanted(numbers)?;
            opened(&given(1)?, &given(2)?)?.and_then(|(plan, cursor)| moved(plan, cursor, wanted))
        }
        ["convert", _, lent] => Plain.converted(&given(1)?.file(), number(lent)? as usize).map(shown),
        ["word", _, name @ ..] => match given(1)?.plan() {
            Ok(plan) => Ok(index(&plan, name)?),
            Err(refusal) => Err(refusal),
        },
        ["plan", seed, streams, late @ ..] if matches!(late, [] | ["late"]) => {
            let mut chance = Chance::new(seed.parse().map_err(|_| "no seed")?, 0);
            let plan = drafts::accepted(&mut chance, number(streams)? as usize, !late.is_empty());
            Ok(format!("w{}\n", joined(&plan.words(), ",")))
        }
        ["why", refused @ ..] => Ok(why(refused)?),
        ["places", legs] => Ok(format!("{}\n", Plain.places(u64::from(number(legs)?)))),
        [verb, _] => match Verb::named(verb) {
            Some(verb) => Ok(printed(&Plain, verb, given(1)?.plan())),
            None => return Err(format!("there is no question '{}'", verb)),
        },
        _ => return Err("this is no question".to_string()),
    };
    Ok(told.unwrap_or_else(told::refusal))
}

/// Answers a question in each line, until there are no more.
fn serve() -> std::io::Result<()> {
    let mut out = std::io::stdout().lock();
    for line in std::io::stdin().lock().lines() {
        let line = line?;
        let told =
            answer(&line.split(' ').collect::<Vec<_>>()).unwrap_or_else(|fault| format!("bad question: {}\n", fault));
        out.write_all(told.as_bytes())?;
        out.write_all(b"\n")?;
        out.flush()?;
    }
    Ok(())
}

/// Prints the inputs of a program in hex. Says whether each wrong checker is told by one of them.
fn inputs(verb: Verb, seed: u64, most: usize) -> bool {
    let inputs = inputs::inputs(verb, seed, most);
    for file in &inputs.files {
        println!("x{}", hex(file));
    }
    for name in &inputs.at_large {
        println!("NOT CAUGHT: {}", name);
    }
    inputs.at_large.is_empty()
}

fn input() -> Asked<String> {
    let mut text = String::new();
    std::io::stdin().read_to_string(&mut text).map_err(|fault| fault.to_string())?;
    Ok(text)
}

fn shown_all(told: String) -> bool {
    print!("{}", told);
    true
}

/// Does what is asked for, and says whether all is well.
fn done(words: &[&str], rest: &[String]) -> Asked<bool> {
    let number = |text: &str| text.parse().map_err(|_| format!("'{}' is no number", text));
    match words {
        ["serve"] => serve().map(|_| true).map_err(|fault| fault.to_string()),
        ["compare", seed, calls, _, ..] => Ok(compare::run(number(seed)?, number(calls)?, &rest[3..])),
        ["inputs", verb, seed, most] => {
            let verb = Verb::named(verb).ok_or("no program of this name")?;
            Ok(inputs(verb, number(seed)?, number(most)? as usize))
        }
        ["list"] => list::spelled(&input()?).map(shown_all),
        ["answers"] => answers::answers(&input()?).map(shown_all),
        question => answer(question).map(shown_all),
    }
}

fn main() {
    fail::fail_silently();
    let rest: Vec<String> = std::env::args().skip(1).collect();
    let words: Vec<&str> = rest.iter().map(String::as_str).collect();
    std::process::exit(match done(&words, &rest) {
        Ok(true) => 0,
        Ok(false) => 1,
        Err(fault) => {
            eprintln!("judge: {}", fault);
            4
        }
    })
}
