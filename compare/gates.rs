//! The gate list of one link, plainly: the instants of a cycle are laid out one by one, and each is marked at which a leg
//! holds the link. Written from the request alone. A `Teller` is a table of decisions, in which a wrong one replaces some;
//! `RIGHT` has them as they are right.

use crate::admit::NOT_ACCEPTED;
use crate::check::{whole, Bent, Checker, RIGHT as CHECKER};
use crate::format::{encoded, refused, Numbers, Outcome, Plan, Refusal};
use crate::gates_quick;
use crate::paper::{GRANTED, NOTHING_VIOLATED, NO_ROOM, REFUSED};
use crate::rules::{sent, Sent};
use std::sync::Arc;

pub const LONG_CYCLE: u32 = 21;
pub const MANY_PAIRS: u32 = 22;
pub const NO_LINK: u32 = 23;

/// The mask while a leg holds the link, and the mask otherwise.
pub const HELD: u32 = 128;
pub const IDLE: u32 = 127;
/// The most ns of a cycle, and the most pairs of a list.
pub const MOST_CYCLE: u64 = 1_000_000_000;
pub const MOST_PAIRS: usize = 1_024;
/// A mask and a duration.
pub const PAIR_WORDS: usize = 2;

/// Up to this cycle each instant is laid out. A longer one is told by its holds (gates_quick.rs).
pub const MOST_LAID: u64 = 1_000_000;

#[derive(Clone, Copy, Debug, PartialEq, Eq)]
pub enum Asked {
    /// The list of this link of a plan.
    Gates(u32),
    /// The numbers of a list file.
    Read,
}

/// A call with all that it is lent: bytes for a list, or words for what is read.
#[derive(Clone)]
pub struct Call {
    pub asked: Asked,
    /// A plan file, or a list file.
    pub file: Arc<[u8]>,
    /// What lies in the lent buffers before the call. The one that is not of this call is empty.
    pub list: Vec<u8>,
    pub words: Vec<u32>,
}

#[derive(Clone, Debug, PartialEq, Eq)]
pub struct Answer {
    pub result: u32,
    pub number: u32,
    pub list: Vec<u8>,
    pub words: Vec<u32>,
}

/// For how many ns a link is held, or is not.
#[derive(Clone, Copy, Debug, PartialEq, Eq)]
pub struct Pair {
    pub is_held: bool,
    pub duration: u64,
}

/// What is known of a call once the shape is judged.
pub struct Known<'a> {
    pub plan: &'a Plan,
    pub link: u32,
    /// So many bytes are lent for the list.
    pub room: usize,
    list: Option<Vec<Pair>>,
}

/// A refusal after the shape.
pub type Test = fn(&Teller, &mut Known) -> Outcome<()>;

#[derive(Clone, Copy)]
pub struct Teller {
    /// By these rules the plan is read, judged and checked.
    pub checker: Bent,
    // What is refused.
    pub opened: fn(&Teller, &Call) -> Outcome<Plan>,
    pub order: &'static [Test],
    pub has_link: fn(&Plan, u32) -> bool,
    pub is_accepted: fn(&Teller, &Plan, u32) -> bool,
    pub most_cycle: u64,
    pub most_pairs: usize,
    pub bytes_needed: fn(&Teller, &[Pair]) -> usize,
    pub refuse: fn(Refusal, &Call, &mut Answer),
    // The list.
    pub on_link: fn(&Teller, &Plan, u32) -> Vec<Sent>,
    pub cycle: fn(&Plan, &[Sent], u64) -> Option<u64>,
    pub pairs: fn(&[Sent], u64) -> Vec<Pair>,
    pub mask: fn(bool) -> u32,
    pub words: fn(&Teller, &[Pair]) -> Vec<u32>,
    pub bytes: fn(&[u32]) -> Vec<u8>,
    pub give: fn(&[u8], &[Pair], &mut Answer),
    // A list file.
    pub read: fn(&Teller, &[u8]) -> Outcome<Vec<u32>>,
    pub has_words: fn(&Teller, &Call, &[u32]) -> Outcome<()>,
    pub give_words: fn(&[u32], &mut Answer),
}

pub const RIGHT: Teller = Teller {
    checker: CHECKER,
    opened,
    order: &[has_link, accepts, cycle_fits, pairs_fit, has_room],
    has_link: |plan, link| (link as usize) < plan.links.len(),
    is_accepted: |g, plan, _| is_accepted(&g.checker, plan),
    most_cycle: MOST_CYCLE,
    most_pairs: MOST_PAIRS,
    bytes_needed,
    refuse,
    on_link,
    cycle: |_, legs, most| cycle(legs, most),
    pairs,
    mask,
    words,
    bytes: encoded,
    give,
    read,
    has_words,
    give_words,
};

/// What a teller answers.
pub fn answer(g: &Teller, call: &Call) -> Answer {
    let mut answer = Answer { result: GRANTED, number: 0, list: call.list.clone(), words: call.words.clone() };
    let told = match call.asked {
        Asked::Gates(link) => {
            listed(g, call, link).map(|pairs| (g.give)(&(g.bytes)(&(g.words)(g, &pairs)), &pairs, &mut answer))
        }
        Asked::Read => (g.read)(g, &call.file).and_then(|words| {
            (g.has_words)(g, call, &words)?;
            (g.give_words)(&words, &mut answer);
            Ok(())
        }),
    };
    if let Err(refusal) = told {
        (g.refuse)(refusal, call, &mut answer);
    }
    answer
}

/// A refusal is told as its number plus 100, and its position. Nothing is written.
pub fn refuse(refusal: Refusal, _: &Call, answer: &mut Answer) {
    (answer.result, answer.number) = (REFUSED + refusal.number, refusal.at as u32);
}

/// The list of a link: the refusals of the file, those of the shape, and the others in their order.
pub fn listed(g: &Teller, call: &Call, link: u32) -> Outcome<Vec<Pair>> {
    let plan = (g.opened)(g, call)?;
    let mut known = Known { plan: &plan, link, room: call.list.len(), list: None };
    for test in g.order {
        test(g, &mut known)?;
    }
    Ok(known.list(g).to_vec())
}

// ---- What is refused

pub fn opened(g: &Teller, call: &Call) -> Outcome<Plan> {
    let plan = g.checker.read_plan(&call.file)?;
    g.checker.judge(&plan)?;
    Ok(plan)
}

/// Refusal 23.
pub fn has_link(g: &Teller, known: &mut Known) -> Outcome<()> {
    due(!(g.has_link)(known.plan, known.link), NO_LINK)
}

/// Refusal 19.
pub fn accepts(g: &Teller, known: &mut Known) -> Outcome<()> {
    due(!(g.is_accepted)(g, known.plan, known.link), NOT_ACCEPTED)
}

/// Refusal 21. A link without legs has no cycle that could be too long.
pub fn cycle_fits(g: &Teller, known: &mut Known) -> Outcome<()> {
    let legs = (g.on_link)(g, known.plan, known.link);
    due(!legs.is_empty() && (g.cycle)(known.plan, &legs, g.most_cycle).is_none(), LONG_CYCLE)
}

/// Refusal 22.
pub fn pairs_fit(g: &Teller, known: &mut Known) -> Outcome<()> {
    due(known.list(g).len() > g.most_pairs, MANY_PAIRS)
}

/// Refusal 15, by what the file has in the end.
pub fn has_room(g: &Teller, known: &mut Known) -> Outcome<()> {
    due((g.bytes_needed)(g, known.list(g)) > known.room, NO_ROOM)
}

/// A refusal at 0, where it is due.
pub fn due(is_due: bool, number: u32) -> Outcome<()> {
    if is_due {
        return refused(number, 0);
    }
    Ok(())
}

pub fn is_accepted<C: Checker>(c: &C, plan: &Plan) -> bool {
    whole(c, plan).result == NOTHING_VIOLATED
}

pub fn bytes_needed(g: &Teller, pairs: &[Pair]) -> usize {
    (g.bytes)(&(g.words)(g, pairs)).len()
}

// ---- The list

impl Known<'_> {
    /// The list, which is worked out once. A cycle that passes the limit has one too, which only a wrong teller asks for.
    pub fn list(&mut self, g: &Teller) -> &[Pair] {
        let (plan, link) = (self.plan, self.link);
        self.list.get_or_insert_with(|| {
            let legs = (g.on_link)(g, plan, link);
            if legs.is_empty() {
                return Vec::new();
            }
            match (g.cycle)(plan, &legs, g.most_cycle) {
                Some(cycle) => (g.pairs)(&legs, cycle),
                None => gates_quick::beyond(&legs).unwrap_or_default(),
            }
        })
    }
}

/// The legs of a link, as the rules see them.
pub fn on_link(g: &Teller, plan: &Plan, link: u32) -> Vec<Sent> {
    let is_there = |leg: &usize| plan.legs[*leg].link == link;
    (0..plan.legs.len()).filter(is_there).map(|leg| sent(&g.checker, plan, leg)).collect()
}

/// The least common multiple of the periods, where it is at most so much: of the multiples of the longest period, the first
/// that is one of each. No divisor is taken.
pub fn cycle(legs: &[Sent], most: u64) -> Option<u64> {
    let longest = legs.iter().map(|leg| u64::from(leg.period)).max()?;
    let is_common = |multiple: &u64| legs.iter().all(|leg| multiple % u64::from(leg.period) == 0);
    (1..=most / longest).map(|times| times * longest).find(is_common)
}

pub fn pairs(legs: &[Sent], cycle: u64) -> Vec<Pair> {
    if cycle > MOST_LAID {
        return gates_quick::pairs(legs, cycle);
    }
    runs(&laid_out(legs, cycle))
}

/// For each instant of a cycle, whether a leg holds the link: from its offset on for its hold time, and so in each period.
pub fn laid_out(legs: &[Sent], cycle: u64) -> Vec<bool> {
    let mut is_held = vec![false; cycle as usize];
    for leg in legs {
        for start in (leg.offset..cycle).step_by(leg.period as usize) {
            let end = (start + leg.hold).min(cycle);
            is_held[start as usize..end as usize].fill(true);
        }
    }
    is_held
}

/// The instants from 0 on, as many as follow one another alike in each pair.
pub fn runs(instants: &[bool]) -> Vec<Pair> {
    let mut pairs: Vec<Pair> = Vec::new();
    for &is_held in instants {
        match pairs.last_mut() {
            Some(last) if last.is_held == is_held => last.duration += 1,
            _ => pairs.push(Pair { is_held, duration: 1 }),
        }
    }
    pairs
}

pub fn mask(is_held: bool) -> u32 {
    if is_held {
        HELD
    } else {
        IDLE
    }
}

/// Mask and duration of each pair.
pub fn words(g: &Teller, pairs: &[Pair]) -> Vec<u32> {
    pairs.iter().flat_map(|pair| [(g.mask)(pair.is_held), pair.duration as u32]).collect()
}

pub fn give(bytes: &[u8], _: &[Pair], answer: &mut Answer) {
    answer.list[..bytes.len()].copy_from_slice(bytes);
    answer.number = bytes.len() as u32;
}

// ---- A list file

/// The words of a list file: 12 and 13 from left to right. Where a mask comes last, its duration would start at the end.
pub fn read(g: &Teller, bytes: &[u8]) -> Outcome<Vec<u32>> {
    let mut numbers = Numbers { checker: &g.checker, bytes, at: 0 };
    let mut words = Vec::new();
    while numbers.at < bytes.len() {
        words.extend(numbers.record::<PAIR_WORDS>()?);
    }
    Ok(words)
}

/// Refusal 15 for words.
pub fn has_words(_: &Teller, call: &Call, words: &[u32]) -> Outcome<()> {
    due(words.len() > call.words.len(), NO_ROOM)
}

pub fn give_words(words: &[u32], answer: &mut Answer) {
    answer.words[..words.len()].copy_from_slice(words);
    answer.number = words.len() as u32;
}
