//! What a refusal says: one sentence, which names the record and its numbers. Where a record has several causes, the first
//! one in the order of this file is told.

use crate::check::{places_of, Checker};
use crate::format::{Cursor, Layout, Leg, Link, Move, Numbers, Plan, Refusal, Stream};
use crate::paper::{
    ABOVE_LIMIT, BAD_FORM, ENDS_EARLY, HEADER_WORDS, LAST_REVISION, LEFT_OVER, LEG_WRONG, LINK_RANGE, LINK_TWICE, MORE,
    NO_LEG, NO_PLACE, NUMBER_BYTES, STALE, STREAM_WRONG, TOO_LATE,
};

/// What is given where nothing is refused, or the sentence of the refusal.
pub type Said<T> = Result<T, String>;

/// The causes that a refusal can have, in their order: a sentence for each that is there.
type Causes = Vec<Option<String>>;

/// The plan of a file: refusals 12, 13, 2 and 14.
pub fn read<C: Checker>(c: &C, bytes: &[u8]) -> Said<Plan> {
    c.read_plan(bytes).map_err(|refusal| c.unread(bytes, Layout::Second, refusal))
}

/// Likewise of a file of the first layout.
pub fn read_first<C: Checker>(c: &C, bytes: &[u8]) -> Said<Plan> {
    c.read_first(bytes).map_err(|refusal| c.unread(bytes, Layout::First, refusal))
}

/// Whether a plan is well-formed: refusals 4 to 7.
pub fn judge<C: Checker>(c: &C, plan: &Plan) -> Said<()> {
    c.judge(plan).map_err(|refusal| misshapen(c, plan, refusal))
}

/// Whether a cursor fits a well-formed plan: refusals 8 and 9.
pub fn fits<C: Checker>(c: &C, plan: &Plan, cursor: Cursor) -> Said<()> {
    c.fits(plan, cursor).map_err(|refusal| misplaced(plan, cursor, refusal))
}

/// Whether a leg can be moved, by a cursor that fits: refusals 10, 11 and 17.
pub fn moved<C: Checker>(c: &C, plan: &Plan, cursor: Cursor, wanted: Move) -> Said<()> {
    let refusal = c.moved(&mut plan.clone(), cursor, wanted).err();
    refusal.map_or(Ok(()), |refusal| Err(unmoved(c, plan, wanted, refusal)))
}

/// The first cause of a refusal that is there.
pub fn cause_told<C: Checker>(_: &C, _refusal: u32, causes: &[Option<String>]) -> Option<String> {
    causes.iter().flatten().next().cloned()
}

fn the_one_told<C: Checker>(c: &C, refusal: u32, causes: Causes) -> String {
    c.cause_told(refusal, &causes).expect("a refusal has a cause")
}

/// A sentence with # in the place of each number: which kind it is of.
pub fn kind(sentence: &str) -> String {
    let mut kind = String::new();
    for letter in sentence.chars().map(|letter| if letter.is_ascii_digit() { '#' } else { letter }) {
        if letter != '#' || !kind.ends_with('#') {
            kind.push(letter);
        }
    }
    kind
}

// ---- Ranges

/// The range that a word has to be in, where it is not.
fn missed((least, most): (u32, u32), word: u32) -> Option<String> {
    (word < least || word > most).then(|| format!("{} to {}", least, most))
}

/// How records are numbered, where there are any.
pub fn numbered<C: Checker>(_: &C, records: &str, count: usize) -> Option<String> {
    count.checked_sub(1).map(|last| format!("{} are 0 to {}", records, last))
}

fn numbered_or_none<C: Checker>(c: &C, records: &str, count: usize) -> String {
    c.numbered(records, count).unwrap_or_else(|| format!("the plan has no {}", records))
}

/// For instance 8, 80 or 800.
fn either(words: &[u32]) -> String {
    let words: Vec<String> = words.iter().map(u32::to_string).collect();
    match words.split_last() {
        Some((last, others)) if !others.is_empty() => format!("{} or {}", others.join(", "), last),
        _ => words.concat(),
    }
}

// ---- A plan file that cannot be read

/// The names of the numbers in a plan file: those of the header, and those of a link, a stream and a leg.
const HEADER: [&str; HEADER_WORDS] =
    ["the revision", "the number of links", "the number of streams", "the number of legs", "the clock precision"];
const RECORDS: [(&str, &[&str]); 3] = [
    ("link", &["from node", "to node", "ns per octet", "propagation"]),
    ("stream", &["period", "deadline", "octet count", "first leg", "leg count"]),
    ("leg", &["stream", "link", "offset", "period word"]),
];

/// What is said besides of a file that may be of the first layout. Nothing is decided by this.
const FIRST_HINT: &str = ", but not in the first layout: see 'conepalhui help convert'";

/// How many numbers there are, in words.
const IN_WORDS: [&str; 8] = ["no", "one", "two", "three", "four", "five", "six", "seven"];

/// The name of the number with so many before it, in a file of this layout and with this header.
pub fn name<C: Checker>(_: &C, layout: Layout, header: &[u32; HEADER_WORDS], before: usize) -> String {
    if let Some(name) = HEADER.get(before) {
        return name.to_string();
    }
    let mut at = before - HEADER_WORDS;
    for (&(record, words), &count) in RECORDS.iter().zip(&header[1..]) {
        let words = if record == "leg" { &words[..layout.leg_words()] } else { words };
        let numbers = words.len() * count as usize;
        if at < numbers {
            return format!("the {} of {} {}", words[at % words.len()], record, at / words.len());
        }
        at -= numbers;
    }
    unreachable!("a plan file has no more numbers")
}

/// The numbers of the header. Where they cannot all be read, none of them is needed.
fn header<C: Checker>(c: &C, bytes: &[u8]) -> [u32; HEADER_WORDS] {
    Numbers { checker: c, bytes, at: 0 }.record().unwrap_or_default()
}

/// The name of the number that begins at a byte. Each number before it has just one byte that says that no other follows.
fn name_at<C: Checker>(c: &C, bytes: &[u8], layout: Layout, at: usize) -> String {
    c.name(layout, &header(c, bytes), numbers_in(&bytes[..at.min(bytes.len())]))
}

fn numbers_in(bytes: &[u8]) -> usize {
    bytes.iter().filter(|byte| **byte & MORE == 0).count()
}

/// Whether a file that is too short for today's layout has as many numbers as one of the first layout.
pub fn ends_in_first<C: Checker>(c: &C, bytes: &[u8]) -> bool {
    numbers_in(bytes) as u64 == Layout::First.table_words(&header(c, bytes))
}

/// Whether a number of a bad form has a last byte that it does not need. Otherwise its fifth byte is too high.
pub fn is_too_long<C: Checker>(_: &C, bytes: &[u8], at: usize) -> bool {
    bytes.iter().skip(at).take(NUMBER_BYTES).find(|byte| **byte & MORE == 0) == Some(&0)
}

pub fn unread<C: Checker>(c: &C, bytes: &[u8], layout: Layout, refusal: Refusal) -> String {
    let (at, end) = (refusal.at, bytes.len());
    let name = || name_at(c, bytes, layout, at);
    match refusal.number {
        ENDS_EARLY if end == 0 => {
            format!("the file is empty, but a plan begins with {} numbers", IN_WORDS[HEADER_WORDS])
        }
        ENDS_EARLY if at >= end => {
            let hint = if c.ends_in_first(bytes) { FIRST_HINT } else { "" };
            format!("the file ends too early: {} is due at byte {}{}", name(), at, hint)
        }
        ENDS_EARLY => {
            format!("the file ends too early, inside {}, which begins at byte {}", name(), at)
        }
        BAD_FORM if c.is_too_long(bytes, at) => {
            format!("{}, at byte {}, is written in more bytes than it needs", name(), at)
        }
        BAD_FORM if bytes.get(at + NUMBER_BYTES - 1).map_or(false, |byte| byte & MORE != 0) => {
            format!("{}, at byte {}, takes more than {} bytes", name(), at, IN_WORDS[NUMBER_BYTES])
        }
        BAD_FORM => format!("{}, at byte {}, is above {}", name(), at, u32::MAX),
        ABOVE_LIMIT => the_one_told(c, ABOVE_LIMIT, above_limits(c, &header(c, bytes))),
        LEFT_OVER => {
            let by = if layout == Layout::First { " in the first layout" } else { "" };
            format!("by its header the plan has {} bytes{}, but the file has more", at, by)
        }
        other => unreachable!("the reader does not give refusal {}", other),
    }
}

fn above_limits<C: Checker>(c: &C, header: &[u32; HEADER_WORDS]) -> Causes {
    let (limits, [_, links, streams, legs, precision]) = (c.limits(), *header);
    let too_many = |at: usize, count: u32, most: u32| {
        (count > most).then(|| format!("{} is {}, but a plan has at most {}", HEADER[at], count, most))
    };
    let most = limits.precision;
    vec![
        too_many(1, links, limits.links),
        too_many(2, streams, limits.streams),
        too_many(3, legs, limits.legs),
        (precision > most).then(|| format!("{} is {} ns, but at most {} ns are allowed", HEADER[4], precision, most)),
    ]
}

// ---- A table that is not well-formed

fn misshapen<C: Checker>(c: &C, plan: &Plan, refusal: Refusal) -> String {
    let at = refusal.at;
    let causes = match refusal.number {
        LINK_RANGE => out_of_range(c, at, &plan.links[at]),
        LINK_TWICE => vec![Some(twice(c, at, &plan.links))],
        STREAM_WRONG if at == plan.streams.len() => vec![Some(left_out(c, plan))],
        STREAM_WRONG => stream_wrong(c, at, plan),
        LEG_WRONG => leg_wrong(c, at, plan),
        other => unreachable!("the shape does not give refusal {}", other),
    };
    the_one_told(c, refusal.number, causes)
}

fn out_of_range<C: Checker>(c: &C, at: usize, link: &Link) -> Causes {
    let Link { from, to, ns_per_octet, propagation } = *link;
    let most = c.limits();
    vec![
        missed((0, most.node), from).map(|nodes| format!("link {} is from node {}, but nodes are {}", at, from, nodes)),
        missed((0, most.node), to).map(|nodes| format!("link {} is to node {}, but nodes are {}", at, to, nodes)),
        (from == to).then(|| format!("link {} is from node {} to itself", at, from)),
        (!most.rates.contains(&ns_per_octet)).then(|| {
            format!("link {} takes {} ns per octet, but a link takes {}", at, ns_per_octet, either(most.rates))
        }),
        (propagation > most.propagation).then(|| {
            format!(
                "link {} has a propagation of {} ns, but at most {} ns are allowed",
                at, propagation, most.propagation
            )
        }),
    ]
}

/// The lowest earlier link with the same nodes.
pub fn twin<C: Checker>(_: &C, links: &[Link], at: usize) -> Option<usize> {
    links[..at].iter().position(|earlier| (earlier.from, earlier.to) == (links[at].from, links[at].to))
}

fn twice<C: Checker>(c: &C, at: usize, links: &[Link]) -> String {
    let twin = c.twin(links, at).expect("a link that is there twice has a twin");
    format!("link {} is from node {} to node {}, and so is link {}", at, links[at].from, links[at].to, twin)
}

/// How many legs the streams before one have.
pub fn legs_before<C: Checker>(_: &C, plan: &Plan, stream: usize) -> u64 {
    plan.streams.iter().take(stream).map(|earlier| u64::from(earlier.leg_count)).sum()
}

pub fn last_leg<C: Checker>(_: &C, stream: &Stream) -> u64 {
    u64::from(stream.first_leg) + u64::from(stream.leg_count) - 1
}

fn stream_wrong<C: Checker>(c: &C, at: usize, plan: &Plan) -> Causes {
    let stream = &plan.streams[at];
    let Stream { period, deadline, octets, first_leg, leg_count } = *stream;
    let (limits, before, legs) = (c.limits(), c.legs_before(plan, at), plan.legs.len());
    // As far as a word holds it.
    let longest = limits.deadline_periods.saturating_mul(period);
    vec![
        missed(limits.period, period)
            .map(|periods| format!("stream {} has a period of {} ns, but periods are {} ns", at, period, periods)),
        missed((limits.deadline_least, longest), deadline).map(|deadlines| {
            format!("stream {} has a deadline of {} ns, but its period allows {} ns", at, deadline, deadlines)
        }),
        missed(limits.octets, octets)
            .map(|frames| format!("stream {} has frames of {} octets, but frames have {}", at, octets, frames)),
        (u64::from(first_leg) != before).then(|| {
            format!("stream {} begins at leg {}, but the leg counts before it add up to {}", at, first_leg, before)
        }),
        missed(limits.route, leg_count)
            .map(|counts| format!("stream {} has a leg count of {}, but leg counts are {}", at, leg_count, counts)),
        (u64::from(first_leg) + u64::from(leg_count) > legs as u64).then(|| {
            let all = numbered_or_none(c, "legs", legs);
            format!("stream {} has the legs {} to {}, but {}", at, first_leg, c.last_leg(stream), all)
        }),
    ]
}

/// Refusal 6 for legs that no stream has.
fn left_out<C: Checker>(c: &C, plan: &Plan) -> String {
    let sum = c.legs_before(plan, plan.streams.len());
    format!("the leg counts add up to {}, but the number of legs is {}", sum, plan.legs.len())
}

/// The stream that a leg is of, by the first legs and the counts.
pub fn owner<C: Checker>(_: &C, plan: &Plan, leg: usize) -> usize {
    let ends = |stream: &Stream| stream.first_leg as usize + stream.leg_count as usize;
    plan.streams.iter().position(|stream| leg < ends(stream)).expect("each leg is of a stream")
}

/// The nodes that a route has met before a leg of it, in their order. There are none before its first leg.
pub fn met<C: Checker>(_: &C, plan: &Plan, first: usize, leg: usize) -> Vec<u32> {
    let links = || plan.legs[first..leg].iter().map(|leg| &plan.links[leg.link as usize]);
    links().take(1).map(|link| link.from).chain(links().map(|link| link.to)).collect()
}

fn leg_wrong<C: Checker>(c: &C, at: usize, plan: &Plan) -> Causes {
    let (Leg { stream, link, periods, .. }, owner) = (plan.legs[at], c.owner(plan, at));
    let met = c.met(plan, plan.streams[owner].first_leg as usize, at);
    let taken = plan.links.get(link as usize);
    let links = || numbered_or_none(c, "links", plan.links.len());
    let from_elsewhere = |taken: &Link| {
        let here = met.last().filter(|here| **here != taken.from)?;
        Some(format!(
            "leg {} takes link {} from node {}, but its route has reached node {}",
            at, link, taken.from, here
        ))
    };
    vec![
        (stream as usize != owner).then(|| {
            format!("leg {} names stream {}, but by the leg counts it is a leg of stream {}", at, stream, owner)
        }),
        taken.is_none().then(|| format!("leg {} names link {}, but {}", at, link, links())),
        missed((0, c.limits().periods), periods)
            .map(|words| format!("leg {} has the period word {}, but period words are {}", at, periods, words)),
        taken.and_then(from_elsewhere),
        taken
            .filter(|taken| met.contains(&taken.to))
            .map(|taken| format!("leg {} takes link {} to node {}, where its route was before", at, link, taken.to)),
    ]
}

// ---- A cursor, or a move

fn misplaced(plan: &Plan, cursor: Cursor, refusal: Refusal) -> String {
    let Cursor { revision, leg, place } = cursor;
    let legs = plan.legs.len();
    match refusal.number {
        STALE => format!("the cursor belongs to revision {}, but the plan has revision {}", revision, plan.revision),
        NO_PLACE if (leg as usize) < legs => {
            let last = places_of(leg) - 1;
            format!("the cursor is at leg {}, place {}, but leg {} has the places 0 to {}", leg, place, leg, last)
        }
        NO_PLACE => {
            format!("the cursor is at leg {}, place {}, but the plan ends at leg {}, place 0", leg, place, legs)
        }
        other => unreachable!("a cursor does not meet refusal {}", other),
    }
}

fn unmoved<C: Checker>(c: &C, plan: &Plan, wanted: Move, refusal: Refusal) -> String {
    match refusal.number {
        NO_LEG => {
            format!("there is no leg {}: {}", wanted.leg, numbered_or_none(c, "legs", plan.legs.len()))
        }
        LAST_REVISION => format!("the plan has revision {}, the last one: no move is possible", plan.revision),
        TOO_LATE => {
            format!("the period word is {}, but period words are 0 to {}", wanted.periods, c.limits().periods)
        }
        other => unreachable!("a move does not meet refusal {}", other),
    }
}
