//! Plan files and saved cursors: numbers as bytes, the records of a plan, and its table.

use crate::check::Checker;
use crate::paper::{
    ABOVE_LIMIT, BAD_FORM, CURSOR_WORDS, ENDS_EARLY, FIRST_LEG_WORDS, GROUP_BITS, HEADER_WORDS, LEFT_OVER, LEG_WORDS,
    LINK_WORDS, MORE, NO_ROOM, NUMBER_BYTES, STREAM_WORDS, TOO_FEW_WORDS, WRONG_LENGTH,
};

/// A refusal's number, and where it is due.
#[derive(Clone, Copy, Debug, PartialEq, Eq)]
pub struct Refusal {
    pub number: u32,
    pub at: usize,
}

pub type Outcome<T> = Result<T, Refusal>;

pub fn refused<T>(number: u32, at: usize) -> Outcome<T> {
    Err(Refusal { number, at })
}

#[derive(Clone, Copy, Debug, PartialEq, Eq)]
pub struct Link {
    pub from: u32,
    pub to: u32,
    pub ns_per_octet: u32,
    pub propagation: u32,
}

#[derive(Clone, Copy, Debug, PartialEq, Eq)]
pub struct Stream {
    pub period: u32,
    pub deadline: u32,
    pub octets: u32,
    pub first_leg: u32,
    pub leg_count: u32,
}

#[derive(Clone, Copy, Debug, PartialEq, Eq)]
pub struct Leg {
    pub stream: u32,
    pub link: u32,
    pub offset: u32,
    /// How many whole periods it lies late.
    pub periods: u32,
}

#[derive(Clone, Debug, PartialEq, Eq)]
pub struct Plan {
    pub revision: u32,
    pub precision: u32,
    pub links: Vec<Link>,
    pub streams: Vec<Stream>,
    pub legs: Vec<Leg>,
}

#[derive(Clone, Copy, Debug, PartialEq, Eq)]
pub struct Cursor {
    pub revision: u32,
    pub leg: u32,
    pub place: u32,
}

/// A move: the leg, and what it is set to.
#[derive(Clone, Copy, Debug, PartialEq, Eq)]
pub struct Move {
    pub leg: u32,
    pub offset: u32,
    pub periods: u32,
}

/// A layout of plan files. Files carry no mark, so whoever reads one has to name its layout.
#[derive(Clone, Copy, Debug, PartialEq, Eq)]
pub enum Layout {
    /// Legs have no period word.
    First,
    /// The layout of today.
    Second,
}

// ---- The order of the words

impl Link {
    fn of([from, to, ns_per_octet, propagation]: [u32; LINK_WORDS]) -> Link {
        Link { from, to, ns_per_octet, propagation }
    }

    pub fn words(&self) -> [u32; LINK_WORDS] {
        [self.from, self.to, self.ns_per_octet, self.propagation]
    }
}

impl Stream {
    fn of([period, deadline, octets, first_leg, leg_count]: [u32; STREAM_WORDS]) -> Stream {
        Stream { period, deadline, octets, first_leg, leg_count }
    }

    pub fn words(&self) -> [u32; STREAM_WORDS] {
        [self.period, self.deadline, self.octets, self.first_leg, self.leg_count]
    }
}

impl Leg {
    fn of([stream, link, offset, periods]: [u32; LEG_WORDS]) -> Leg {
        Leg { stream, link, offset, periods }
    }

    /// A leg of the first layout, in which none lies a period late.
    fn of_first([stream, link, offset]: [u32; FIRST_LEG_WORDS]) -> Leg {
        Leg { stream, link, offset, periods: 0 }
    }

    pub fn words(&self) -> [u32; LEG_WORDS] {
        [self.stream, self.link, self.offset, self.periods]
    }
}

impl Layout {
    pub fn leg_words(self) -> usize {
        match self {
            Layout::First => FIRST_LEG_WORDS,
            Layout::Second => LEG_WORDS,
        }
    }

    /// How many words the table with this header has.
    pub fn table_words(self, header: &[u32; HEADER_WORDS]) -> u64 {
        let [_, links, streams, legs, _] = header.map(u64::from);
        let leg_words = self.leg_words() as u64;
        HEADER_WORDS as u64 + LINK_WORDS as u64 * links + STREAM_WORDS as u64 * streams + leg_words * legs
    }
}

impl Cursor {
    pub fn of([revision, leg, place]: [u32; CURSOR_WORDS]) -> Cursor {
        Cursor { revision, leg, place }
    }

    pub fn words(&self) -> [u32; CURSOR_WORDS] {
        [self.revision, self.leg, self.place]
    }
}

impl Plan {
    pub fn header(&self) -> [u32; HEADER_WORDS] {
        let counts = [self.links.len() as u32, self.streams.len() as u32, self.legs.len() as u32];
        [self.revision, counts[0], counts[1], counts[2], self.precision]
    }

    /// The plan's table, a record in each: the header, the links, the streams, the legs.
    pub fn records(&self, layout: Layout) -> Vec<Vec<u32>> {
        let links = self.links.iter().map(|link| link.words().to_vec());
        let streams = self.streams.iter().map(|stream| stream.words().to_vec());
        let legs = self.legs.iter().map(|leg| leg.words()[..layout.leg_words()].to_vec());
        std::iter::once(self.header().to_vec()).chain(links).chain(streams).chain(legs).collect()
    }

    pub fn words(&self) -> Vec<u32> {
        self.records(Layout::Second).concat()
    }
}

/// The names of the words: those of the header, and those of a link, a stream and a leg.
pub const HEADER: [&str; HEADER_WORDS] = ["revision", "links", "streams", "legs", "precision"];
pub const RECORDS: [(&str, &[&str]); 3] = [
    ("link", &["from", "to", "ns_per_octet", "propagation"]),
    ("stream", &["period", "deadline", "octets", "first_leg", "leg_count"]),
    ("leg", &["stream", "link", "offset", "periods"]),
];

/// Where a word of a record stands in the table, by its names.
pub fn index_of(plan: &Plan, kind: &str, record: usize, word: &str) -> Option<usize> {
    let (mut start, counts) = (HEADER_WORDS, [plan.links.len(), plan.streams.len(), plan.legs.len()]);
    for ((name, words), count) in RECORDS.iter().zip(counts) {
        if *name == kind {
            let at = words.iter().position(|name| *name == word)?;
            return (record < count).then_some(start + words.len() * record + at);
        }
        start += words.len() * count;
    }
    None
}

/// The first words of a table, where it has so many.
fn header_of(words: &[u32]) -> Option<[u32; HEADER_WORDS]> {
    words.get(..HEADER_WORDS)?.try_into().ok()
}

/// Whether a table is as long as its header says.
pub fn is_whole(words: &[u32]) -> bool {
    header_of(words).map_or(false, |header| words.len() as u64 == table_words(&header))
}

/// How many words the table with this header has.
pub fn table_words(header: &[u32; HEADER_WORDS]) -> u64 {
    Layout::Second.table_words(header)
}

// ---- Reading

/// Gives the number that starts at a position, and the position after it.
pub fn number<C: Checker>(c: &C, bytes: &[u8], start: usize) -> Outcome<(u32, usize)> {
    let mut value = 0;
    for group in 0..NUMBER_BYTES {
        let byte = match bytes.get(start + group) {
            Some(&byte) => byte,
            None => return refused(ENDS_EARLY, start),
        };
        let ends = byte & MORE == 0;
        if (group == NUMBER_BYTES - 1 && byte > c.limits().last_byte) || (ends && byte == 0 && group > 0) {
            return refused(BAD_FORM, start);
        }
        value |= u32::from(byte & !MORE) << (GROUP_BITS * group);
        if ends {
            return Ok((value, start + group + 1));
        }
    }
    unreachable!("a fifth byte either ends the number or is refused")
}

/// Reads numbers one after the other.
pub struct Numbers<'a, C> {
    pub checker: &'a C,
    pub bytes: &'a [u8],
    pub at: usize,
}

impl<C: Checker> Numbers<'_, C> {
    pub fn next(&mut self) -> Outcome<u32> {
        let (value, after) = self.checker.number(self.bytes, self.at)?;
        self.at = after;
        Ok(value)
    }

    pub fn record<const WORDS: usize>(&mut self) -> Outcome<[u32; WORDS]> {
        let mut record = [0; WORDS];
        for word in &mut record {
            *word = self.next()?;
        }
        Ok(record)
    }

    fn records<const WORDS: usize, R>(&mut self, count: u32, of: fn([u32; WORDS]) -> R) -> Outcome<Vec<R>> {
        let mut records = Vec::with_capacity(count as usize);
        for _ in 0..count {
            records.push(of(self.record()?));
        }
        Ok(records)
    }
}

/// Reads a plan file: 12 and 13 from left to right, 2 after the fifth number, then 14. The records are not judged.
pub fn read_plan<C: Checker>(c: &C, bytes: &[u8]) -> Outcome<Plan> {
    let (plan, at) = numbers_of_plan(c, bytes, Leg::of)?;
    c.plan_ends(at, bytes.len())?;
    Ok(plan)
}

/// Reads a plan file of the first layout, in the same order and by the same limits.
pub fn read_first<C: Checker>(c: &C, bytes: &[u8]) -> Outcome<Plan> {
    let (plan, at) = numbers_of_plan(c, bytes, Leg::of_first)?;
    c.first_ends(at, bytes.len())?;
    Ok(plan)
}

/// The plan that bytes begin with, whose legs have so many words, and the position after it.
fn numbers_of_plan<C: Checker, const LEG: usize>(
    c: &C,
    bytes: &[u8],
    leg: fn([u32; LEG]) -> Leg,
) -> Outcome<(Plan, usize)> {
    let mut numbers = Numbers { checker: c, bytes, at: 0 };
    let header = numbers.record()?;
    in_limits(c, &header)?;
    let [revision, links, streams, legs, precision] = header;
    let plan = Plan {
        revision,
        precision,
        links: numbers.records(links, Link::of)?,
        streams: numbers.records(streams, Stream::of)?,
        legs: numbers.records(legs, leg)?,
    };
    Ok((plan, numbers.at))
}

/// Refusal 2: a count or the clock precision above its limit.
fn in_limits<C: Checker>(c: &C, header: &[u32; HEADER_WORDS]) -> Outcome<()> {
    let [_, links, streams, legs, precision] = *header;
    let most = c.limits();
    if links > most.links || streams > most.streams || legs > most.legs || precision > most.precision {
        return refused(ABOVE_LIMIT, 0);
    }
    Ok(())
}

/// Refusal 14: bytes left over after the last number.
pub fn ends<C: Checker>(_: &C, at: usize, length: usize) -> Outcome<()> {
    if at < length {
        return refused(LEFT_OVER, at);
    }
    Ok(())
}

pub fn read_cursor<C: Checker>(c: &C, bytes: &[u8]) -> Outcome<Cursor> {
    let mut numbers = Numbers { checker: c, bytes, at: 0 };
    let cursor = Cursor::of(numbers.record()?);
    c.cursor_ends(numbers.at, bytes.len())?;
    Ok(cursor)
}

/// The plan of a table: refusals 1, 2 and 3.
pub fn table<C: Checker>(c: &C, words: &[u32]) -> Outcome<Plan> {
    let header = match header_of(words) {
        Some(header) => header,
        None => return refused(TOO_FEW_WORDS, 0),
    };
    in_limits(c, &header)?;
    if words.len() as u64 != table_words(&header) {
        return refused(WRONG_LENGTH, 0);
    }
    let [revision, links, streams, legs, precision] = header;
    let (links, rest) = words[HEADER_WORDS..].split_at(LINK_WORDS * links as usize);
    let (streams, rest) = rest.split_at(STREAM_WORDS * streams as usize);
    debug_assert_eq!(rest.len(), LEG_WORDS * legs as usize);
    Ok(Plan {
        revision,
        precision,
        links: records(links, Link::of),
        streams: records(streams, Stream::of),
        legs: records(rest, Leg::of),
    })
}

fn records<const WORDS: usize, R>(words: &[u32], of: fn([u32; WORDS]) -> R) -> Vec<R> {
    words.chunks_exact(WORDS).map(|record| of(record.try_into().expect("it has so many words"))).collect()
}

// ---- Writing

/// Appends a number in its shortest form.
pub fn write_number(bytes: &mut Vec<u8>, mut value: u32) {
    while value >= u32::from(MORE) {
        bytes.push(value as u8 | MORE);
        value >>= GROUP_BITS;
    }
    bytes.push(value as u8);
}

pub fn cursor_bytes(cursor: Cursor) -> Vec<u8> {
    encoded(&cursor.words())
}

pub fn plan_bytes(plan: &Plan) -> Vec<u8> {
    encoded(&plan.words())
}

/// The file of a plan in the first layout. The period words are lost.
pub fn first_bytes(plan: &Plan) -> Vec<u8> {
    encoded(&plan.records(Layout::First).concat())
}

pub fn encoded(words: &[u32]) -> Vec<u8> {
    let mut bytes = Vec::with_capacity(NUMBER_BYTES * words.len());
    for &word in words {
        write_number(&mut bytes, word);
    }
    bytes
}

/// Refusal 15: the lent buffer is too small.
pub fn room<C: Checker>(_: &C, least: usize, lent: usize) -> Outcome<()> {
    if lent < least {
        return refused(NO_ROOM, 0);
    }
    Ok(())
}

/// Writes a table into a lent buffer of this length: refusals 1, 2, 3 and 15.
pub fn write_plan<C: Checker>(c: &C, words: &[u32], lent: usize) -> Outcome<Vec<u8>> {
    let bytes = plan_bytes(&table(c, words)?);
    c.room(bytes.len(), lent)?;
    Ok(bytes)
}

/// Writes a cursor into a lent buffer of this length: refusal 15.
pub fn write_cursor<C: Checker>(c: &C, cursor: Cursor, lent: usize) -> Outcome<Vec<u8>> {
    let bytes = cursor_bytes(cursor);
    c.room(bytes.len(), lent)?;
    Ok(bytes)
}
