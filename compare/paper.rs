//! The numbers and names of document 01, and of the requests that changed it. Each stands here, and nowhere else in this folder.

// ---- Numbers as bytes

pub const GROUP_BITS: usize = 7;
/// This bit of a byte says that another one follows.
pub const MORE: u8 = 0x80;
/// No number has more bytes.
pub const NUMBER_BYTES: usize = 5;

// ---- The words of the header, of each record, and of a cursor

pub const HEADER_WORDS: usize = 5;
pub const LINK_WORDS: usize = 4;
pub const STREAM_WORDS: usize = 5;
pub const LEG_WORDS: usize = 4;
/// In the first layout, in which a leg has no period word.
pub const FIRST_LEG_WORDS: usize = 3;
pub const CURSOR_WORDS: usize = 3;
/// A lent buffer of so many bytes has room for every cursor.
pub const CURSOR_BYTES: usize = CURSOR_WORDS * NUMBER_BYTES;

// ---- Limits

/// The most that a number may be, or its least and its most.
#[derive(Clone, Copy)]
pub struct Limits {
    /// Of the fifth byte of a number.
    pub last_byte: u8,
    pub links: u32,
    pub streams: u32,
    pub legs: u32,
    pub precision: u32,
    pub node: u32,
    pub rates: &'static [u32],
    pub propagation: u32,
    pub period: (u32, u32),
    pub deadline_least: u32,
    /// The most of a deadline, in periods.
    pub deadline_periods: u32,
    pub octets: (u32, u32),
    /// Of the legs of one stream.
    pub route: (u32, u32),
    /// Of the whole periods that a leg lies late.
    pub periods: u32,
}

pub const LIMITS: Limits = Limits {
    last_byte: 0x0F,
    links: 256,
    streams: 512,
    legs: 2_048,
    precision: 1_000_000,
    node: 65_535,
    rates: &[8, 80, 800],
    propagation: 100_000,
    period: (1, 1_000_000_000),
    deadline_least: 1,
    deadline_periods: 8,
    octets: (64, 1_522),
    route: (1, 8),
    periods: 7,
};

// ---- Times

/// The octets of preamble and start delimiter, which go before each frame.
pub const PREAMBLE: u32 = 8;
/// The octets of the gap after each frame, for which its link has to be free of others: 96 bit times of IEEE 802.3.
pub const GAP: u32 = 12;

// ---- Rules, in the order of their places in a leg

/// A rule's name, and the result that a call for C gives where it is violated.
#[derive(Clone, Copy, Debug, PartialEq, Eq)]
pub struct Rule {
    pub name: &'static str,
    pub result: u32,
}

const fn rule(name: &'static str, result: u32) -> Rule {
    Rule { name, result }
}

pub const RULES: [Rule; 4] = [rule("window", 2), rule("hop", 3), rule("deadline", 4), rule("overlap", 5)];
pub const WINDOW: usize = 0;
pub const HOP: usize = 1;
pub const DEADLINE: usize = 2;
pub const OVERLAP: usize = 3;
/// The place of a leg's overlap with leg 0. Its overlaps with legs 1, 2 and so on follow.
pub const OVERLAPS: u32 = 3;

// ---- The other results of the calls for C

pub const NOTHING_VIOLATED: u32 = 0;
pub const GRANTED: u32 = 0;
pub const PAUSED: u32 = 1;
/// From this result on a rule is violated, and from the next one on the call is refused.
pub const VIOLATED: u32 = RULES[WINDOW].result;
pub const REFUSED: u32 = 100;

// ---- Refusals

pub const TOO_FEW_WORDS: u32 = 1;
pub const ABOVE_LIMIT: u32 = 2;
pub const WRONG_LENGTH: u32 = 3;
pub const LINK_RANGE: u32 = 4;
pub const LINK_TWICE: u32 = 5;
pub const STREAM_WRONG: u32 = 6;
pub const LEG_WRONG: u32 = 7;
pub const STALE: u32 = 8;
pub const NO_PLACE: u32 = 9;
pub const NO_LEG: u32 = 10;
pub const LAST_REVISION: u32 = 11;
pub const ENDS_EARLY: u32 = 12;
pub const BAD_FORM: u32 = 13;
pub const LEFT_OVER: u32 = 14;
pub const NO_ROOM: u32 = 15;
pub const TOO_LATE: u32 = 17;
