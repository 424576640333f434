//! Plan files for the programs, in families. Each wrong checker is told from the right one by one of them at least: by what
//! is printed, or by what is said of a refusal.

use crate::chance::Chance;
use crate::check::{Bent, Checker, Plain};
use crate::damage::{
    any_bytes, any_table, bend_route, damage_bytes, damage_table, double_links, each_edge, routes, shift_legs,
};
use crate::drafts::{
    accepted, alike, full_line, large, longest_deadline, medium, one_link, plan_a, reword, row, small, to_an_edge,
};
use crate::fail::given;
use crate::format::{encoded, first_bytes, is_whole, plan_bytes, table_words, Layout, Plan};
use crate::paper::{GROUP_BITS, HEADER_WORDS, LIMITS, MORE, NUMBER_BYTES};
use crate::reasons::kind;
use crate::told::{printed, said, Verb};
use crate::wrong::{self, Wrong};
use std::collections::BTreeSet;

type Family = Vec<Vec<u8>>;

/// The files, and the name of each wrong checker that none of them tells from the right one.
pub struct Inputs {
    pub files: Vec<Vec<u8>>,
    pub at_large: Vec<String>,
}

/// Drops each wrong checker that gives something else than the right one. Says whether there is one.
fn drop_told<T: PartialEq>(wrong: &mut Vec<Wrong>, right: &T, gives: impl Fn(&Bent) -> T) -> bool {
    let before = wrong.len();
    wrong.retain(|one| given(|| gives(&one.checker)).as_ref() == Some(right));
    wrong.len() < before
}

/// Gives so many files of each family at the most, evenly, those that tell wrong checkers, and the first one of each kind of
/// sentence that is said of a refusal.
pub fn inputs(verb: Verb, seed: u64, most: usize) -> Inputs {
    let most = most.max(1);
    let families = families(verb, &mut Chance::new(seed, verb as u64));
    let all_tellers = || wrong::tellers_of_files().into_iter().chain(wrong::tellers_of_tables()).collect();
    let (mut wrong, mut tellers) = match verb {
        Verb::Words => (wrong::readers(), wrong::tellers_of_files()),
        Verb::Shape => (wrong::judges(), wrong::tellers_of_tables()),
        Verb::Check => (wrong::checkers(), all_tellers()),
    };
    let (mut files, mut kinds) = (Vec::new(), BTreeSet::new());
    for family in families {
        let step = ((family.len() + most - 1) / most).max(1);
        for (number, bytes) in family.into_iter().enumerate() {
            let (right, right_said) = (printed(&Plain, verb, Plain.read_plan(&bytes)), said(&Plain, verb, &bytes));
            let is_kept = [
                number % step == 0,
                drop_told(&mut wrong, &right, |c| printed(c, verb, c.read_plan(&bytes))),
                drop_told(&mut tellers, &right_said, |c| said(c, verb, &bytes)),
                right_said.err().map_or(false, |sentence| kinds.insert(kind(&sentence))),
            ];
            if is_kept.contains(&true) {
                files.push(bytes);
            }
        }
    }
    let mut seen = BTreeSet::new();
    files.retain(|bytes| seen.insert(bytes.clone()));
    Inputs { files, at_large: wrong.into_iter().chain(tellers).map(|one| one.name).collect() }
}

fn families(verb: Verb, chance: &mut Chance) -> Vec<Family> {
    match verb {
        Verb::Words => vec![
            of_the_paper(),
            cut_or_edited(),
            headers(),
            forms(),
            each_number(),
            around_the_largest(),
            (0..600).map(|_| encoded(&any_table(chance, Layout::Second, [5, 5, 9]))).collect(),
            (0..8).map(|_| encoded(&largest_of_any(chance))).collect(),
            (0..100).map(|_| encoded(&any_table(chance, Layout::First, [5, 5, 9]))).collect(),
            (0..2_400).map(|_| damaged_bytes(chance)).collect(),
            (0..800).map(|_| any_bytes(chance)).collect(),
        ],
        Verb::Shape => vec![
            of_the_paper(),
            each_cause(),
            late_legs(),
            edges_of_tables(chance),
            (0..600).map(|_| plan_bytes(&routes(chance))).collect(),
            (0..600).map(|_| damaged(chance, |chance| row(chance), 2)).collect(),
            (0..2_000).map(|_| damaged(chance, |chance| small(chance), 3)).collect(),
            (0..400).map(|_| damaged(chance, |chance| medium(chance), 2)).collect(),
            (0..48).map(|_| damaged(chance, |chance| alike(chance), 1)).collect(),
            (0..48).map(|_| damaged(chance, |chance| large(chance), 1)).collect(),
            of_one_word(),
            (0..200).map(|_| damaged_bytes(chance)).collect(),
            (0..40).map(|_| first_bytes(&small(chance))).collect(),
        ],
        Verb::Check => vec![
            of_the_paper(),
            each_number(),
            each_cause(),
            late_legs(),
            each_edge(&plan_a().words()).iter().map(|words| encoded(words)).collect(),
            (0..800).map(|_| at_edges(chance, |chance| small(chance))).collect(),
            (0..300).map(|_| at_edges(chance, |chance| medium(chance))).collect(),
            (0..300).map(|_| at_edges(chance, |chance| row(chance))).collect(),
            (0..800).map(|_| at_edges(chance, |chance| one_link(chance))).collect(),
            (0..800).map(|_| at_edges(chance, |chance| accepted(chance, 12, false))).collect(),
            (0..800).map(|_| at_edges(chance, |chance| accepted(chance, 12, true))).collect(),
            (0..60).map(|_| plan_bytes(&accepted(chance, 60, true))).collect(),
            (0..24).map(|_| at_edges(chance, |chance| full_line(chance))).collect(),
            (0..12).map(|_| at_edges(chance, |chance| large(chance))).collect(),
            (0..200).map(|_| damaged(chance, |chance| small(chance), 2)).collect(),
            (0..100).map(|_| damaged_bytes(chance)).collect(),
            (0..40).map(|_| first_bytes(&small(chance))).collect(),
        ],
    }
}

// ---- Bytes

/// Plan A in both layouts, and the files of case 14.
fn of_the_paper() -> Family {
    vec![plan_bytes(&plan_a()), vec![0; HEADER_WORDS], Vec::new(), vec![MORE, 0], first_bytes(&plan_a())]
}

/// Plan A cut at each place, and with each byte replaced, taken out, or another put before it.
fn cut_or_edited() -> Family {
    let whole = plan_bytes(&plan_a());
    let mut family: Family = (0..whole.len()).map(|size| whole[..size].to_vec()).collect();
    for (at, &old) in whole.iter().enumerate() {
        for new in [0x00, 0x7F, 0x80, 0xFF, 0x0F, 0x10, old.wrapping_add(1)] {
            family.push([&whole[..at], &[new], &whole[at + 1..]].concat());
        }
        family.push([&whole[..at], &whole[at + 1..]].concat());
        for new in [0x00, 0x01, 0x7F, 0x80, 0xFF] {
            family.push([&whole[..at], &[new], &whole[at..]].concat());
        }
    }
    family
}

/// Headers around each limit, alone and together, and far above; each with nothing after it, with too little, with what it
/// asks for, and with too much.
fn headers() -> Family {
    let limits = [LIMITS.links, LIMITS.streams, LIMITS.legs, LIMITS.precision];
    let mut headers = Vec::new();
    for (at, limit) in limits.into_iter().enumerate() {
        let far = [
            1 << 16,
            256 + (1 << 16),
            1 << 24,
            1 << 30,
            (1 << 30) + 1,
            u32::MAX / 5 + 1,
            u32::MAX / 3 + 1,
            1 << 31,
            u32::MAX,
        ];
        for word in [limit - 1, limit, limit + 1].into_iter().chain(far) {
            let mut header = [7, 0, 0, 0, 0];
            header[1 + at] = word;
            headers.push(header);
        }
    }
    for mix in 0..81 {
        let step = |at: usize| limits[at] + [1, 0, 2][mix / [1, 3, 9, 27][at] % 3] - 1;
        headers.push([u32::MAX, step(0), step(1), step(2), step(3)]);
    }
    let mut family = Vec::new();
    for header in headers {
        let (start, rest) = (encoded(&header), table_words(&header) - HEADER_WORDS as u64);
        family.extend([&[][..], &[MORE], &[1]].map(|after| [&start[..], after].concat()));
        if rest < 20_000 {
            let whole = [start, vec![0; rest as usize]].concat();
            family.extend([whole.clone(), [whole, vec![0]].concat()]);
        }
    }
    family
}

/// Numbers in longer forms than they need, and of five bytes with each kind of last one: first, at the end of the header,
/// after it and last in Plan A, and last of all bytes.
fn forms() -> Family {
    let edges =
        [0, 7, 14, 21, 28].map(|bits| 1u32 << bits).into_iter().flat_map(|edge| [edge - 1, edge]).chain([u32::MAX]);
    let longer = |number: u32, size: usize| -> Vec<u8> {
        let group = |at: usize| (u64::from(number) >> (GROUP_BITS * at)) as u8 & !MORE;
        (0..size).map(|at| group(at) | if at + 1 < size { MORE } else { 0 }).collect()
    };
    let mut forms: Family = Vec::new();
    for edge in edges {
        forms.extend((encoded(&[edge]).len() + 1..=NUMBER_BYTES + 1).map(|size| longer(edge, size)));
    }
    for last in (0..0x13).chain([0x1F, 0x20, 0x40, 0x70, 0x7F, 0x80, 0x81, 0x8F, 0x90, 0xFF]) {
        forms.extend([[0xFF, 0xFF, 0xFF, 0xFF, last].to_vec(), [0x80, 0x80, 0x80, 0x80, last].to_vec()]);
    }
    let words = plan_a().words();
    let mut family = Vec::new();
    for form in forms {
        for at in [0, HEADER_WORDS - 1, HEADER_WORDS, words.len() - 1] {
            let until = [encoded(&words[..at]), form.clone()].concat();
            family.extend([[&until[..], &encoded(&words[at + 1..])].concat(), until]);
        }
    }
    family
}

/// Plan A up to each of its numbers, and in the place of that one nothing, a part of a number, a longer form than it needs,
/// or a number that is too high.
fn each_number() -> Family {
    let words = plan_a().words();
    let high = [[0xFF, 0xFF, 0xFF, 0xFF, LIMITS.last_byte + 1], [MORE; NUMBER_BYTES]];
    let long = [[MORE, MORE, MORE, MORE, 0], [1 | MORE, 0, 1, 1, 1]];
    let mut family = Vec::new();
    for at in 0..words.len() {
        let until = encoded(&words[..at]);
        family.extend([&[][..], &[MORE], &[MORE; 4]].map(|part| [&until[..], part].concat()));
        family.extend(high.iter().chain(&long).map(|form| [&until[..], form, &encoded(&words[at + 1..])].concat()));
    }
    family
}

/// The largest file, cut, with its last number damaged, and with bytes after it, and strings of about its length.
fn around_the_largest() -> Family {
    let header = [u32::MAX, LIMITS.links, LIMITS.streams, LIMITS.legs, LIMITS.precision];
    let rest = table_words(&header) as usize - HEADER_WORDS;
    let largest = [encoded(&header), encoded(&vec![u32::MAX; rest])].concat();
    let size = largest.len();
    let cuts = [4, 13, 14, 15, 4_096, size / 2, 32_768, size - 6, size - 5, size - 4, size - 1, size];
    let mut family: Family = cuts.iter().map(|&cut| largest[..cut].to_vec()).collect();
    family.extend([0x00, 0x10, 0x7F, 0x80, 0xFF].map(|last| [&largest[..size - 1], &[last]].concat()));
    let more = [vec![0], vec![0x80], vec![0xFF], vec![0; 2], vec![0; 13], vec![0; 100_000]];
    family.extend(more.map(|more| [&largest[..], &more].concat()));
    for total in [size - 1, size, size + 1, 65_535, 65_536, 65_537, 200_000] {
        family.extend([vec![0; total], vec![0x80; total], [0xFF, 0xFF, 0xFF, 0xFF, 0x0F].repeat(total / NUMBER_BYTES)]);
    }
    family
}

fn largest_of_any(chance: &mut Chance) -> Vec<u32> {
    any_table(chance, Layout::Second, [LIMITS.links, LIMITS.streams, LIMITS.legs])
}

fn damaged_bytes(chance: &mut Chance) -> Vec<u8> {
    let mut bytes = match chance.below(8) {
        0..=3 => plan_bytes(&small(chance)),
        4 => first_bytes(&small(chance)),
        _ => encoded(&any_table(chance, Layout::Second, [4, 4, 6])),
    };
    for _ in 0..chance.of(&[1, 1, 1, 2, 3]) {
        damage_bytes(chance, &mut bytes);
    }
    bytes
}

// ---- Tables

/// A plan of some kind, whole or damaged so many times at the most.
fn damaged(chance: &mut Chance, kind: impl Fn(&mut Chance) -> Plan, most: usize) -> Vec<u8> {
    let mut plan = kind(chance);
    match chance.below(8) {
        0 | 1 => bend_route(chance, &mut plan),
        2 => shift_legs(chance, &mut plan),
        3 => double_links(chance, &mut plan),
        _ => {}
    }
    let mut words = plan.words();
    for _ in 0..chance.below(most + 1) {
        // A header that no longer fits the rest is damaged enough.
        if is_whole(&words) {
            damage_table(chance, &mut words);
        }
    }
    encoded(&words)
}

/// Each word of two plans at each edge of its range, and each link of them in the place of each other.
fn edges_of_tables(chance: &mut Chance) -> Family {
    let mut family = Vec::new();
    for plan in [row(chance), small(chance)] {
        family.extend(each_edge(&plan.words()).iter().map(|words| encoded(words)));
        for (one, other) in (0..plan.links.len()).flat_map(|one| (0..plan.links.len()).map(move |other| (one, other))) {
            let mut twin = plan.clone();
            twin.links[one] = plan.links[other];
            family.push(plan_bytes(&twin));
        }
    }
    family
}

/// Plan A with each fault of the header, a link, a stream or a leg, alone and with each other one of the same record, and
/// without links, legs or its last stream.
fn each_cause() -> Family {
    let of_headers: [fn(&mut Plan); 4] = [
        |plan| plan.links.resize(LIMITS.links as usize + 1, plan.links[0]),
        |plan| plan.streams.resize(LIMITS.streams as usize + 1, plan.streams[0]),
        |plan| plan.legs.resize(LIMITS.legs as usize + 1, plan.legs[0]),
        |plan| plan.precision = LIMITS.precision + 1,
    ];
    let of_links: [fn(&mut Plan); 6] = [
        |plan| plan.links[1].from = LIMITS.node + 1,
        |plan| plan.links[1].to = LIMITS.node + 1,
        |plan| plan.links[1].to = plan.links[1].from,
        |plan| plan.links[1].ns_per_octet = 0,
        |plan| plan.links[1].propagation = LIMITS.propagation + 1,
        |plan| plan.links[1] = plan.links[0],
    ];
    let of_streams: [fn(&mut Plan); 8] = [
        |plan| plan.streams[1].period = LIMITS.period.1 + 1,
        |plan| plan.streams[1].deadline = 0,
        |plan| plan.streams[1].deadline = longest_deadline(plan.streams[1].period).saturating_add(1),
        |plan| plan.streams[1].octets = LIMITS.octets.0 - 1,
        |plan| plan.streams[1].first_leg -= 1,
        |plan| plan.streams[1].leg_count = 0,
        |plan| plan.streams[1].leg_count = LIMITS.route.1 + 1,
        |plan| plan.streams[1].leg_count += 1,
    ];
    // Leg 1 is the second one of its route.
    let of_legs: [fn(&mut Plan); 5] = [
        |plan| plan.legs[1].stream += 1,
        |plan| plan.legs[1].link += 1,
        |plan| plan.legs[1].periods = LIMITS.periods + 1,
        |plan| plan.links[1].from = plan.links[1].to + 1,
        |plan| plan.links[1].to = plan.links[0].from,
    ];
    let without: [fn(&mut Plan); 3] =
        [|plan| plan.links.clear(), |plan| plan.legs.clear(), |plan| plan.streams.truncate(1)];
    let mut family = Vec::new();
    for faults in [&of_headers[..], &of_links, &of_streams, &of_legs, &without] {
        for (one, other) in (0..faults.len()).flat_map(|one| (0..=one).map(move |other| (one, other))) {
            let mut plan = plan_a();
            faults[other](&mut plan);
            faults[one](&mut plan);
            family.push(plan_bytes(&plan));
        }
    }
    family
}

/// Plan A with short and long periods, deadlines within a period and beyond, its legs in time and late, and its second leg
/// or its third one ns too early.
fn late_legs() -> Family {
    let (periods, words) = ([100_000, LIMITS.period.1], [0, 1, LIMITS.periods]);
    let mut family = Vec::new();
    for (period, mix) in periods.into_iter().flat_map(|period| (0..27).map(move |mix| (period, mix))) {
        let mut plan = plan_a();
        plan.streams.iter_mut().for_each(|stream| stream.period = period);
        for (leg, power) in plan.legs.iter_mut().zip([1, 3, 9]) {
            leg.periods = words[mix / power % 3];
        }
        let due = plan.streams[0].deadline;
        for deadline in [due, due + period - 1, due + period, longest_deadline(period)] {
            for (second, third) in [(1_176, 672), (1_175, 672), (1_176, 671)] {
                plan.streams[0].deadline = deadline;
                (plan.legs[1].offset, plan.legs[2].offset) = (second, third);
                family.push(plan_bytes(&plan));
            }
        }
    }
    family
}

/// Tables of few records and one word: parts that are empty, and records that are wrong in everything.
fn of_one_word() -> Family {
    let mut family = Vec::new();
    for (links, streams, legs) in (0..3).flat_map(|n| (0..3).flat_map(move |s| (0..4).map(move |g| (n, s, g)))) {
        for word in [0, 1, u32::MAX] {
            let header = [word, links, streams, legs, 0];
            let rest = table_words(&header) as usize - HEADER_WORDS;
            family.push(encoded(&[&header[..], &vec![word; rest]].concat()));
        }
    }
    family
}

/// A plan of some kind with a few legs at the edge of a rule.
fn at_edges(chance: &mut Chance, kind: impl Fn(&mut Chance) -> Plan) -> Vec<u8> {
    let mut plan = kind(chance);
    if chance.one_in(4) {
        reword(chance, &mut plan);
    }
    for _ in 0..chance.of(&[0, 1, 1, 1, 2, 5]) {
        to_an_edge(chance, &mut plan);
    }
    plan_bytes(&plan)
}
