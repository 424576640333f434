//! The calls of a run, in batches. A batch depends on the seed and its number alone.

use crate::calls::{answer, Answer, Call, Kind};
use crate::chance::Batch;
use crate::check::{begin, next, places_before, places_of, Checker, Plain};
use crate::damage::{
    above_a_limit, any_bytes, any_table, bend_route, damage_bytes, damage_table, double_links, routes, shift_legs,
};
use crate::drafts::{beyond, large, medium, one_link, plan_a, reword, row, small, to_an_edge};
use crate::format::{cursor_bytes, encoded, first_bytes, is_whole, plan_bytes, Cursor, Layout, Leg, Move, Plan};
use crate::paper::{CURSOR_BYTES, GRANTED, LIMITS, MORE, NOTHING_VIOLATED, REFUSED, VIOLATED};
use std::sync::Arc;

pub const BATCH: usize = 512;

/// A call, and what the plain checker answers.
pub struct Case {
    pub call: Call,
    pub expected: Answer,
}

pub fn batch(seed: u64, number: u64) -> Vec<Case> {
    let mut batch = Batch::<Case>::new(seed, number);
    if number == 0 {
        batch.of_the_paper();
    }
    batch.of_a_large_plan(number);
    while batch.cases.len() < BATCH {
        match batch.chance.below(15) {
            0..=2 => batch.run(),
            3..=5 => batch.at_an_edge(),
            6 | 7 => batch.on_one_link(),
            8 | 9 => batch.beyond_the_period(),
            10 | 11 => batch.damaged_table(),
            12 => batch.damaged_bytes(),
            13 => batch.old_files(),
            _ => batch.cursors(),
        }
    }
    batch.cases.truncate(BATCH);
    batch.cases
}

fn low(answer: u64) -> u32 {
    answer as u32
}

/// The cursor in the first bytes of a buffer that a call wrote.
fn given(out: &[u8]) -> Cursor {
    let ends = |at: &usize| out[*at] < MORE;
    let after = (0..out.len()).filter(ends).nth(2).expect("a cursor has three numbers") + 1;
    Plain.read_cursor(&out[..after]).expect("a call gives a cursor that reads")
}

fn places(plan: &Plan) -> u32 {
    Plain.places(plan.legs.len() as u64) as u32
}

impl Batch<Case> {
    // ---- Single calls

    /// A lent buffer with something in it.
    fn lent(&mut self, length: usize) -> Vec<u8> {
        self.chance.bytes(length)
    }

    fn lent_out(&mut self) -> Vec<u8> {
        let length = match self.chance.below(16) {
            0 => self.chance.below(CURSOR_BYTES),
            1 => CURSOR_BYTES - 1,
            2 => CURSOR_BYTES + 1,
            3 => CURSOR_BYTES + self.chance.below(40),
            _ => CURSOR_BYTES,
        };
        self.lent(length)
    }

    fn make(&mut self, call: Call) -> &Answer {
        let expected = answer(&Plain, &call);
        self.cases.push(Case { call, expected });
        &self.cases[self.cases.len() - 1].expected
    }

    fn start(&mut self, plan: &Arc<[u8]>) -> &Answer {
        let out = self.lent_out();
        self.make(Call {
            kind: Kind::Start,
            plan: plan.clone(),
            cursor: Vec::new(),
            number: 0,
            offset: 0,
            periods: 0,
            new_plan: Vec::new(),
            out,
        })
    }

    fn slice(&mut self, plan: &Arc<[u8]>, cursor: Vec<u8>, budget: u32) -> &Answer {
        let kind = if self.chance.one_in(3) { Kind::Slice } else { Kind::SliceFull };
        let out = self.lent_out();
        let (plan, new_plan) = (plan.clone(), Vec::new());
        self.make(Call { kind, plan, cursor, number: budget, offset: 0, periods: 0, new_plan, out })
    }

    /// Room for a new plan: a little more or less than what it needs, or just that, or as much as the old one has.
    fn lent_file(&mut self, needed: usize, old: usize) -> Vec<u8> {
        let length = match self.chance.below(10) {
            0 => self.chance.below(needed + 1),
            1 => needed.saturating_sub(1),
            2 => needed + 1,
            3 => needed + self.chance.below(40),
            4 => old,
            _ => needed,
        };
        self.lent(length)
    }

    fn move_leg(&mut self, plan: &Arc<[u8]>, cursor: Vec<u8>, wanted: Move, needed: usize) -> &Answer {
        let (new_plan, out) = (self.lent_file(needed, plan.len()), self.lent_out());
        let Move { leg, offset, periods } = wanted;
        self.make(Call { kind: Kind::Move, plan: plan.clone(), cursor, number: leg, offset, periods, new_plan, out })
    }

    /// Converts a file of the first layout, or one that is none. Each leg takes a byte more in today's.
    fn convert(&mut self, old: &Arc<[u8]>) -> &Answer {
        let needed = Plain.read_first(old).map_or(old.len() + 3, |plan| plan_bytes(&plan).len());
        let new_plan = self.lent_file(needed, old.len());
        self.make(Call {
            kind: Kind::Convert,
            plan: old.clone(),
            cursor: Vec::new(),
            number: 0,
            offset: 0,
            periods: 0,
            new_plan,
            out: Vec::new(),
        })
    }

    /// Makes one of the calls, whatever is right or wrong with the bytes.
    fn any_call(&mut self, plan: &Arc<[u8]>, cursor: Vec<u8>) {
        let number = self.chance.any_size();
        match self.chance.below(8) {
            0 | 1 => self.start(plan),
            2 | 3 => {
                let wanted = Move { leg: number % 8, offset: number, periods: self.periods(0) };
                self.move_leg(plan, cursor, wanted, plan.len() + 3)
            }
            4 if self.chance.one_in(2) => self.convert(plan),
            _ => self.slice(plan, cursor, number),
        };
    }

    /// A period word for a move: the leg's own, any other, or one that is too high.
    fn periods(&mut self, own: u32) -> u32 {
        let most = LIMITS.periods;
        match self.chance.below(6) {
            0 | 1 => own,
            2 => 0,
            3 | 4 => self.chance.below(most as usize + 3) as u32,
            _ => self.chance.of(&[most, most + 1, 15, 16, 255, 256, 1 << 16, 1 << 31, u32::MAX - 1, u32::MAX]),
        }
    }

    // ---- Cursors and budgets

    fn some_place(&mut self, plan: &Plan) -> Cursor {
        let leg = self.chance.below(plan.legs.len() + 1) as u32;
        let place =
            if (leg as usize) < plan.legs.len() { self.chance.below(places_of(leg) as usize) as u32 } else { 0 };
        Cursor { revision: plan.revision, leg, place }
    }

    fn no_place(&mut self, plan: &Plan) -> Cursor {
        let legs = plan.legs.len() as u32;
        let leg = self.chance.below(plan.legs.len() + 1) as u32;
        let (leg, place) = match self.chance.below(5) {
            0 => (legs, 1 + self.chance.any_size() % places_of(legs)),
            1 => (leg, places_of(leg)),
            2 => (legs + 1, 0),
            3 => (leg, u32::MAX - leg),
            _ => (self.chance.any_size(), self.chance.any_size()),
        };
        Cursor { revision: plan.revision, leg, place }
    }

    fn stale(&mut self, cursor: Cursor) -> Cursor {
        let revision = match self.chance.below(4) {
            0 => cursor.revision.wrapping_add(1),
            1 => cursor.revision.wrapping_sub(1),
            2 => 0,
            _ => self.chance.word(),
        };
        Cursor { revision, ..cursor }
    }

    /// A budget near what is left from a cursor on, or any other.
    fn budget(&mut self, plan: &Plan, cursor: Cursor) -> u32 {
        let left = places(plan).saturating_sub(places_before(cursor) as u32);
        match self.chance.below(10) {
            0 => 0,
            1 => 1,
            2 => left,
            3 => left.saturating_sub(1),
            4 => left + 1,
            5 => u32::MAX,
            6 => self.chance.of(&[u32::MAX - 1, 1 << 31, (1 << 31) - 1]),
            7 => self.chance.any_size(),
            _ => self.chance.below(12) as u32,
        }
    }

    // ---- Families

    /// A small plan, now and then with other period words.
    fn small_or_reworded(&mut self) -> Plan {
        let mut plan = small(&mut self.chance);
        if self.chance.one_in(4) {
            reword(&mut self.chance, &mut plan);
        }
        plan
    }

    /// The runs of document 01, cases 11 to 14.
    fn of_the_paper(&mut self) {
        let mut plan = plan_a();
        let bytes: Arc<[u8]> = plan_bytes(&plan).into();
        let cursor = |revision, leg, place| cursor_bytes(Cursor { revision, leg, place });
        self.start(&bytes);
        for (leg, place) in [(0, 0), (1, 2), (2, 3)] {
            self.slice(&bytes, cursor(0, leg, place), 5);
        }
        for wanted in [Move { leg: 2, offset: 672, periods: 0 }, Move { leg: 0, offset: 600, periods: 0 }] {
            self.move_leg(&bytes, cursor(0, 2, 3), wanted, bytes.len() + 1);
            let mut after = plan.clone();
            let moved = Plain.moved(&mut after, Cursor { revision: 0, leg: 2, place: 3 }, wanted);
            let from = moved.expect("Plan A has this leg");
            self.slice(&plan_bytes(&after).into(), cursor_bytes(from), 5);
        }
        for (leg, offset) in [(1, 1_175), (2, 576), (2, 671), (2, 49_328), (2, 49_329), (2, 49_424), (2, 50_000)] {
            let before = plan.legs[leg].offset;
            plan.legs[leg].offset = offset;
            self.slice(&plan_bytes(&plan).into(), cursor(0, 0, 0), u32::MAX);
            plan.legs[leg].offset = before;
        }
        for bytes in [&[0; 5][..], &[], &[0x80, 0]] {
            self.slice(&bytes.to_vec().into(), cursor(0, 0, 0), 0);
            self.convert(&bytes.to_vec().into());
        }
        self.convert(&first_bytes(&plan).into());
    }

    /// Starts, slices and moves as they come, with cursors and plans of the past among them.
    fn run(&mut self) {
        let mut plan = if self.chance.one_in(8) { medium(&mut self.chance) } else { self.small_or_reworded() };
        for _ in 0..self.chance.below(3) {
            to_an_edge(&mut self.chance, &mut plan);
        }
        let mut bytes: Arc<[u8]> = plan_bytes(&plan).into();
        let mut cursor = begin(&plan);
        let (mut old_bytes, mut old_cursor) = (bytes.clone(), cursor);
        self.start(&bytes);
        for _ in 0..4 + self.chance.below(14) {
            match self.chance.below(10) {
                0 => drop(self.slice(&bytes, cursor_bytes(old_cursor), 3)),
                1 => drop(self.slice(&old_bytes, cursor_bytes(cursor), 3)),
                2 => drop(self.any_move(&plan, &old_bytes, cursor)),
                3 | 4 => {
                    let (after, from) = self.any_move(&plan, &bytes, cursor);
                    if let Some(from) = from {
                        old_bytes = bytes;
                        old_cursor = cursor;
                        plan = after;
                        bytes = plan_bytes(&plan).into();
                        cursor = from;
                    }
                }
                _ => {
                    let budget = self.budget(&plan, cursor);
                    let answered = self.slice(&bytes, cursor_bytes(cursor), budget);
                    if low(answered.result) < REFUSED {
                        cursor = given(&answered.out);
                        if low(answered.result) >= VIOLATED && self.chance.one_in(2) {
                            cursor = next(cursor);
                        }
                    }
                }
            }
        }
    }

    /// Makes a move and gives the plan and the cursor after it. There is no cursor where the move was refused.
    fn any_move(&mut self, plan: &Plan, bytes: &Arc<[u8]>, cursor: Cursor) -> (Plan, Option<Cursor>) {
        let leg = match plan.legs.len() {
            0 => 0,
            legs if self.chance.one_in(10) => legs as u32 + self.chance.below(2) as u32,
            legs => self.chance.below(legs) as u32,
        };
        let numbers =
            |plan: &Plan, leg: u32| plan.legs.get(leg as usize).map_or((1, 0), |leg| (leg.offset, leg.periods));
        let (own, own_periods) = numbers(plan, leg);
        let (offset, periods) = match self.chance.below(5) {
            0 => (own, self.periods(own_periods)),
            1 => (self.chance.any_size(), self.periods(own_periods)),
            2 => (own.wrapping_add(self.chance.any_size() % 2_000), self.periods(own_periods)),
            _ => {
                let mut edge = plan.clone();
                let (at, _) = to_an_edge(&mut self.chance, &mut edge);
                let (offset, periods) = numbers(&edge, at);
                (offset, if self.chance.one_in(4) { self.periods(periods) } else { periods })
            }
        };
        let mut after = plan.clone();
        let wanted = Move { leg, offset, periods };
        let needed = match Plain.moved(&mut after, cursor, wanted) {
            Ok(_) => plan_bytes(&after).len(),
            Err(_) => bytes.len(),
        };
        let answered = self.move_leg(bytes, cursor_bytes(cursor), wanted, needed);
        let from = if low(answered.result) == GRANTED { Some(given(&answered.out)) } else { None };
        (after, from)
    }

    /// Slices that look at a place whose rule just holds, or just does not, and at those after it.
    fn at_an_edge(&mut self) {
        let mut plan = self.small_or_reworded();
        for _ in 0..6 {
            let (leg, place) = to_an_edge(&mut self.chance, &mut plan);
            let revision = plan.revision;
            let bytes: Arc<[u8]> = plan_bytes(&plan).into();
            let budget = self.budget(&plan, Cursor { revision, leg, place });
            self.slice(&bytes, cursor_bytes(Cursor { revision, leg, place }), budget.max(1));
            if self.chance.one_in(2) {
                self.slice(&bytes, cursor_bytes(Cursor { revision, leg: 0, place: 0 }), u32::MAX);
            }
            if self.chance.one_in(4) {
                self.any_move(&plan, &bytes, Cursor { revision, leg, place });
            }
        }
    }

    /// Slices that look at one overlap whose frames just touch or just meet, in repeats near or far.
    fn on_one_link(&mut self) {
        for _ in 0..6 {
            let mut plan = one_link(&mut self.chance);
            if self.chance.one_in(2) {
                beyond(&mut self.chance, &mut plan);
            }
            if self.chance.one_in(2) {
                reword(&mut self.chance, &mut plan);
            }
            let (leg, place) = to_an_edge(&mut self.chance, &mut plan);
            let budget = 1 + self.chance.below(2) as u32;
            let cursor = cursor_bytes(Cursor { revision: plan.revision, leg, place });
            self.slice(&plan_bytes(&plan).into(), cursor, budget);
        }
    }

    /// Slices from the place after each violated one to the next, so that all rules are judged for offsets of any size.
    fn beyond_the_period(&mut self) {
        let mut plan = small(&mut self.chance);
        beyond(&mut self.chance, &mut plan);
        if self.chance.one_in(2) {
            to_an_edge(&mut self.chance, &mut plan);
        }
        let bytes: Arc<[u8]> = plan_bytes(&plan).into();
        let mut cursor = begin(&plan);
        for _ in 0..30 {
            let budget = if self.chance.one_in(4) { self.budget(&plan, cursor) } else { u32::MAX };
            let answered = self.slice(&bytes, cursor_bytes(cursor), budget);
            match low(answered.result) {
                NOTHING_VIOLATED => break,
                result if result >= REFUSED => continue,
                result => {
                    cursor = given(&answered.out);
                    cursor = if result >= VIOLATED { next(cursor) } else { cursor };
                }
            }
        }
    }

    fn damaged_table(&mut self) {
        let plan = match self.chance.below(6) {
            0 => medium(&mut self.chance),
            1 => row(&mut self.chance),
            2 => routes(&mut self.chance),
            _ => small(&mut self.chance),
        };
        for _ in 0..8 {
            let mut bent = plan.clone();
            match self.chance.below(10) {
                0 | 1 => bend_route(&mut self.chance, &mut bent),
                2 | 3 => shift_legs(&mut self.chance, &mut bent),
                4 => double_links(&mut self.chance, &mut bent),
                _ => {}
            }
            let mut words = bent.words();
            for _ in 0..self.chance.of(&[0, 1, 1, 1, 2, 3]) {
                // A header that no longer fits the rest is damaged enough.
                if is_whole(&words) {
                    damage_table(&mut self.chance, &mut words);
                }
            }
            let cursor = self.some_place(&plan);
            let cursor = if self.chance.one_in(6) { self.stale(cursor) } else { cursor };
            self.any_call(&encoded(&words).into(), cursor_bytes(cursor));
        }
    }

    fn damaged_bytes(&mut self) {
        let plan = small(&mut self.chance);
        let whole = plan_bytes(&plan);
        for _ in 0..8 {
            let mut bytes = match self.chance.below(16) {
                0 | 1 => any_bytes(&mut self.chance),
                2 => above_a_limit(&mut self.chance, Layout::Second),
                _ => whole.clone(),
            };
            let mut cursor = cursor_bytes(self.some_place(&plan));
            match self.chance.below(4) {
                0 => damage_bytes(&mut self.chance, &mut cursor),
                1 => {
                    damage_bytes(&mut self.chance, &mut cursor);
                    damage_bytes(&mut self.chance, &mut bytes);
                }
                2 if self.chance.one_in(4) => cursor = any_bytes(&mut self.chance),
                _ => damage_bytes(&mut self.chance, &mut bytes),
            }
            self.any_call(&bytes.into(), cursor);
        }
    }

    /// Files of the first layout, whole and damaged, and others that are taken for such.
    fn old_files(&mut self) {
        let plan = if self.chance.one_in(4) { medium(&mut self.chance) } else { small(&mut self.chance) };
        for _ in 0..8 {
            let mut bytes = match self.chance.below(10) {
                0..=2 => first_bytes(&plan),
                3 => encoded(&any_table(&mut self.chance, Layout::First, [5, 5, 9])),
                4 => encoded(&any_table(&mut self.chance, Layout::First, [0, 0, 40])),
                5 => above_a_limit(&mut self.chance, Layout::First),
                6 => plan_bytes(&plan),
                7 => any_bytes(&mut self.chance),
                8 => {
                    // A byte or some are left over, up to as many as today's file would have.
                    let more = 1 + self.chance.below(plan.legs.len() + 2);
                    [first_bytes(&plan), vec![0; more]].concat()
                }
                _ => first_bytes(&Plan { revision: self.chance.word(), ..plan.clone() }),
            };
            for _ in 0..self.chance.of(&[0, 0, 1, 1, 2]) {
                damage_bytes(&mut self.chance, &mut bytes);
            }
            self.convert(&bytes.into());
        }
    }

    /// Cursors of every kind on one plan.
    fn cursors(&mut self) {
        let plan = small(&mut self.chance);
        let bytes: Arc<[u8]> = plan_bytes(&plan).into();
        for _ in 0..10 {
            let cursor = if self.chance.one_in(2) { self.some_place(&plan) } else { self.no_place(&plan) };
            let cursor = if self.chance.one_in(4) { self.stale(cursor) } else { cursor };
            if self.chance.one_in(5) {
                self.any_move(&plan, &bytes, cursor);
            } else {
                let at = Cursor { leg: cursor.leg.min(plan.legs.len() as u32), place: 0, ..cursor };
                let budget = self.budget(&plan, at);
                self.slice(&bytes, cursor_bytes(cursor), budget);
            }
        }
    }

    /// A few calls on a plan near the limits. Every fourth batch looks at all of it.
    fn of_a_large_plan(&mut self, number: u64) {
        let mut plan = large(&mut self.chance);
        if self.chance.one_in(2) {
            to_an_edge(&mut self.chance, &mut plan);
        }
        let bytes: Arc<[u8]> = plan_bytes(&plan).into();
        let start = begin(&plan);
        self.start(&bytes);
        if number % 4 == 0 {
            self.slice(&bytes, cursor_bytes(start), u32::MAX);
        }
        for _ in 0..4 {
            let cursor = self.some_place(&plan);
            let budget = self.chance.of(&[0, 1, 300, 5_000]);
            self.slice(&bytes, cursor_bytes(cursor), budget);
        }
        let (after, from) = self.any_move(&plan, &bytes, start);
        if let Some(from) = from {
            self.slice(&plan_bytes(&after).into(), cursor_bytes(from), 300);
        }
        for _ in 0..4 {
            let mut words = plan.words();
            damage_table(&mut self.chance, &mut words);
            self.any_call(&encoded(&words).into(), cursor_bytes(start));
        }
        let mut cut = bytes.to_vec();
        damage_bytes(&mut self.chance, &mut cut);
        self.any_call(&cut.into(), cursor_bytes(start));
        // Now and then with as many legs as a plan can have, or one more, all at offsets of five bytes.
        let legs = match number % 8 {
            0 => LIMITS.legs,
            4 => LIMITS.legs + 1,
            _ => plan.legs.len() as u32,
        };
        let leg = Leg { stream: u32::MAX, link: u32::MAX, offset: u32::MAX, periods: 0 };
        plan.legs.resize(legs as usize, leg);
        self.convert(&first_bytes(&plan).into());
    }
}
