//! An admission as one writes it for speed: the plan is read and judged once, checked by one of the quick checkers, and the
//! first offset is found by jumps.

use crate::admit::{enlarge, lay, Wanted, BAD_STREAM, NOT_ACCEPTED, NO_SLOT, RIGHT};
use crate::admit_jump::{conditions, least};
use crate::admit_seen::causes;
use crate::check::{whole, Checker, Plain};
use crate::format::{plan_bytes, refused, table_words, Outcome};
use crate::paper::{LAST_REVISION, NOTHING_VIOLATED, NO_ROOM, NUMBER_BYTES};

/// The bytes of the new plan, and the first offset.
pub fn quick<C: Checker>(checker: &C, file: &[u8], wanted: &Wanted, lent: usize) -> Outcome<(Vec<u8>, u32)> {
    let plan = Plain.read_plan(file)?;
    Plain.judge(&plan)?;
    if plan.revision == u32::MAX {
        return refused(LAST_REVISION, 0);
    }
    if !causes(&plan, wanted).is_empty() {
        return refused(BAD_STREAM, 0);
    }
    let mut enlarged = enlarge(&plan, wanted);
    if (lent as u64) < NUMBER_BYTES as u64 * table_words(&enlarged.header()) {
        return refused(NO_ROOM, 0);
    }
    if whole(checker, &plan).result != NOTHING_VIOLATED {
        return refused(NOT_ACCEPTED, 0);
    }
    match conditions(&enlarged).and_then(|asked| least(&asked, 0..wanted.period.into())) {
        Some(offset) => {
            lay(&RIGHT, &mut enlarged, offset);
            Ok((plan_bytes(&enlarged), offset as u32))
        }
        None => refused(NO_SLOT, 0),
    }
}
