//! The builder: the pair, the check, the plan's bytes; 46, 20 to 24.

use super::hitable::table_hi;
use super::late::{keep_first, late_table};
use super::list::{self, List, MOST_SLOTS};
use super::lotable::table_lo;
use super::plan::{put_plan, TRAILER_BYTES};
use super::{check, IDLE};
use crate::answer::{Answer, Place};

/// Builds a plan at the front of `out`; a refusal leaves `out` as it was.
#[inline(never)]
pub fn build(list: &[u8], out: &mut [u8]) -> Answer {
    match put_built(list, out) {
        Ok(length) => Answer::plan_of(length),
        Err(no) => no,
    }
}

fn put_built(bytes: &[u8], out: &mut [u8]) -> Result<usize, Answer> {
    let list = list::read(bytes)?;
    if out.len() < bytes.len() + 2 * list.slots + TRAILER_BYTES {
        return Err(Answer::bare(46));
    }
    let (mut lo, mut hi) = ([IDLE; MOST_SLOTS], [IDLE; MOST_SLOTS]);
    let (lo, hi) = (&mut lo[..list.slots], &mut hi[..list.slots]);
    make_pair(&list, lo, hi)?;
    check::find(bytes, lo, hi).map_err(|no| {
        let place = Place { fault: no.number, ..no.place };
        Answer { number: 24, place, ..no }
    })?;
    Ok(put_plan(bytes, lo, hi, out))
}

fn make_pair(list: &List, lo: &mut [u8], hi: &mut [u8]) -> Result<(), Answer> {
    let (mut low, mut high) = ([IDLE; MOST_SLOTS], [IDLE; MOST_SLOTS]);
    let (low, high) = (&mut low[..list.slots], &mut high[..list.slots]);
    let low_late = late_table(list, false, low);
    let high_late = late_table(list, true, high);
    keep_first(list, high);
    if let Some((slot, job)) = low_late {
        return Err(Answer::late(20, slot, job));
    }
    if let Some((slot, job)) = high_late {
        return Err(Answer::late(21, slot, job));
    }
    let mut left = [IDLE; MOST_SLOTS];
    let left = &mut left[..list.slots];
    left.copy_from_slice(high);
    table_lo(list, low, left, lo)?;
    table_hi(list, lo, high, hi);
    Ok(())
}
