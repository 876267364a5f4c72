//! A plan's bytes: written, and read again; 40 to 43.

use super::check;
use super::list::Counts;
use crate::answer::Answer;

const MARK: [u8; 4] = [0x54, 0x54, 0x50, 0x31];
pub const TRAILER_BYTES: usize = 8;
pub const LEAST_BYTES: usize = 16;

pub fn put_plan(list: &[u8], lo: &[u8], hi: &[u8], out: &mut [u8]) -> usize {
    let back = list.len() + lo.len() + hi.len();
    let mut at = 0;
    for part in [list, lo, hi, &(back as u32).to_le_bytes(), &MARK] {
        out[at..at + part.len()].copy_from_slice(part);
        at += part.len();
    }
    at
}

/// The length that the counts give.
pub fn size_of(counts: &Counts) -> usize {
    counts.list_bytes() + 2 * counts.slots + TRAILER_BYTES
}

/// Whether the bytes are a plan that passes the check.
pub fn read(plan: &[u8]) -> Result<(), Answer> {
    if plan.len() < LEAST_BYTES {
        return Err(Answer::bare(40));
    }
    let (front, trailer) = plan.split_at(plan.len() - TRAILER_BYTES);
    if trailer[4..] != MARK {
        return Err(Answer::bare(41));
    }
    if trailer[..4] != (front.len() as u32).to_le_bytes() {
        return Err(Answer::bare(42));
    }
    let counts = Counts::of(plan);
    counts.test()?;
    if plan.len() != size_of(&counts) {
        return Err(Answer::bare(43));
    }
    let (list, tables) = front.split_at(counts.list_bytes());
    let (lo, hi) = tables.split_at(counts.slots);
    check::find(list, lo, hi)
}
