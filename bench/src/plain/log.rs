//! The log of plans in one store: 50 to 52.

use super::list::Counts;
use super::plan::{read, size_of, LEAST_BYTES, TRAILER_BYTES};
use crate::answer::{Answer, LogAnswer};

pub const MOST_STORE_BYTES: usize = 65_536;

/// Zeros from the store's last byte back to the end of the last whole plan, then the plan forwards.
/// A refusal leaves the store as it was.
#[inline(never)]
pub fn append(store: &mut [u8], plan: &[u8]) -> LogAnswer {
    match room_for(store, plan) {
        Ok(at) => {
            for byte in store[at..].iter_mut().rev() {
                *byte = 0;
            }
            for (to, &byte) in store[at..].iter_mut().zip(plan) {
                *to = byte;
            }
            LogAnswer::plan_at(at, plan.len())
        }
        Err(no) => LogAnswer::no(no),
    }
}

#[inline(never)]
pub fn newest(store: &[u8]) -> LogAnswer {
    if store.len() > MOST_STORE_BYTES {
        return LogAnswer::no(Answer::bare(52));
    }
    match last_of(store) {
        Some((at, bytes)) => LogAnswer::plan_at(at, bytes),
        None => LogAnswer::no(Answer::bare(51)),
    }
}

/// The plan that ends at `end`.
#[inline(never)]
pub fn previous(store: &[u8], end: usize) -> LogAnswer {
    if store.len() > MOST_STORE_BYTES {
        return LogAnswer::no(Answer::bare(52));
    }
    match start_before(store, end).filter(|&start| read(&store[start..end]).is_ok()) {
        Some(start) => LogAnswer::plan_at(start, end - start),
        None => LogAnswer::no(Answer::bare(51)),
    }
}

/// Where the distance in the trailer before `end` leads.
fn start_before(store: &[u8], end: usize) -> Option<usize> {
    let front = store.get(..end).filter(|front| front.len() >= LEAST_BYTES)?;
    let (before, trailer) = front.split_at(end - TRAILER_BYTES);
    let back = u32::from_le_bytes([trailer[0], trailer[1], trailer[2], trailer[3]]);
    before.len().checked_sub(back as usize)
}

fn room_for(store: &[u8], plan: &[u8]) -> Result<usize, Answer> {
    if store.len() > MOST_STORE_BYTES {
        return Err(Answer::bare(52));
    }
    read(plan)?;
    let end = last_of(store).map_or(0, |(at, bytes)| at + bytes);
    if store.len() - end < plan.len() {
        return Err(Answer::bare(50));
    }
    Ok(end)
}

/// The last whole plan, by the walk from the front: its place and size.
fn last_of(store: &[u8]) -> Option<(usize, usize)> {
    let mut last = None;
    let mut end = 0;
    while let Some(size) = size_at(&store[end..]) {
        last = Some((end, size));
        end += size;
    }
    last
}

/// The size of the accepted plan at the front of the bytes, if there is one.
fn size_at(bytes: &[u8]) -> Option<usize> {
    if bytes.len() < LEAST_BYTES {
        return None;
    }
    let size = size_of(&Counts::of(bytes));
    let plan = bytes.get(..size)?;
    read(plan).is_ok().then_some(size)
}
