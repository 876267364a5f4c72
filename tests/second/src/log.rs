//! The log (request 2026-01): plans back to back in a store, found by a walk from its front, and
//! appends whose byte writes may be cut short.

use crate::list::{Head, HEAD_BYTES};
use crate::plan::{self, TRAILER_BYTES};
use crate::refusal::Refusal;

pub const MOST_STORE: usize = 65_536;

/// A whole plan in a store.
#[derive(Clone, Copy, Debug, PartialEq, Eq)]
pub struct Whole {
    pub start: usize,
    pub size: usize,
}

impl Whole {
    pub fn end(&self) -> usize {
        self.start + self.size
    }
}

/// The plan that begins at a place: as many bytes as its counts give, all in the store, accepted.
pub fn whole_at(store: &[u8], start: usize) -> Option<Whole> {
    let rest = &store[start..];
    let size = Head::read(rest.get(..HEAD_BYTES)?).ok()?.plan_size();
    plan::read(rest.get(..size)?).ok()?;
    Some(Whole { start, size })
}

/// The whole plans from the front on, to where no accepted plan begins.
pub fn walk(store: &[u8]) -> Vec<Whole> {
    let mut plans = Vec::new();
    let mut end = 0;
    while let Some(plan) = whole_at(store, end) {
        end = plan.end();
        plans.push(plan);
    }
    plans
}

/// 52, first of all.
fn not_too_large(store: &[u8]) -> Result<(), Refusal> {
    if store.len() > MOST_STORE {
        return Err(Refusal::bare(52));
    }
    Ok(())
}

pub fn newest(store: &[u8]) -> Result<Whole, Refusal> {
    not_too_large(store)?;
    walk(store).last().copied().ok_or(Refusal::bare(51))
}

/// The starts of all whole plans, newest first: each trailer's distance leads back to its start.
pub fn listed(store: &[u8]) -> Result<Vec<usize>, Refusal> {
    let mut place = newest(store)?.end();
    let mut starts = Vec::new();
    while place > 0 {
        let trailer = place - TRAILER_BYTES;
        place = trailer - plan::distance(&store[trailer..place]);
        starts.push(place);
    }
    Ok(starts)
}

/// An append that is not refused: where the plan's first byte goes, and every byte write, in order.
pub struct Append {
    pub start: usize,
    pub writes: Vec<(usize, u8)>,
}

impl Append {
    /// Zeroes from the store's last byte back to the start, then the plan forwards.
    fn new(store: &[u8], start: usize, plan: &[u8]) -> Append {
        let zeros = (start..store.len()).rev().map(|at| (at, 0));
        let forwards = (start..).zip(plan.iter().copied());
        Append { start, writes: zeros.chain(forwards).collect() }
    }

    /// Makes the first `count` writes; after them the power fails.
    pub fn write(&self, store: &mut [u8], count: usize) {
        for &(at, value) in self.writes.iter().take(count) {
            store[at] = value;
        }
    }
}

pub fn append(store: &[u8], plan: &[u8]) -> Result<Append, Refusal> {
    not_too_large(store)?;
    plan::read(plan)?;
    let start = walk(store).last().map_or(0, Whole::end);
    if plan.len() > store.len() - start {
        return Err(Refusal::bare(50));
    }
    Ok(Append::new(store, start, plan))
}
