//! A state as the proved calls keep it: the fields of `struct hut_state`, and the way to the second program's and back.

use crate::limits::{MOST_EDGES, MOST_JOBS, MOST_SLOTS};
use crate::state::State;

/// A job's numbers: a, d, CLO, CHI and the level.
const NUMBERS: usize = 5;

#[repr(C)]
#[derive(Clone)]
pub struct Held {
    counts: [u16; 3],
    jobs: [[u16; NUMBERS]; MOST_JOBS],
    edges: [[u8; 2]; MOST_EDGES],
    tables: [[u8; MOST_SLOTS]; 2],
    slot: u16,
    tick: u16,
    ordered: u8,
    high: u8,
    halted: u8,
    spare: u8,
    units: [u16; MOST_JOBS],
    done: [u8; MOST_JOBS],
    cut: [u8; MOST_JOBS],
}

impl Held {
    pub fn plain(&self) -> State {
        let number = |k: usize| self.jobs.map(|job| job[k]);
        State {
            l: self.counts[0],
            n: self.counts[1],
            m: self.counts[2],
            arrival: number(0),
            deadline: number(1),
            clo: number(2),
            chi: number(3),
            level: number(4).map(|level| level as u8),
            from: self.edges.map(|edge| edge[0]),
            to: self.edges.map(|edge| edge[1]),
            lo: self.tables[0],
            hi: self.tables[1],
            slot: self.slot,
            tick: self.tick,
            ordered: self.ordered,
            high: self.high,
            halted: self.halted,
            units: self.units,
            done: self.done,
            cut: self.cut,
        }
    }

    pub fn of(s: &State) -> Held {
        let job = |j: usize| [s.arrival[j], s.deadline[j], s.clo[j], s.chi[j], u16::from(s.level[j])];
        Held {
            counts: [s.l, s.n, s.m],
            jobs: std::array::from_fn(job),
            edges: std::array::from_fn(|e| [s.from[e], s.to[e]]),
            tables: [s.lo, s.hi],
            slot: s.slot,
            tick: s.tick,
            ordered: s.ordered,
            high: s.high,
            halted: s.halted,
            spare: 0,
            units: s.units,
            done: s.done,
            cut: s.cut,
        }
    }
}
