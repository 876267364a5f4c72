//! The dispatcher's state and one step of it. The bench times this step.

use crate::limits::{IDLE, MOST_EDGES, MOST_JOBS, MOST_SLOTS, MOST_UNITS};
use crate::refusal::Refusal;

/// Everything a step looks at. Marks are bytes: 0 is clear, anything else is set.
#[derive(Clone, PartialEq)]
pub struct State {
    pub l: u16,
    pub n: u16,
    pub m: u16,
    pub arrival: [u16; MOST_JOBS],
    pub deadline: [u16; MOST_JOBS],
    pub clo: [u16; MOST_JOBS],
    pub chi: [u16; MOST_JOBS],
    pub level: [u8; MOST_JOBS],
    pub from: [u8; MOST_EDGES],
    pub to: [u8; MOST_EDGES],
    pub lo: [u8; MOST_SLOTS],
    pub hi: [u8; MOST_SLOTS],
    pub slot: u16,
    pub tick: u16,
    pub ordered: u8,
    pub high: u8,
    pub halted: u8,
    pub units: [u16; MOST_JOBS],
    pub done: [u8; MOST_JOBS],
    pub cut: [u8; MOST_JOBS],
}

impl State {
    /// The order for the next slot, a job or idle.
    pub fn step(&mut self, tick: u16, ended: bool) -> Result<u8, Refusal> {
        if !self.is_sound() {
            return Err(Refusal::bare(37));
        }
        if self.halted != 0 {
            return Err(Refusal::bare(32));
        }
        match tick.wrapping_sub(self.tick) {
            0 => return Err(Refusal::bare(30)),
            1 => {}
            2..=32_767 => {
                self.halted = 1;
                return Err(Refusal::bare(31));
            }
            // half the counter away: nobody can say whether it is behind or ahead
            32_768 => {
                self.halted = 1;
                return Err(Refusal::bare(36));
            }
            32_769..=65_535 => return Err(Refusal::bare(33)),
        }
        if self.ordered != IDLE {
            self.book(ended)?;
        } else if ended {
            return Err(Refusal::bare(34));
        }
        self.tick = tick;
        self.move_on();
        self.ordered = self.order();
        Ok(self.ordered)
    }

    /// Row 37.
    fn is_sound(&self) -> bool {
        let (l, n, m) = (usize::from(self.l), usize::from(self.n), usize::from(self.m));
        if !(1..=MOST_SLOTS).contains(&l) || !(1..=MOST_JOBS).contains(&n) || m > MOST_EDGES {
            return false;
        }
        let job = |number: &u8| usize::from(*number) < n;
        let entry = |number: &u8| *number == IDLE || job(number);
        let units = |count: &u16| usize::from(*count) <= MOST_UNITS;
        usize::from(self.slot) < l
            && entry(&self.ordered)
            && self.lo[..l].iter().all(entry)
            && self.hi[..l].iter().all(entry)
            && self.from[..m].iter().all(job)
            && self.to[..m].iter().all(job)
            && self.level[..n].iter().all(|&level| level <= 1)
            && self.units[..n].iter().all(units)
            && self.clo[..n].iter().all(units)
            && self.chi[..n].iter().all(units)
    }

    /// Books the last slot for the job ordered in it.
    fn book(&mut self, ended: bool) -> Result<(), Refusal> {
        let job = usize::from(self.ordered);
        let high = self.level[job] == 1;
        let units = (self.units[job] + 1).min(MOST_UNITS as u16);
        if !ended && high && units >= self.chi[job] {
            self.halted = 1;
            return Err(Refusal::at_job(35, job));
        }
        self.units[job] = units;
        if ended {
            self.done[job] = 1;
        } else if units >= self.clo[job] {
            if !high {
                self.cut[job] = 1;
            } else if self.high == 0 {
                self.high = 1;
            }
        }
        Ok(())
    }

    fn move_on(&mut self) {
        if self.slot + 1 < self.l {
            self.slot += 1;
            return;
        }
        self.slot = 0;
        self.high = 0;
        self.units = [0; MOST_JOBS];
        self.done = [0; MOST_JOBS];
        self.cut = [0; MOST_JOBS];
    }

    fn order(&self) -> u8 {
        let slot = usize::from(self.slot);
        let named = if self.high == 0 { self.lo[slot] } else { self.hi[slot] };
        if named != IDLE && self.may_run(usize::from(named)) {
            named
        } else {
            IDLE
        }
    }

    fn may_run(&self, job: usize) -> bool {
        let edges = 0..usize::from(self.m);
        let mut before = edges.filter(|&edge| usize::from(self.to[edge]) == job);
        self.done[job] == 0
            && self.cut[job] == 0
            && self.arrival[job] <= self.slot
            && before.all(|edge| self.done[usize::from(self.from[edge])] != 0)
            && (self.high == 0 || self.level[job] == 1 || self.slot < self.deadline[job])
    }
}
