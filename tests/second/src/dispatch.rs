//! "The dispatcher": opening a plan.

use crate::limits::{IDLE, MOST_EDGES, MOST_JOBS, MOST_SLOTS};
use crate::plan::{self, Plan};
use crate::refusal::Refusal;
use crate::state::State;

/// The answer, and the state that goes with it: all zero where the plan is refused.
pub fn open(plan: &[u8], first: u16) -> (Result<(), Refusal>, State) {
    match plan::read(plan) {
        Ok(plan) => (Ok(()), State::opened(&plan, first)),
        Err(no) => (Err(no), State::zero()),
    }
}

impl State {
    pub fn zero() -> State {
        State {
            l: 0,
            n: 0,
            m: 0,
            arrival: [0; MOST_JOBS],
            deadline: [0; MOST_JOBS],
            clo: [0; MOST_JOBS],
            chi: [0; MOST_JOBS],
            level: [0; MOST_JOBS],
            from: [0; MOST_EDGES],
            to: [0; MOST_EDGES],
            lo: [0; MOST_SLOTS],
            hi: [0; MOST_SLOTS],
            slot: 0,
            tick: 0,
            ordered: 0,
            high: 0,
            halted: 0,
            units: [0; MOST_JOBS],
            done: [0; MOST_JOBS],
            cut: [0; MOST_JOBS],
        }
    }

    fn opened(plan: &Plan, first: u16) -> State {
        let list = &plan.list;
        let mut state = State {
            l: list.length as u16,
            n: list.jobs.len() as u16,
            m: list.edges.len() as u16,
            slot: list.length as u16 - 1,
            tick: first.wrapping_sub(1),
            ordered: IDLE,
            ..State::zero()
        };
        state.lo[..list.length].copy_from_slice(plan.lo);
        state.hi[..list.length].copy_from_slice(plan.hi);
        for (number, job) in list.jobs.iter().enumerate() {
            state.arrival[number] = job.arrival as u16;
            state.deadline[number] = job.deadline as u16;
            state.clo[number] = job.clo as u16;
            state.chi[number] = job.chi as u16;
            state.level[number] = u8::from(job.high);
        }
        for (number, &(before, after)) in list.edges.iter().enumerate() {
            state.from[number] = before as u8;
            state.to[number] = after as u8;
        }
        state
    }
}
