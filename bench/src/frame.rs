//! The end marks of a frame that repeats: what the dispatcher's steps are timed over.

use crate::plain::dispatch::step;
use crate::plain::IDLE;
use crate::state::State;

#[derive(Clone, Copy)]
pub enum Ends {
    /// Each job ends with its CLO-th unit: the frame stays in LO.
    Ordinary,
    /// No job ends, but a high job with its CHI-th unit, where 35 would halt.
    Fewest,
}

impl Ends {
    /// Whether the job ordered last ends.
    pub fn mark(self, state: &State) -> bool {
        if state.ordered == IDLE {
            return false;
        }
        let job = usize::from(state.ordered);
        let units = state.units[job] + 1;
        match self {
            Ends::Ordinary => units >= state.clo[job],
            Ends::Fewest => state.level[job] == 1 && units >= state.chi[job],
        }
    }
}

/// A state at the last slot of a frame, and the marks of the steps to the same slot of the next.
pub struct Frame {
    pub state: State,
    pub marks: Vec<bool>,
}

impl Frame {
    /// The second frame: the first begins with no job ordered.
    pub fn of(opened: &State, slots: usize, ends: Ends) -> Frame {
        let mut state = opened.clone();
        run(&mut state, slots, ends);
        let mut after = state.clone();
        let marks = run(&mut after, slots, ends);
        after.tick = state.tick;
        assert!(after == state, "the frame does not repeat");
        Frame { state, marks }
    }
}

fn run(state: &mut State, slots: usize, ends: Ends) -> Vec<bool> {
    let mut one = || {
        let mark = ends.mark(state);
        let answer = step(state, state.tick.wrapping_add(1), mark);
        assert_eq!(answer.number, 0, "a step of the frame is refused");
        mark
    };
    (0..slots).map(|_| one()).collect()
}
