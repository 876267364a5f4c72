//! The dispatcher's step, in place: the second program's, which keeps its state as the proved calls do.

use crate::answer::Answer;
use crate::state::State;

#[inline(never)]
pub fn step(state: &mut State, tick: u16, ended: bool) -> Answer {
    match state.step(tick, ended) {
        Ok(order) => Answer::order_of(usize::from(order)),
        Err(no) => no.job.map_or(Answer::bare(no.number), |job| Answer::at_job(no.number, job)),
    }
}
