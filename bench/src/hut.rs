//! The proved calls, as include/hut.h has them.

use crate::answer::{Answer, LogAnswer};
use crate::held::Held;

#[repr(C)]
struct Running {
    answer: Answer,
    state: Held,
    rest: u16,
}

#[link(name = "hut", kind = "static")]
extern "C" {
    fn hut_check(
        list: *const u8,
        list_bytes: usize,
        lo: *const u8,
        lo_bytes: usize,
        hi: *const u8,
        hi_bytes: usize,
    ) -> Answer;
    fn hut_build(list: *const u8, list_bytes: usize, out: *mut u8, out_bytes: usize) -> Answer;
    fn hut_open(plan: *const u8, plan_bytes: usize, first: u16) -> Running;
    fn hut_step(state: *mut Held, tick: u16, ended: u8) -> Answer;
    fn hut_log_append(
        store: *mut u8,
        store_bytes: usize,
        plan: *const u8,
        plan_bytes: usize,
    ) -> LogAnswer;
    fn hut_log_newest(store: *const u8, store_bytes: usize) -> LogAnswer;
    fn hut_log_previous(store: *const u8, store_bytes: usize, end: usize) -> LogAnswer;
}

pub fn check(list: &[u8], lo: &[u8], hi: &[u8]) -> Answer {
    let (list, list_bytes) = (list.as_ptr(), list.len());
    // SAFETY: the slices are lent for the call.
    unsafe { hut_check(list, list_bytes, lo.as_ptr(), lo.len(), hi.as_ptr(), hi.len()) }
}

pub fn build(list: &[u8], out: &mut [u8]) -> Answer {
    // SAFETY: as above, and `out` is lent alone.
    unsafe { hut_build(list.as_ptr(), list.len(), out.as_mut_ptr(), out.len()) }
}

pub fn open(plan: &[u8], first: u16) -> (Answer, Held) {
    // SAFETY: as above; any bytes are a state.
    let running = unsafe { hut_open(plan.as_ptr(), plan.len(), first) };
    (running.answer, running.state)
}

pub fn log_append(store: &mut [u8], plan: &[u8]) -> LogAnswer {
    // SAFETY: as above, and the store is lent alone.
    unsafe { hut_log_append(store.as_mut_ptr(), store.len(), plan.as_ptr(), plan.len()) }
}

pub fn log_newest(store: &[u8]) -> LogAnswer {
    // SAFETY: the slice is lent for the call.
    unsafe { hut_log_newest(store.as_ptr(), store.len()) }
}

pub fn log_previous(store: &[u8], end: usize) -> LogAnswer {
    // SAFETY: the slice is lent for the call.
    unsafe { hut_log_previous(store.as_ptr(), store.len(), end) }
}

pub fn step(state: &mut Held, tick: u16, ended: bool) -> Answer {
    // SAFETY: as above; the state is lent alone.
    unsafe { hut_step(state, tick, u8::from(ended)) }
}
