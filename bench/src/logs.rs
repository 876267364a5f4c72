//! The log's calls of both sides, and the stores that they are timed on.

use crate::answer::LogAnswer;
use crate::hut;
use crate::plain::log::{self, MOST_STORE_BYTES};

pub struct Side {
    pub append: fn(&mut [u8], &[u8]) -> LogAnswer,
    pub newest: fn(&[u8]) -> LogAnswer,
    pub previous: fn(&[u8], usize) -> LogAnswer,
}

pub const RATTLE: Side =
    Side { append: hut::log_append, newest: hut::log_newest, previous: hut::log_previous };
pub const RUST: Side = Side { append: log::append, newest: log::newest, previous: log::previous };

impl Side {
    /// The plans of a store, newest first: each call's answer, the last of them a refusal.
    pub fn list(&self, store: &[u8], mut seen: impl FnMut(LogAnswer)) {
        let mut answer = (self.newest)(store);
        seen(answer);
        while answer.answer.number == 0 {
            answer = (self.previous)(store, answer.at);
            seen(answer);
        }
    }
}

/// How often a plan goes into a store of 64 KiB.
pub fn most(plan: &[u8]) -> usize {
    MOST_STORE_BYTES / plan.len()
}

/// A store that holds a plan so many times, with zeros behind.
pub fn holding(plan: &[u8], times: usize) -> Vec<u8> {
    let mut store = plan.repeat(times);
    store.resize(MOST_STORE_BYTES, 0);
    store
}
