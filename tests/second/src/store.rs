//! The store that the program holds for the log, and the words that change it or look at it.
//!
//! A number over its limit cannot be read, nor can a place past the store's end.

use crate::fields::{byte, bytes, hex, number};
use crate::log;

/// More than a log may have, so that 52 can be seen.
pub const MOST_SIZE: usize = 70_000;
pub const MOST_WRITES: usize = 200_000;
pub const MOST_PEEKED: usize = 4_096;

pub struct Store {
    pub bytes: Vec<u8>,
}

impl Store {
    pub fn new() -> Store {
        Store { bytes: Vec::new() }
    }

    pub fn answer(&mut self, fields: &[&[u8]]) -> Option<String> {
        match *fields {
            [b"store", size, value] => self.fill(number(size, MOST_SIZE)?, byte(value)?),
            [b"put", at, new] => self.put(number(at, MOST_SIZE)?, &bytes(new)?),
            [b"append", plan] => self.append(&bytes(plan)?, usize::MAX),
            [b"cut", plan, count] => self.append(&bytes(plan)?, number(count, MOST_WRITES)?),
            [b"newest"] => self.newest(),
            [b"listed"] => self.listed(),
            [b"peek", at, count] => self.peek(number(at, MOST_SIZE)?, number(count, MOST_PEEKED)?),
            _ => None,
        }
    }

    fn fill(&mut self, size: usize, value: u8) -> Option<String> {
        self.bytes = vec![value; size];
        Some("0".to_string())
    }

    fn put(&mut self, at: usize, new: &[u8]) -> Option<String> {
        self.bytes.get_mut(at..at + new.len())?.copy_from_slice(new);
        Some("0".to_string())
    }

    fn peek(&self, at: usize, count: usize) -> Option<String> {
        let part = self.bytes.get(at..at + count)?;
        Some(format!("0 bytes={}", hex(part)))
    }

    /// An append of which the first `count` byte writes are made. The answer is that of all.
    fn append(&mut self, plan: &[u8], count: usize) -> Option<String> {
        let answer = log::append(&self.bytes, plan);
        if let Ok(append) = &answer {
            append.write(&mut self.bytes, count);
        }
        Some(answer.map_or_else(|no| no.to_string(), |append| format!("0 at={}", append.start)))
    }

    fn newest(&self) -> Option<String> {
        let shown = |plan: log::Whole| format!("0 at={} size={}", plan.start, plan.size);
        Some(log::newest(&self.bytes).map_or_else(|no| no.to_string(), shown))
    }

    fn listed(&self) -> Option<String> {
        let shown = |starts: Vec<usize>| {
            let starts: Vec<String> = starts.iter().map(usize::to_string).collect();
            format!("0 at={}", starts.join(","))
        };
        Some(log::listed(&self.bytes).map_or_else(|no| no.to_string(), shown))
    }
}
