//! One question to the count: a table, a job and a slot. And random ones, drawn so that a count
//! that goes by blocks or keeps bytes shows where it is wrong.

use crate::count;
use crate::fields::{hex, MOST_BYTES};
use crate::lists;
use crate::plan::IDLE;
use crate::random::Random;

/// The largest number of a field, JOB and SLOT alike.
pub const MOST_WORD: usize = u16::MAX as usize;

/// How many values a table's byte has: a larger job stands in no table.
pub const ENTRIES: usize = 256;

/// The sizes of blocks that a count may go by.
const BLOCKS: [usize; 9] = [8, 16, 32, 64, 128, 224, 255, 256, 1024];

pub struct Question {
    pub table: Vec<u8>,
    pub job: usize,
    pub slot: usize,
}

impl Question {
    pub fn request(&self) -> String {
        format!("count {} {} {}", hex(&self.table), self.job, self.slot)
    }

    pub fn count(&self) -> usize {
        self.count_of(self.job)
    }

    /// The count if it were asked of another job.
    pub fn count_of(&self, job: usize) -> usize {
        count::before(&self.table, job, self.slot)
    }

    /// Whether the job stands in this slot and in no other.
    pub fn is_alone_at(&self, slot: usize) -> bool {
        count::slots_of(&self.table, self.job) == [slot]
    }

    pub fn any(random: &mut Random) -> Question {
        let table = table(random);
        let job = job(random, &table);
        let slot = slot(random, table.len()).min(MOST_WORD);
        Question { table, job, slot }
    }
}

/// A table of any bytes, of a few values that are near to each other, or of a list's frame.
fn table(random: &mut Random) -> Vec<u8> {
    let length = match random.below(200) {
        0 => MOST_BYTES - random.below(300),
        1..20 => random.within(600, 5000),
        20..120 => random.below(600),
        _ => random.below(70),
    };
    match random.below(5) {
        0 => (0..length).map(|_| random.below(ENTRIES) as u8).collect(),
        1..4 => {
            let (entry, often) = (random.below(ENTRIES) as u8, random.pick(&[5, 50, 95]));
            let mut next = || if random.chance(often) { entry } else { near(random, entry) };
            (0..length).map(|_| next()).collect()
        }
        _ => {
            let list = lists::any(random);
            lists::tables(random, &list).0
        }
    }
}

/// Another value that differs in one bit.
pub fn near(random: &mut Random, entry: u8) -> u8 {
    entry ^ 1 << random.below(8)
}

/// Mostly what stands in the table, and now and then what only its lower byte would find there.
fn job(random: &mut Random, table: &[u8]) -> usize {
    let entry = usize::from(if table.is_empty() { IDLE } else { random.pick(table) });
    match random.below(10) {
        0..6 => entry,
        6 => IDLE.into(),
        7 => entry + ENTRIES * random.within(1, MOST_WORD / ENTRIES),
        8 => random.below(ENTRIES),
        _ => random.within(0, MOST_WORD),
    }
}

/// Inside of the table, often at the edge of a block, and now and then past its end.
fn slot(random: &mut Random, length: usize) -> usize {
    let around = match random.below(10) {
        0..4 => return random.within(0, length),
        4..7 => {
            let block = random.pick(&BLOCKS);
            block * random.within(0, length / block)
        }
        7..9 => length,
        _ => return random.pick(&[0, length + ENTRIES, MOST_WORD]),
    };
    (around + random.below(3)).saturating_sub(1)
}
