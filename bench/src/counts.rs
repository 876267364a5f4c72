//! The count of a job's entries: both sides in C's way of calling, so that neither has a call more.

use crate::plain::count::entries_before;
use crate::timing::{self, Timed};
use std::hint::black_box;
use std::slice;

type Count = unsafe extern "C" fn(*const u8, usize, usize, usize) -> usize;

#[link(name = "timed", kind = "static")]
extern "C" {
    fn timed_entries_before(table: *const u8, entries: usize, job: usize, slot: usize) -> usize;
}

unsafe extern "C" fn plain(table: *const u8, entries: usize, job: usize, slot: usize) -> usize {
    // SAFETY: the caller lends a table of so many entries.
    entries_before(unsafe { slice::from_raw_parts(table, entries) }, job, slot)
}

/// The job of every second entry, from slot 0 on.
const OFTEN: u8 = 0;

/// The job of slot 1 and each 64th after it.
const RARELY: u8 = 1;

/// The job of the entries that are left.
const OTHER: u8 = 2;

/// A job that has none.
const NEVER: u8 = 3;

/// The size of a largest table and of a small one, and smaller ones.
const SIZES: [usize; 2] = [1024, 16];
const SMALLER: [usize; 8] = [15, 8, 7, 4, 3, 2, 1, 0];

/// How many entries of a job stand in a table before a slot.
pub struct Question {
    table: Vec<u8>,
    often: &'static str,
    job: usize,
    slot: usize,
}

/// Each job in the two tables, before the end and before the middle; then a job in the smaller ones.
pub fn all() -> Vec<Question> {
    let mut questions = Vec::new();
    for size in SIZES {
        for (often, job) in [("often", OFTEN), ("rarely", RARELY), ("never", NEVER)] {
            for slot in [size, size / 2] {
                questions.push(Question { table: table(size), often, job: job.into(), slot });
            }
        }
    }
    for size in SMALLER {
        questions.push(Question {
            table: table(size),
            often: "often",
            job: OFTEN.into(),
            slot: size,
        });
    }
    questions
}

fn table(size: usize) -> Vec<u8> {
    let entry = |slot: usize| match slot % 64 {
        1 => RARELY,
        place if place % 2 == 0 => OFTEN,
        _ => OTHER,
    };
    (0..size).map(entry).collect()
}

/// As the other rows write numbers: 1,024.
fn with_comma(number: usize) -> String {
    match number {
        0..1000 => number.to_string(),
        _ => format!("{},{:03}", number / 1000, number % 1000),
    }
}

impl Question {
    pub fn name(&self) -> String {
        format!("table of {}", with_comma(self.table.len()))
    }

    pub fn call(&self) -> String {
        format!("count before {}, job {}", with_comma(self.slot), self.often)
    }

    /// Where the two sides differ: also past the end, and for jobs that are no byte.
    pub fn difference(&self) -> Option<String> {
        for job in [self.job, self.job + 256, 255] {
            for slot in [self.slot, self.slot / 3, self.slot + 1, usize::MAX] {
                let (rattle, rust) =
                    (self.asked(timed_entries_before, job, slot), self.asked(plain, job, slot));
                if rattle != rust {
                    let name = self.name();
                    return Some(format!("{name}, job {job}, slot {slot}: {rattle} and {rust}"));
                }
            }
        }
        None
    }

    pub fn time(&self) -> Timed {
        let with = |count: Count| {
            move || {
                black_box(self.asked(black_box(count), black_box(self.job), black_box(self.slot)));
            }
        };
        timing::pair(with(timed_entries_before), with(plain))
    }

    #[inline(always)]
    fn asked(&self, count: Count, job: usize, slot: usize) -> usize {
        // SAFETY: the table is lent for the call.
        unsafe { count(self.table.as_ptr(), self.table.len(), job, slot) }
    }
}
