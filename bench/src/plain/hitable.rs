//! Table HI with its row of owed units.

use super::list::{List, MOST_JOBS, MOST_SLOTS};

/// The row of owed units, kept as runs of a job. It begins in the middle of its room, and a slot
/// adds at most one run at each end.
struct Row {
    runs: [(u8, u16); 2 * MOST_SLOTS],
    head: usize,
    tail: usize,
}

impl Row {
    fn new() -> Row {
        Row { runs: [(0, 0); 2 * MOST_SLOTS], head: MOST_SLOTS, tail: MOST_SLOTS }
    }

    fn push_back(&mut self, job: u8) {
        self.runs[self.tail] = (job, 1);
        self.tail += 1;
    }

    fn push_front(&mut self, job: u8, units: usize) {
        if units > 0 {
            self.head -= 1;
            self.runs[self.head] = (job, units as u16);
        }
    }

    fn pop_front(&mut self) -> Option<u8> {
        if self.head == self.tail {
            return None;
        }
        let (job, units) = &mut self.runs[self.head];
        *units -= 1;
        if *units == 0 {
            self.head += 1;
        }
        Some(*job)
    }
}

/// `first_made` is THI before the merge took units from it.
pub fn table_hi(list: &List, lo: &[u8], first_made: &[u8], hi: &mut [u8]) {
    let mut placed = [0; MOST_JOBS];
    let mut row = Row::new();
    for (slot, &entry) in lo.iter().enumerate() {
        let unit = turn(list, &mut row, entry, first_made[slot]);
        hi[slot] = unit;
        if let Some(job) = list.named(unit) {
            let number = usize::from(unit);
            placed[number] += 1;
            if placed[number] == job.clo {
                row.push_front(unit, job.chi - job.clo);
            }
        }
    }
}

/// The unit for a slot where table LO has `entry`.
fn turn(list: &List, row: &mut Row, entry: u8, first_made: u8) -> u8 {
    if list.named(entry).is_some_and(|job| job.high) {
        if first_made == entry {
            return entry;
        }
        row.push_back(entry);
    }
    row.pop_front().unwrap_or(entry)
}
