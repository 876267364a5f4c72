//! Table LO out of the two late tables.

use super::late::waiting;
use super::list::{List, Marks, Units, MOST_JOBS};
use super::IDLE;
use crate::answer::Answer;

/// The slot of a late table that a unit is taken from.
enum Pick {
    Low(usize),
    High(usize),
    Idle,
}

pub fn table_lo(list: &List, low: &mut [u8], high: &mut [u8], lo: &mut [u8]) -> Result<(), Answer> {
    let mut placed = [0; MOST_JOBS];
    for (slot, entry) in lo.iter_mut().enumerate() {
        let waiting = waiting(list, &unplaced(list, &placed));
        let taken = match pick(list, &waiting, low, high, slot)? {
            Pick::Low(from) => &mut low[from],
            Pick::High(from) => &mut high[from],
            Pick::Idle => continue,
        };
        *entry = std::mem::replace(taken, IDLE);
        placed[usize::from(*entry)] += 1;
    }
    Ok(())
}

/// The jobs that have not all their CLO units in table LO yet.
fn unplaced(list: &List, placed: &Units) -> Marks {
    let mut unplaced = [false; MOST_JOBS];
    for (number, job) in list.jobs().enumerate() {
        unplaced[number] = placed[number] < job.clo;
    }
    unplaced
}

fn pick(
    list: &List,
    waiting: &Marks,
    low: &[u8],
    high: &[u8],
    slot: usize,
) -> Result<Pick, Answer> {
    match (low[slot], high[slot]) {
        (IDLE, IDLE) => Ok(later(list, waiting, low, high, slot)),
        (IDLE, _) => Ok(Pick::High(slot)),
        (job, IDLE) if waiting[usize::from(job)] => Err(Answer::at_slot(23, slot)),
        (_, IDLE) => Ok(Pick::Low(slot)),
        _ => Err(Answer::at_slot(22, slot)),
    }
}

fn later(list: &List, waiting: &Marks, low: &[u8], high: &[u8], slot: usize) -> Pick {
    if let Some(from) = first_fit(list, waiting, low, slot) {
        return Pick::Low(from);
    }
    first_fit(list, waiting, high, slot).map_or(Pick::Idle, Pick::High)
}

/// The lowest later slot of a late table whose job has arrived and does not wait.
fn first_fit(list: &List, waiting: &Marks, table: &[u8], slot: usize) -> Option<usize> {
    let fits = |&from: &usize| {
        let entry = table[from];
        list.named(entry).is_some_and(|job| job.arrival <= slot && !waiting[usize::from(entry)])
    };
    (slot + 1..table.len()).find(fits)
}
