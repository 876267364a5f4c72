//! The late tables: earliest deadline first, units moved late, the first CLO units.

use super::list::{Job, List, Marks, Units, MOST_JOBS};
use super::IDLE;

/// Makes the late table of a level in an idle table; the first slot and job that are late.
pub fn late_table(list: &List, high: bool, table: &mut [u8]) -> Option<(usize, usize)> {
    earliest_deadline_first(list, high, table);
    let late = first_late(list, high, table);
    for slot in (0..table.len()).rev() {
        move_late(list, table, slot);
    }
    late
}

/// The first units of each job stay, as many as its ordinary budget.
pub fn keep_first(list: &List, table: &mut [u8]) {
    let mut had = [0; MOST_JOBS];
    for entry in table {
        if let Some(job) = list.named(*entry) {
            let number = usize::from(*entry);
            if had[number] >= job.clo {
                *entry = IDLE;
            }
            had[number] += 1;
        }
    }
}

/// The jobs that have an undone predecessor: one pass over the edges.
pub fn waiting(list: &List, undone: &Marks) -> Marks {
    let mut waiting = [false; MOST_JOBS];
    for (before, after) in list.edges() {
        if undone[before] {
            waiting[after] = true;
        }
    }
    waiting
}

/// A low job's CHI is its CLO.
fn takes(job: Job, high: bool) -> usize {
    if job.high == high {
        job.chi
    } else {
        0
    }
}

fn undone(list: &List, high: bool, had: &Units) -> Marks {
    let mut undone = [false; MOST_JOBS];
    for (number, job) in list.jobs().enumerate() {
        undone[number] = had[number] < takes(job, high);
    }
    undone
}

fn earliest_deadline_first(list: &List, high: bool, table: &mut [u8]) {
    let mut had = [0; MOST_JOBS];
    for (slot, entry) in table.iter_mut().enumerate() {
        if let Some(job) = choose(list, &undone(list, high, &had), slot) {
            *entry = job as u8;
            had[job] += 1;
        }
    }
}

fn choose(list: &List, undone: &Marks, slot: usize) -> Option<usize> {
    let waiting = waiting(list, undone);
    let ready = |&job: &usize| list.job(job).arrival <= slot && !waiting[job] && undone[job];
    // min_by_key keeps the first of equals, which is the lowest job
    (0..list.count()).filter(ready).min_by_key(|&job| list.job(job).deadline)
}

fn first_late(list: &List, high: bool, table: &[u8]) -> Option<(usize, usize)> {
    let mut had = [0; MOST_JOBS];
    for slot in 0..=table.len() {
        let undone = undone(list, high, &had);
        let is_late = |&job: &usize| list.job(job).deadline == slot && undone[job];
        if let Some(job) = (0..list.count()).find(is_late) {
            return Some((slot, job));
        }
        if let Some(&entry) = table.get(slot).filter(|&&entry| entry != IDLE) {
            had[usize::from(entry)] += 1;
        }
    }
    None
}

fn move_late(list: &List, table: &mut [u8], slot: usize) {
    let entry = table[slot];
    if entry != IDLE {
        table[slot] = IDLE;
        let to = target(list, table, usize::from(entry), slot);
        table[to] = entry;
    }
}

/// The highest empty slot below the job's deadline and below every slot held by a successor.
fn target(list: &List, table: &[u8], job: usize, slot: usize) -> usize {
    let next = successors(list, job);
    let deadline = list.job(job).deadline;
    let held = |&entry: &u8| entry != IDLE && next[usize::from(entry)];
    let bound = table[..deadline].iter().position(held).unwrap_or(deadline);
    // from above to the first, as the proved loop goes
    (0..bound).rev().find(|&place| table[place] == IDLE).unwrap_or(slot)
}

fn successors(list: &List, job: usize) -> Marks {
    let mut next = [false; MOST_JOBS];
    for (before, after) in list.edges() {
        if before == job {
            next[after] = true;
        }
    }
    next
}
