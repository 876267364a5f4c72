//! "Building the pair": the merge method, sentence by sentence.

use std::collections::VecDeque;

use crate::check;
use crate::list::{self, List};
use crate::plan::{self, IDLE};
use crate::refusal::Refusal;

/// A table while it is made: each slot empty or holding one unit of a job.
type Slots = Vec<Option<usize>>;

/// Builds a plan at the front of `out`, or leaves `out` as it was.
pub fn build(bytes: &[u8], out: &mut [u8]) -> Result<(), Refusal> {
    let list = list::read(bytes)?;
    if out.len() < list.plan_size() {
        return Err(Refusal::bare(46));
    }
    let (lo, hi) = pair(&list)?;
    check::search(&list, &lo, &hi).map_err(|fault| Refusal {
        number: 24,
        fault: Some(fault.number),
        ..fault
    })?;
    out[..list.plan_size()].copy_from_slice(&plan::compose(bytes, &lo, &hi));
    Ok(())
}

/// Tables LO and HI, not yet through the check.
pub fn pair(list: &List) -> Result<(Vec<u8>, Vec<u8>), Refusal> {
    let low = late_table(list, false)?;
    let high = first_units(list, late_table(list, true)?);
    let lo = table_lo(list, low, high.clone())?;
    let hi = table_hi(list, &lo, &high);
    Ok((entries(&lo), entries(&hi)))
}

fn entries(slots: &Slots) -> Vec<u8> {
    slots.iter().map(|unit| unit.map_or(IDLE, |job| job as u8)).collect()
}

fn late_table(list: &List, high: bool) -> Result<Slots, Refusal> {
    let mut table = earliest_deadline_first(list, high)?;
    for slot in (0..list.length).rev() {
        if let Some(job) = table[slot].take() {
            let highest = highest_slot(list, &table, job);
            table[highest] = Some(job);
        }
    }
    Ok(table)
}

/// The schedule of one level alone; 20 or 21 where a deadline passes.
fn earliest_deadline_first(list: &List, high: bool) -> Result<Slots, Refusal> {
    // a low job's CHI is its CLO
    let mut left: Vec<usize> = list.jobs.iter().map(|job| job.chi).collect();
    let mut table = vec![None; list.length];
    for slot in 0..=list.length {
        let of_level = (0..list.jobs.len()).filter(|&job| list.jobs[job].high == high);
        let open = of_level.filter(|&job| left[job] > 0);
        if let Some(job) = open.clone().find(|&job| list.jobs[job].deadline == slot) {
            let number = if high { 21 } else { 20 };
            return Err(Refusal { job: Some(job), ..Refusal::at_slot(number, slot) });
        }
        if slot == list.length {
            break;
        }
        let waits = |before: usize| list.jobs[before].high == high && left[before] > 0;
        let ready =
            |&job: &usize| list.jobs[job].arrival <= slot && !list.predecessors(job).any(waits);
        // min_by_key keeps the first of equals, which is the lowest job
        if let Some(job) = open.filter(ready).min_by_key(|&job| list.jobs[job].deadline) {
            table[slot] = Some(job);
            left[job] -= 1;
        }
    }
    Ok(table)
}

/// The highest empty slot below the job's deadline and below every slot held by a successor. The
/// table holds one level, so the successors that hold a slot are of that level.
fn highest_slot(list: &List, table: &Slots, job: usize) -> usize {
    let held = |after: usize| table.iter().position(|&unit| unit == Some(after));
    let first_held = list.successors(job).filter_map(held).min();
    let bound = list.jobs[job].deadline.min(first_held.unwrap_or(list.length));
    let empty = (0..bound).rev().find(|&slot| table[slot].is_none());
    empty.expect("the unit's own slot was emptied, and is below both bounds")
}

/// THI: the first CLO units of each high job.
fn first_units(list: &List, late: Slots) -> Slots {
    let mut kept = vec![0; list.jobs.len()];
    let keep = |unit: Option<usize>| {
        unit.filter(|&job| {
            kept[job] += 1;
            kept[job] <= list.jobs[job].clo
        })
    };
    late.into_iter().map(keep).collect()
}

fn table_lo(list: &List, mut low: Slots, mut high: Slots) -> Result<Slots, Refusal> {
    let mut placed = vec![0; list.jobs.len()];
    let mut table = Vec::new();
    for slot in 0..list.length {
        let may_begin = |job: usize| {
            list.predecessors(job).all(|before| placed[before] >= list.jobs[before].clo)
        };
        let unit = match (low[slot], high[slot]) {
            (Some(_), Some(_)) => return Err(Refusal::at_slot(22, slot)),
            (None, Some(_)) => high[slot].take(),
            (Some(job), None) if may_begin(job) => low[slot].take(),
            (Some(_), None) => return Err(Refusal::at_slot(23, slot)),
            (None, None) => {
                let fits = |job: usize| list.jobs[job].arrival <= slot && may_begin(job);
                take_later(&mut low, slot, fits).or_else(|| take_later(&mut high, slot, fits))
            }
        };
        if let Some(job) = unit {
            placed[job] += 1;
        }
        table.push(unit);
    }
    Ok(table)
}

/// Takes the unit of the lowest slot after this one whose job fits.
fn take_later(late: &mut Slots, slot: usize, fits: impl Fn(usize) -> bool) -> Option<usize> {
    let later = late[slot + 1..].iter_mut().find(|unit| unit.is_some_and(&fits))?;
    later.take()
}

/// `first_made` is THI before the merge took units from it.
fn table_hi(list: &List, lo: &Slots, first_made: &Slots) -> Slots {
    let mut placed = vec![0; list.jobs.len()];
    let mut row = VecDeque::new();
    let mut table = Vec::new();
    for (slot, &entry) in lo.iter().enumerate() {
        let unit = match entry {
            Some(job) if list.jobs[job].high => {
                if first_made[slot] == entry {
                    entry
                } else {
                    row.push_back(job);
                    row.pop_front()
                }
            }
            _ => row.pop_front().or(entry),
        };
        if let Some(job) = unit {
            placed[job] += 1;
            if placed[job] == list.jobs[job].clo {
                for _ in list.jobs[job].clo..list.jobs[job].chi {
                    row.push_front(job);
                }
            }
        }
        table.push(unit);
    }
    table
}
