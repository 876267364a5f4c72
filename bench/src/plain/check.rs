//! The check: 45, and the straightforward search, which counts anew at each switch.

use super::count::entries_before;
use super::list::{self, List, Units, MOST_JOBS};
use super::IDLE;
use crate::answer::{Answer, Place, ABSENT, YES};

/// Who must end before whom: a row for each successor.
type Square = [[bool; MOST_JOBS]; MOST_JOBS];

#[inline(never)]
pub fn check(list: &[u8], lo: &[u8], hi: &[u8]) -> Answer {
    match find(list, lo, hi) {
        Ok(()) => YES,
        Err(no) => no,
    }
}

pub fn find(list: &[u8], lo: &[u8], hi: &[u8]) -> Result<(), Answer> {
    let list = list::read(list)?;
    if lo.len() != list.slots || hi.len() != list.slots {
        return Err(Answer::bare(43));
    }
    for table in [lo, hi] {
        let odd = |&entry: &u8| list.named(entry).is_none() && entry != IDLE;
        if let Some(slot) = table.iter().position(odd) {
            return Err(Answer::at_slot(45, slot));
        }
    }
    search(&list, lo, hi)
}

fn search(list: &List, lo: &[u8], hi: &[u8]) -> Result<(), Answer> {
    let before = square(list);
    Search::without_switch(list, &before, lo).run()?;
    for slot in 0..list.slots {
        if switches_at(list, lo, slot) {
            Search::after_switch(list, &before, lo, hi, slot).run()?;
        }
    }
    Ok(())
}

fn square(list: &List) -> Square {
    let mut square = [[false; MOST_JOBS]; MOST_JOBS];
    for (before, after) in list.edges() {
        square[after][before] = true;
    }
    square
}

/// Whether table LO gives, at this slot, a high job with CHI > CLO its CLO-th unit.
pub fn switches_at(list: &List, lo: &[u8], slot: usize) -> bool {
    list.named(lo[slot]).is_some_and(|job| {
        job.high && job.chi > job.clo && entries_before(lo, lo[slot].into(), slot) + 1 == job.clo
    })
}

struct Search<'a> {
    list: &'a List<'a>,
    before: &'a Square,
    table: &'a [u8],
    first: usize,
    /// The switch slot, or `ABSENT` in LO.
    switched: usize,
    had: Units,
    need: Units,
}

impl<'a> Search<'a> {
    fn without_switch(list: &'a List<'a>, before: &'a Square, lo: &'a [u8]) -> Search<'a> {
        let mut need = [0; MOST_JOBS];
        for (number, job) in list.jobs().enumerate() {
            need[number] = job.clo;
        }
        let had = [0; MOST_JOBS];
        Search { list, before, table: lo, first: 0, switched: ABSENT, had, need }
    }

    fn after_switch(
        list: &'a List<'a>,
        before: &'a Square,
        lo: &'a [u8],
        hi: &'a [u8],
        slot: usize,
    ) -> Search<'a> {
        let mut had = [0; MOST_JOBS];
        let mut need = [0; MOST_JOBS];
        for (number, job) in list.jobs().enumerate() {
            had[number] = entries_before(lo, number, slot + 1).min(job.clo);
            let ended = number != usize::from(lo[slot]) && had[number] >= job.clo;
            need[number] = if ended { job.clo } else { job.chi };
        }
        Search { list, before, table: hi, first: slot + 1, switched: slot, had, need }
    }

    fn run(mut self) -> Result<(), Answer> {
        for slot in self.first..=self.list.slots {
            self.late(slot)?;
            if let Some(&entry) = self.table.get(slot).filter(|&&entry| entry != IDLE) {
                let job = usize::from(entry);
                self.misplaced(slot, job)?;
                if self.runs(slot, job) {
                    self.had[job] += 1;
                }
            }
        }
        Ok(())
    }

    fn is_open(&self, job: usize) -> bool {
        self.had[job] < self.need[job]
    }

    /// Whether a job's places count: after a switch, a high job's alone.
    fn counts(&self, job: usize) -> bool {
        self.switched == ABSENT || self.list.job(job).high
    }

    fn late(&self, slot: usize) -> Result<(), Answer> {
        // a low job due at the first HI slot still counts
        let all_count = self.switched == ABSENT || slot == self.first;
        let is_late = |&number: &usize| {
            let job = self.list.job(number);
            job.deadline == slot && (job.high || all_count) && self.is_open(number)
        };
        match (0..self.list.count()).find(is_late) {
            Some(job) => Err(Answer::fault(10, slot, job, self.switched)),
            None => Ok(()),
        }
    }

    fn waits_for(&self, job: usize) -> Option<usize> {
        (0..self.list.count()).find(|&pred| self.before[job][pred] && self.is_open(pred))
    }

    fn misplaced(&self, slot: usize, job: usize) -> Result<(), Answer> {
        if !self.counts(job) || !self.is_open(job) {
            return Ok(());
        }
        if slot < self.list.job(job).arrival {
            return Err(Answer::fault(11, slot, job, self.switched));
        }
        let Some(pred) = self.waits_for(job) else {
            return Ok(());
        };
        let fault = Answer::fault(12, slot, job, self.switched);
        Err(Answer { place: Place { pred, ..fault.place }, ..fault })
    }

    fn runs(&self, slot: usize, number: usize) -> bool {
        let job = self.list.job(number);
        self.is_open(number)
            && (self.counts(number)
                || (job.arrival <= slot && slot < job.deadline && self.waits_for(number).is_none()))
    }
}
