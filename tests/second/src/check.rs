//! "What the check says": the search for a fault, in the order that document 01 gives.

use crate::list::{self, List};
use crate::plan::IDLE;
use crate::refusal::{Refusal, NO_SWITCH};

/// Checking a list and two tables, all as bytes.
pub fn check(list: &[u8], lo: &[u8], hi: &[u8]) -> Result<(), Refusal> {
    let list = list::read(list)?;
    if lo.len() != list.length || hi.len() != list.length {
        return Err(Refusal::bare(43));
    }
    tables(&list, lo, hi)
}

/// Rows 45 and 10 to 12, on tables of L bytes.
pub fn tables(list: &List, lo: &[u8], hi: &[u8]) -> Result<(), Refusal> {
    for table in [lo, hi] {
        let unknown = |&entry: &u8| entry != IDLE && usize::from(entry) >= list.jobs.len();
        if let Some(slot) = table.iter().position(unknown) {
            return Err(Refusal::at_slot(45, slot));
        }
    }
    search(list, lo, hi)
}

/// The first fault, if there is one.
pub fn search(list: &List, lo: &[u8], hi: &[u8]) -> Result<(), Refusal> {
    Search::without_switch(list, lo).run()?;
    for slot in 0..list.length {
        if switches_at(list, lo, slot) {
            Search::after_switch(list, lo, hi, slot).run()?;
        }
    }
    Ok(())
}

/// Whether table LO gives, at this slot, a high job with CHI > CLO its CLO-th unit.
pub fn switches_at(list: &List, lo: &[u8], slot: usize) -> bool {
    list.jobs.get(usize::from(lo[slot])).is_some_and(|job| {
        let units = lo[..=slot].iter().filter(|&&entry| entry == lo[slot]).count();
        job.high && job.chi > job.clo && units == job.clo
    })
}

struct Search<'a> {
    list: &'a List,
    table: &'a [u8],
    first_slot: usize,
    switch: Option<usize>,
    /// The units that each job had before the slot looked at, and those that it needs.
    had: Vec<usize>,
    need: Vec<usize>,
}

impl<'a> Search<'a> {
    /// Table LO, every job using CLO.
    fn without_switch(list: &'a List, lo: &'a [u8]) -> Search<'a> {
        Search {
            list,
            table: lo,
            first_slot: 0,
            switch: None,
            had: vec![0; list.jobs.len()],
            need: list.jobs.iter().map(|job| job.clo).collect(),
        }
    }

    /// Table HI from the slot after the switch, on what table LO gave up to it.
    fn after_switch(list: &'a List, lo: &'a [u8], hi: &'a [u8], slot: usize) -> Search<'a> {
        let units = |job| lo[..=slot].iter().filter(|&&entry| usize::from(entry) == job).count();
        let had: Vec<usize> = (0..list.jobs.len()).map(units).collect();
        let need = |number: usize| {
            let job = &list.jobs[number];
            let switching = number == usize::from(lo[slot]);
            // a high job that had CLO units and did not switch must have ended within them
            if !switching && had[number] >= job.clo {
                job.clo
            } else {
                job.chi
            }
        };
        let need = (0..list.jobs.len()).map(need).collect();
        Search { list, table: hi, first_slot: slot + 1, switch: Some(slot), had, need }
    }

    fn run(mut self) -> Result<(), Refusal> {
        for slot in self.first_slot..=self.list.length {
            self.late(slot)?;
            if let Some(job) = self.named(slot) {
                self.too_early(slot, job)?;
                self.before_a_predecessor(slot, job)?;
                self.had[job] += 1;
            }
        }
        Ok(())
    }

    fn named(&self, slot: usize) -> Option<usize> {
        self.table.get(slot).filter(|&&entry| entry != IDLE).map(|&entry| usize::from(entry))
    }

    fn unfinished(&self, job: usize) -> bool {
        self.had[job] < self.need[job]
    }

    fn late(&self, slot: usize) -> Result<(), Refusal> {
        let counts = |job: usize| {
            // from the first HI slot on, only the low jobs due by then still count
            let due = self.switch.is_none() || self.list.jobs[job].high || slot == self.first_slot;
            due && self.list.jobs[job].deadline == slot && self.unfinished(job)
        };
        match (0..self.list.jobs.len()).find(|&job| counts(job)) {
            Some(job) => Err(self.fault(10, slot, job)),
            None => Ok(()),
        }
    }

    /// Whether an entry for this job can be a fault: in HI, only high jobs' entries can.
    fn held_to_its_place(&self, job: usize) -> bool {
        self.unfinished(job) && (self.switch.is_none() || self.list.jobs[job].high)
    }

    fn too_early(&self, slot: usize, job: usize) -> Result<(), Refusal> {
        if self.held_to_its_place(job) && slot < self.list.jobs[job].arrival {
            return Err(self.fault(11, slot, job));
        }
        Ok(())
    }

    fn before_a_predecessor(&self, slot: usize, job: usize) -> Result<(), Refusal> {
        let open = self.list.predecessors(job).filter(|&before| self.unfinished(before)).min();
        match open {
            Some(before) if self.held_to_its_place(job) => {
                Err(Refusal { pred: Some(before), ..self.fault(12, slot, job) })
            }
            _ => Ok(()),
        }
    }

    fn fault(&self, number: usize, slot: usize, job: usize) -> Refusal {
        Refusal {
            job: Some(job),
            switch: Some(self.switch.unwrap_or(NO_SWITCH)),
            ..Refusal::at_slot(number, slot)
        }
    }
}
