//! "One execution", and every execution of a small list held against the check.

use std::collections::BTreeMap;

use crate::desk;
use crate::kinds::{self, Case, VERDICTS};
use crate::list::{Job, List};
use crate::plan::IDLE;
use crate::random::Random;
use crate::refusal::{Refusal, NO_SWITCH};
use crate::requests;
use crate::script::Script;

/// What must come up besides every kind of verdict, so that the comparison means something.
const BESIDES: [&str; 4] =
    ["yes, with edges", "no, with edges", "yes, with dead entries", "no, with dead entries"];

struct Execution<'a> {
    list: &'a List,
    lo: &'a [u8],
    hi: &'a [u8],
    /// The units that each job needs to end, and those that it has had.
    need: &'a [usize],
    had: Vec<usize>,
    /// The slot whose unit switched, once one has.
    switch: Option<usize>,
}

impl Execution<'_> {
    /// The first badness, with the switch slot of the whole execution.
    fn first_badness(mut self) -> Option<Refusal> {
        let mut first = None;
        for slot in 0..self.list.length {
            first = first.or_else(|| self.late(slot)).or_else(|| self.misplaced(slot));
            self.run(slot);
        }
        first = first.or_else(|| self.late(self.list.length));
        let switch = self.switch.unwrap_or(NO_SWITCH);
        first.map(|bad| Refusal { switch: Some(switch), ..bad })
    }

    fn unfinished(&self, job: usize) -> bool {
        self.had[job] < self.need[job]
    }

    fn named(&self, slot: usize) -> Option<usize> {
        let table = if self.switch.is_none() { self.lo } else { self.hi };
        Some(table[slot]).filter(|&entry| entry != IDLE).map(usize::from)
    }

    fn open_predecessors(&self, job: usize) -> impl Iterator<Item = usize> + '_ {
        self.list.predecessors(job).filter(|&before| self.unfinished(before))
    }

    /// A job unfinished at its deadline; a low one due after the first HI slot doesn't count.
    fn late(&self, slot: usize) -> Option<Refusal> {
        let counts = |job: usize| {
            self.list.jobs[job].high || self.switch.is_none_or(|switch| slot <= switch + 1)
        };
        let due = |&job: &usize| self.list.jobs[job].deadline == slot && self.unfinished(job);
        let job = (0..self.list.jobs.len()).filter(due).find(|&job| counts(job))?;
        Some(Refusal { job: Some(job), ..Refusal::at_slot(10, slot) })
    }

    /// The named job unfinished and not arrived, or before a predecessor.
    fn misplaced(&self, slot: usize) -> Option<Refusal> {
        let in_lo = self.switch.is_none();
        let job = self.named(slot).filter(|&job| in_lo || self.list.jobs[job].high)?;
        if !self.unfinished(job) {
            return None;
        }
        if slot < self.list.jobs[job].arrival {
            return Some(Refusal { job: Some(job), ..Refusal::at_slot(11, slot) });
        }
        let pred = self.open_predecessors(job).min()?;
        Some(Refusal { job: Some(job), pred: Some(pred), ..Refusal::at_slot(12, slot) })
    }

    fn run(&mut self, slot: usize) {
        let Some(job) = self.named(slot).filter(|&job| self.unfinished(job)) else {
            return;
        };
        let Job { arrival, deadline, clo, high, .. } = self.list.jobs[job];
        if self.switch.is_some() && !high {
            let in_time = arrival <= slot && slot < deadline;
            if !in_time || self.open_predecessors(job).next().is_some() {
                return;
            }
        }
        self.had[job] += 1;
        if self.switch.is_none() && high && self.had[job] >= clo && self.unfinished(job) {
            self.switch = Some(slot);
        }
    }
}

/// The first badness of every execution that has one.
fn all_badness(list: &List, lo: &[u8], hi: &[u8]) -> Vec<Refusal> {
    let mut found = Vec::new();
    let mut need = vec![1; list.jobs.len()];
    loop {
        let had = vec![0; list.jobs.len()];
        let execution = Execution { list, lo, hi, need: &need, had, switch: None };
        found.extend(execution.first_badness());
        // counts on like an odometer, each job from 1 to its high budget, which is CLO for low
        let Some(turn) = (0..need.len()).find(|&job| need[job] < list.jobs[job].chi) else {
            return found;
        };
        need[..turn].fill(1);
        need[turn] += 1;
    }
}

/// Whether the check and the executions agree. A no must be the first badness of an execution with
/// that very switch slot: more than document 01 asks, which is some badness of it.
fn agree(case: &Case) -> bool {
    let badness = all_badness(&case.list, &case.lo, &case.hi);
    match case.verdict() {
        Ok(()) => badness.is_empty(),
        Err(fault) => badness.contains(&fault),
    }
}

fn kinds_of(case: &Case) -> Vec<&'static str> {
    let Case { list, lo, .. } = case;
    let mut kinds = vec![case.kind()];
    let no = usize::from(case.verdict().is_err());
    if !list.edges.is_empty() {
        kinds.push(BESIDES[no]);
    }
    let entries = |job| lo.iter().filter(|&&entry| usize::from(entry) == job).count();
    if (0..list.jobs.len()).any(|job| entries(job) > list.jobs[job].clo) {
        kinds.push(BESIDES[2 + no]);
    }
    kinds
}

/// Compares on `count` small lists, and leaves a `check` request for each.
pub fn compare(seed: u64, count: usize) -> (Script, Result<(), String>) {
    let mut random = Random::new(seed);
    let mut script = Script::new();
    let mut came: BTreeMap<&str, usize> = BTreeMap::new();
    let mut outcome = Ok(());
    for _ in 0..count {
        let case = kinds::case(&mut random);
        let request = requests::check_of(&case);
        script.ask(&request);
        if !agree(&case) {
            let verdict = desk::said(&case.verdict());
            outcome = Err(format!("the executions do not bear out {verdict}: {request}"));
        }
        for kind in kinds_of(&case) {
            *came.entry(kind).or_default() += 1;
        }
    }
    for kind in VERDICTS.iter().chain(&BESIDES) {
        println!("{:>7}  {kind}", came.get(kind).unwrap_or(&0));
        if !came.contains_key(kind) {
            outcome = outcome.and(Err(format!("never came: {kind}")));
        }
    }
    (script, outcome)
}
