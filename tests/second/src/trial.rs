//! One append that is cut short: the requests for it, and what request 2026-01 claims of it, tried
//! on this program's own store.

use crate::ask;
use crate::log::{self, Append, Whole};
use crate::refusal::Refusal;
use crate::script::Script;

/// A store, a plan whose append is cut short, and a plan that is appended after that.
pub struct Trial {
    pub before: Vec<u8>,
    pub plan: Vec<u8>,
    pub next: Vec<u8>,
}

impl Trial {
    /// The append as it goes with no cut.
    pub fn append(&self) -> Result<Append, Refusal> {
        log::append(&self.before, &self.plan)
    }

    /// Sets the store up, cuts the append and looks; appends what is next and looks again.
    pub fn ask(&self, script: &mut Script, count: usize) -> Result<(), &'static str> {
        ask::set_up(script, &self.before, count);
        ask::cut(script, &self.plan, count);
        let claims = self.claims(&script.desk.store.bytes, count);
        ask::look(script);
        ask::append(script, &self.next);
        ask::look(script);
        claims
    }

    /// The first claim that fails of the store after a cut.
    fn claims(&self, cut: &[u8], count: usize) -> Result<(), &'static str> {
        let Ok(append) = self.append() else {
            return claim(cut == self.before, "a refused append changes no byte");
        };
        let is_whole = count >= append.writes.len();
        let mut due = log::walk(&self.before);
        if is_whole {
            let new = Whole { start: append.start, size: self.plan.len() };
            claim(cut[new.start..new.end()] == self.plan, "the new plan has all its bytes")?;
            due.push(new);
        } else {
            self.claims_on_later(cut)?;
        }
        let same = cut[..append.start] == self.before[..append.start];
        claim(same, "every earlier plan is as it was, byte for byte")?;
        claim(log::walk(cut) == due, "the walk finds the earlier plans, and the new one if whole")?;
        claim(log::newest(cut).ok() == due.last().copied(), "the newest is the last of these")?;
        let backwards: Vec<usize> = due.iter().rev().map(|plan| plan.start).collect();
        let listed = log::listed(cut).unwrap_or_default();
        claim(listed == backwards, "the trailers lead back over the walk")
    }

    /// An append after a cut goes as if the one that was cut had never begun.
    fn claims_on_later(&self, cut: &[u8]) -> Result<(), &'static str> {
        for plan in [&self.plan, &self.next] {
            let same = appended(cut, plan) == appended(&self.before, plan);
            claim(same, "a later append answers as before the cut, and leaves the same store")?;
        }
        Ok(())
    }

    /// Whether a plan stands behind where the walk ends.
    pub fn has_unreached(&self) -> bool {
        let end = log::walk(&self.before).last().map_or(0, Whole::end);
        (end..self.before.len()).any(|start| log::whole_at(&self.before, start).is_some())
    }
}

fn claim(holds: bool, what: &'static str) -> Result<(), &'static str> {
    if holds {
        Ok(())
    } else {
        Err(what)
    }
}

/// Where an append puts the plan, and the store afterwards.
fn appended(store: &[u8], plan: &[u8]) -> Result<(usize, Vec<u8>), Refusal> {
    let append = log::append(store, plan)?;
    let mut after = store.to_vec();
    append.write(&mut after, append.writes.len());
    Ok((append.start, after))
}
