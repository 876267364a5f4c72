//! Holds the answers of the two sides against each other.

use crate::answer::{LogAnswer, YES};
use crate::frame::Ends;
use crate::held::Held;
use crate::hut;
use crate::logs::{self, Side, RATTLE, RUST};
use crate::named::{Named, MOST_PLAN_BYTES};
use crate::plain::build::build;
use crate::plain::check::check;
use crate::plain::dispatch::step;

const STEPS: usize = 10_000;

/// What a store holds at first, and what no table holds.
const OLD: u8 = 0xa5;
const NO_ENTRY: u8 = 200;

/// The first difference on a list, if there is one.
pub fn sides(named: &Named) -> Result<(), String> {
    let (list, lo, hi) = (&named.list, &named.lo, &named.hi);
    same(named, "check", hut::check(list, lo, hi), check(list, lo, hi))?;
    let Some(plan) = &named.plan else {
        return Ok(());
    };
    let (mut proved, mut plain) = ([0xaa; MOST_PLAN_BYTES], [0xaa; MOST_PLAN_BYTES]);
    same(named, "build", hut::build(list, &mut proved), build(list, &mut plain))?;
    same(named, "plan", proved, plain)?;
    let (answer, state) = hut::open(plan, 0);
    if answer != YES {
        return Err(format!("{}: the plan does not open: {answer:?}", named.name));
    }
    for ends in [Ends::Ordinary, Ends::Fewest] {
        steps(named, &state, ends)?;
    }
    log(named, plan)
}

fn same<T: PartialEq + std::fmt::Debug>(
    named: &Named,
    call: &str,
    proved: T,
    plain: T,
) -> Result<(), String> {
    if proved == plain {
        return Ok(());
    }
    Err(format!("{}, {call}: Rattle gives {proved:?}\nand Rust {plain:?}", named.name))
}

/// A log of the plan, filled until it refuses the next: each answer, and each store whole. Then
/// with a plan in its middle damaged.
fn log(named: &Named, plan: &[u8]) -> Result<(), String> {
    let most = logs::most(plan);
    let mut store = vec![OLD; logs::holding(plan, 0).len()];
    for times in 0..=most {
        append(named, &mut store, plan)?;
        if store != logs::holding(plan, most.min(times + 1)) {
            return Err(format!("{}, append: not the store of {times} plans and one", named.name));
        }
    }
    same(named, "list", listed(&RATTLE, &store), listed(&RUST, &store))?;
    let damaged = most / 2 * plan.len();
    store[damaged + named.list.len()] = NO_ENTRY;
    same(named, "list", listed(&RATTLE, &store), listed(&RUST, &store))?;
    let before = |side: Side| (side.previous)(&store, damaged + plan.len());
    same(named, "previous", before(RATTLE), before(RUST))?;
    append(named, &mut store, plan)
}

fn append(named: &Named, store: &mut [u8], plan: &[u8]) -> Result<(), String> {
    let mut plain = store.to_vec();
    let answer = (RUST.append)(&mut plain, plan);
    same(named, "append", (RATTLE.append)(store, plan), answer)?;
    if store != plain {
        return Err(format!("{}, append: the stores differ after {answer:?}", named.name));
    }
    Ok(())
}

fn listed(side: &Side, store: &[u8]) -> Vec<LogAnswer> {
    let mut answers = Vec::new();
    side.list(store, |answer| answers.push(answer));
    answers
}

/// Each answer, and each state whole.
fn steps(named: &Named, opened: &Held, ends: Ends) -> Result<(), String> {
    let (mut proved, mut plain) = (opened.clone(), opened.plain());
    for _ in 0..STEPS {
        let (tick, mark) = (plain.tick.wrapping_add(1), ends.mark(&plain));
        let answer = step(&mut plain, tick, mark);
        same(named, "step", hut::step(&mut proved, tick, mark), answer)?;
        if proved.plain() != plain {
            return Err(format!("{}, step: the states differ after tick {tick}", named.name));
        }
    }
    Ok(())
}
