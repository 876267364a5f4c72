//! Appends cut short: on small stores at every byte, on large ones at some.

use std::collections::BTreeMap;

use crate::fields::hex;
use crate::kinds;
use crate::log::{self, MOST_STORE};
use crate::random::Random;
use crate::script::Script;
use crate::store::MOST_WRITES;
use crate::stores;
use crate::trial::Trial;

/// Where a cut falls.
const CUTS: [&str; 5] = [
    "cut before any write",
    "cut among the zeros",
    "cut between the zeros and the plan",
    "cut among the plan's bytes",
    "not cut",
];

/// What an append meets.
const STORES: [&str; 9] = [
    "store with no plan",
    "store with one plan",
    "store with several plans",
    "store with a plan that the walk does not reach",
    "plan that fits to the last byte",
    "plan that fits to the last of 65,536 bytes",
    "plan that does not fit",
    "plan that the reader refuses",
    "store of more than 65,536 bytes",
];

struct Tried {
    script: Script,
    came: BTreeMap<&'static str, usize>,
    outcome: Result<(), String>,
}

/// `count` small stores, and some large ones.
pub fn make(seed: u64, count: usize) -> (Script, Result<(), String>) {
    let mut random = Random::new(seed);
    let mut tried = Tried { script: Script::new(), came: BTreeMap::new(), outcome: Ok(()) };
    for _ in 0..count {
        let trial = small_trial(&mut random);
        tried.cut(&trial, at_every_byte(&trial));
    }
    for trial in large_trials(&mut random) {
        let counts = at_some_bytes(&trial, &mut random);
        tried.cut(&trial, counts);
    }
    let Tried { script, came, mut outcome } = tried;
    for kind in CUTS.iter().chain(&STORES) {
        println!("{:>7}  {kind}", came.get(kind).unwrap_or(&0));
        if !came.contains_key(kind) {
            outcome = outcome.and(Err(format!("never came: {kind}")));
        }
    }
    (script, outcome)
}

impl Tried {
    fn cut(&mut self, trial: &Trial, counts: Vec<usize>) {
        for kind in stores_of(trial) {
            *self.came.entry(kind).or_default() += 1;
        }
        for count in counts {
            if let Ok(append) = trial.append() {
                let zeros = trial.before.len() - append.start;
                let kind = cut_of(count, zeros, append.writes.len());
                *self.came.entry(kind).or_default() += 1;
            }
            if let Err(claim) = trial.ask(&mut self.script, count) {
                let (before, plan) = (hex(&trial.before), hex(&trial.plan));
                self.outcome = Err(format!("not so: {claim}\n  {before}\n  cut {plan} {count}"));
            }
        }
    }
}

fn cut_of(count: usize, zeros: usize, total: usize) -> &'static str {
    let past = [count > 0, count >= zeros, count > zeros, count >= total];
    CUTS[past.iter().filter(|&&past| past).count()]
}

fn stores_of(trial: &Trial) -> Vec<&'static str> {
    let mut kinds = vec![STORES[log::walk(&trial.before).len().min(2)]];
    kinds.extend(trial.has_unreached().then_some(STORES[3]));
    match trial.append() {
        Ok(append) => {
            let to_the_last = append.start + trial.plan.len() == trial.before.len();
            kinds.extend(to_the_last.then_some(STORES[4]));
            let of_most = to_the_last && trial.before.len() == MOST_STORE;
            kinds.extend(of_most.then_some(STORES[5]));
        }
        Err(no) if no.number == 50 => kinds.push(STORES[6]),
        Err(no) if no.number == 52 => kinds.push(STORES[8]),
        Err(_) => kinds.push(STORES[7]),
    }
    kinds
}

/// Every number of writes, and more than there are.
fn at_every_byte(trial: &Trial) -> Vec<usize> {
    match trial.append() {
        Ok(append) => (0..=append.writes.len() + 1).chain([MOST_WRITES]).collect(),
        Err(_) => vec![0, 1, trial.before.len(), MOST_WRITES],
    }
}

/// Among the zeros and among the plan's bytes, and the last counts of each.
fn at_some_bytes(trial: &Trial, random: &mut Random) -> Vec<usize> {
    let Ok(append) = trial.append() else {
        return vec![random.below(MOST_WRITES)];
    };
    let (zeros, total) = (trial.before.len() - append.start, append.writes.len());
    vec![random.below(zeros), zeros, random.within(zeros + 1, total - 1), total - 1, total]
}

fn small_trial(random: &mut Random) -> Trial {
    let plan = kinds::small_plan(random);
    let before = stores::small(random, &plan);
    let next = if random.chance(50) { plan.clone() } else { kinds::small_plan(random) };
    let plan = if random.chance(10) { stores::hurt(random, &plan) } else { plan };
    Trial { before, plan, next }
}

/// Stores that are full but for one plan, of many plans, of the largest plans, and with none; and one
/// that has a byte too many.
fn large_trials(random: &mut Random) -> Vec<Trial> {
    let (before, plan) = stores::one_plan_short(random);
    let (next, too_large) = (kinds::small_plan(random), [&before[..], &[0]].concat());
    let mut trials = vec![
        Trial { before, plan: plan.clone(), next: next.clone() },
        Trial { before: too_large, plan, next },
    ];
    for _ in 0..6 {
        let before = stores::of_many(random);
        let plan = kinds::small_plan(random);
        trials.push(Trial { before, plan, next: stores::largest_plan(random) });
    }
    let largest = stores::largest_plan(random);
    for free in [0, largest.len()] {
        let (before, next) = (stores::of_largest(random, free), kinds::small_plan(random));
        trials.push(Trial { before, plan: largest.clone(), next });
    }
    let before = vec![random.below(256) as u8; MOST_STORE];
    trials.push(Trial { before, next: largest.clone(), plan: largest });
    trials
}
