//! Random stores for the log: whole plans in front, and behind them whatever may stand in a store.

use crate::kinds;
use crate::list::{Head, MOST_EDGES, MOST_JOBS, MOST_SLOTS};
use crate::lists::{self, Shape};
use crate::log::MOST_STORE;
use crate::random::Random;

/// The largest size that the small plans often have.
const COMMON: usize = 70;

/// A store of some hundred bytes at most. `plan` is what will be appended: it may just fit, or just
/// not, and something of it may be there already.
pub fn small(random: &mut Random, plan: &[u8]) -> Vec<u8> {
    let mut store: Vec<u8> = (0..random.below(4)).flat_map(|_| kinds::small_plan(random)).collect();
    if !store.is_empty() && random.chance(25) {
        store = hurt(random, &store);
    }
    let size = match random.below(10) {
        0..2 => store.len() + plan.len(),
        2 => store.len() + plan.len() - 1,
        3..7 => store.len() + random.within(plan.len(), 140),
        7..9 => random.within(20, 140),
        _ => random.within(140, 300),
    };
    while store.len() < size {
        store.extend(piece(random, plan));
    }
    store.truncate(size);
    store
}

fn piece(random: &mut Random, plan: &[u8]) -> Vec<u8> {
    let size = random.within(1, 60);
    let other = kinds::small_plan(random);
    match random.below(8) {
        0 => vec![0; size],
        1 => vec![0xff; size],
        2 => (0..size).map(|_| random.below(256) as u8).collect(),
        3 => part(random, &other),
        4 => hurt(random, &other),
        5 => other,
        6 => part(random, plan),
        _ => hurt(random, plan),
    }
}

/// What is left of a plan: its front or its end.
fn part(random: &mut Random, plan: &[u8]) -> Vec<u8> {
    let (front, end) = plan.split_at(random.within(1, plan.len() - 1));
    if random.chance(50) {
        front.to_vec()
    } else {
        end.to_vec()
    }
}

/// Another value in one byte: mostly the plan that it stands in is refused then.
pub fn hurt(random: &mut Random, sound: &[u8]) -> Vec<u8> {
    let mut bytes = sound.to_vec();
    let at = random.below(bytes.len());
    bytes[at] ^= random.within(1, 255) as u8;
    bytes
}

/// Whole plans of the given kind while they fit into `size` bytes, then the rest of it.
fn full_of(random: &mut Random, size: usize, draw: fn(&mut Random) -> Vec<u8>) -> Vec<u8> {
    let some: Vec<Vec<u8>> = (0..8).map(|_| draw(random)).collect();
    let mut store = Vec::new();
    loop {
        let next = &some[random.below(some.len())];
        if store.len() + next.len() > size {
            break;
        }
        store.extend(next);
    }
    let rest = random.below(256) as u8;
    store.resize(size, rest);
    store
}

/// A store of many small plans, now and then with one of its bytes hurt.
pub fn of_many(random: &mut Random) -> Vec<u8> {
    let size = random.pick(&[MOST_STORE, MOST_STORE - 1, MOST_STORE / 2, 5000]);
    let store = full_of(random, size, kinds::small_plan);
    if random.chance(50) {
        return hurt(random, &store);
    }
    store
}

/// A store with as many of the largest plans as it can have, but for some bytes at its end.
pub fn of_largest(random: &mut Random, free: usize) -> Vec<u8> {
    let mut store = full_of(random, MOST_STORE - free, largest_plan);
    store.resize(MOST_STORE, 0xff);
    store
}

/// A store of the most bytes and a plan that just fits behind the last whole one, to the last byte.
pub fn one_plan_short(random: &mut Random) -> (Vec<u8>, Vec<u8>) {
    let mut front = Vec::new();
    while MOST_STORE - front.len() > 2 * COMMON {
        front.extend(kinds::small_plan(random));
    }
    loop {
        let (last, plan) = (kinds::small_plan(random), kinds::small_plan(random));
        if front.len() + last.len() + plan.len() == MOST_STORE {
            let mut store = [front, last].concat();
            store.resize(MOST_STORE, 0xff);
            return (store, plan);
        }
    }
}

/// An accepted plan of the largest size.
pub fn largest_plan(random: &mut Random) -> Vec<u8> {
    let shape = Shape { jobs: MOST_JOBS, edges: MOST_EDGES, length: MOST_SLOTS, budget: 3 };
    let most = Head { jobs: MOST_JOBS, edges: MOST_EDGES, length: MOST_SLOTS }.plan_size();
    loop {
        let list = lists::of_shape(random, &shape);
        if let Some(plan) = kinds::built(&list).ok().filter(|plan| plan.len() == most) {
            return plan;
        }
    }
}
