//! Damage to bytes that were sound: aimed at the fields, at the ends, or anywhere.

use crate::kinds::Case;
use crate::list::{List, HEAD_BYTES, JOB_BYTES};
use crate::plan::{self, IDLE, TRAILER_BYTES};
use crate::random::Random;

/// One to three hurts to a list's bytes, so that the order of the refusals shows.
pub fn list_bytes(random: &mut Random, list: &List) -> Vec<u8> {
    let mut bytes = list.bytes();
    for _ in 0..random.within(1, 3) {
        match random.below(12) {
            0..2 => head(random, &mut bytes),
            2..7 => job(random, list, &mut bytes),
            7..10 => edge(random, list, &mut bytes),
            10 => anywhere(random, &mut bytes),
            _ => ends(random, &mut bytes),
        }
    }
    bytes
}

/// A plan's bytes: accepted, failing the check, or damaged.
pub fn plan_of(random: &mut Random, case: Case) -> Vec<u8> {
    let Case { list, mut lo, mut hi } = case;
    let bytes = if random.chance(35) { list_bytes(random, &list) } else { list.bytes() };
    if random.chance(12) {
        let hurt = if random.chance(50) { &mut lo } else { &mut hi };
        table(random, &list, hurt);
    }
    let mut plan = plan::compose(&bytes, &lo, &hi);
    if random.chance(25) {
        plan_bytes(random, &mut plan);
    }
    plan
}

/// One or two hurts to a plan's bytes, mostly at its trailer and its ends.
pub fn plan_bytes(random: &mut Random, bytes: &mut Vec<u8>) {
    for _ in 0..random.within(1, 2) {
        let trailer = bytes.len().saturating_sub(TRAILER_BYTES);
        match random.below(5) {
            0 => set_byte(bytes, trailer + random.below(4), random.below(256)),
            1 => set_byte(bytes, trailer + 4 + random.below(4), random.below(256)),
            2 => anywhere(random, bytes),
            3 => bytes.insert(0, random.below(256) as u8),
            _ => ends(random, bytes),
        }
    }
}

/// A table of another length, or with entries that name no job.
pub fn table(random: &mut Random, list: &List, table: &mut Vec<u8>) {
    if random.chance(25) {
        ends(random, table);
        return;
    }
    for _ in 0..random.within(1, 2) {
        let between = random.below(list.length);
        let slot = random.pick(&[0, between, list.length - 1]);
        let entry = random.pick(&[list.jobs.len(), list.jobs.len() + 1, 64, 254]);
        set_byte(table, slot, entry.min(usize::from(IDLE) - 1));
    }
}

fn set_byte(bytes: &mut [u8], at: usize, value: usize) {
    // an earlier hurt may have cut the place away
    if let Some(byte) = bytes.get_mut(at) {
        *byte = value as u8;
    }
}

fn set_word(bytes: &mut [u8], at: usize, value: usize) {
    set_byte(bytes, at, value);
    set_byte(bytes, at + 1, value >> 8);
}

fn head(random: &mut Random, bytes: &mut [u8]) {
    let field = random.below(4);
    let beside = usize::from(bytes.get(2 * field).copied().unwrap_or(0));
    let value = random.pick(&[0, 1, 64, 65, 256, 257, 1024, 1025, 65535, beside + 1]);
    set_word(bytes, 2 * field, value);
}

fn job(random: &mut Random, list: &List, bytes: &mut [u8]) {
    let number = random.below(list.jobs.len());
    let at = HEAD_BYTES + JOB_BYTES * number;
    let job = list.jobs[number];
    let near = random.pick(&[job.arrival, job.deadline, job.clo, job.chi]) + random.below(3);
    let value = random.pick(&[near.saturating_sub(1), 0, 1024, 1025, 65535]);
    match random.below(6) {
        field @ 0..4 => set_word(bytes, at + 2 * field, value),
        4 => set_byte(bytes, at + 8, random.pick(&[0, 1, 2, 255])),
        _ => set_byte(bytes, at + 9, random.pick(&[1, 255])),
    }
}

fn edge(random: &mut Random, list: &List, bytes: &mut [u8]) {
    if list.edges.is_empty() {
        return;
    }
    let at = HEAD_BYTES + JOB_BYTES * list.jobs.len() + 2 * random.below(list.edges.len());
    if random.chance(30) && at + 4 <= bytes.len() {
        // two edges out of order, or the same twice
        let (first, second) = bytes[at..at + 4].split_at_mut(2);
        if random.chance(50) {
            first.swap_with_slice(second)
        } else {
            second.copy_from_slice(first)
        }
        return;
    }
    let last = list.jobs.len() - 1;
    let known = random.below(last + 1);
    let value = random.pick(&[known, known, 0, last, last + 1, 255]);
    set_byte(bytes, at + random.below(2), value);
}

fn anywhere(random: &mut Random, bytes: &mut [u8]) {
    if !bytes.is_empty() {
        set_byte(bytes, random.below(bytes.len()), random.below(256));
    }
}

/// Cuts the end off, or adds to it.
fn ends(random: &mut Random, bytes: &mut Vec<u8>) {
    match random.below(4) {
        0 => bytes.truncate(random.below(bytes.len() + 1)),
        1 => bytes.truncate(random.pick(&[0, 7, 8, 15, 16])),
        2 => {
            bytes.pop();
        }
        _ => bytes.extend((0..random.within(1, 3)).map(|_| random.below(256) as u8)),
    }
}
