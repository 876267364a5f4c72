//! Requests to the log, put together.

use crate::fields::hex;
use crate::random::Random;
use crate::script::Script;
use crate::store::{MOST_PEEKED, MOST_SIZE, MOST_WRITES};

/// How many bytes one `put` has at most, so that its line is not too long.
const MOST_PUT: usize = 12_000;

/// Makes the store what is given; `value` stands in it for the moment.
pub fn set_up(script: &mut Script, store: &[u8], value: usize) {
    fill(script, store.len(), value % 256);
    for (number, part) in store.chunks(MOST_PUT).enumerate() {
        put(script, MOST_PUT * number, part);
    }
}

pub fn fill(script: &mut Script, size: usize, value: usize) {
    script.ask(&format!("store {size} {value}"));
}

pub fn put(script: &mut Script, at: usize, bytes: &[u8]) {
    script.ask(&format!("put {at} {}", hex(bytes)));
}

pub fn append(script: &mut Script, plan: &[u8]) {
    script.ask(&format!("append {}", hex(plan)));
}

pub fn cut(script: &mut Script, plan: &[u8], count: usize) {
    script.ask(&format!("cut {} {count}", hex(plan)));
}

/// The newest plan, all plans, and every byte of the store.
pub fn look(script: &mut Script) {
    script.ask("newest");
    script.ask("listed");
    let size = script.desk.store.bytes.len();
    for at in (0..size).step_by(MOST_PEEKED) {
        script.ask(&format!("peek {at} {}", MOST_PEEKED.min(size - at)));
    }
}

/// A line that would change the store if it could be read.
pub fn unread(script: &mut Script, random: &mut Random, plan: &[u8]) {
    let (plan, size) = (hex(plan), script.desk.store.bytes.len());
    let lines = [
        format!("append {plan} "),
        format!("append {plan} 0"),
        format!("cut {plan}"),
        format!("cut {plan} {}", MOST_WRITES + 1),
        format!("put 0 {plan}0"),
        format!("put {} {plan}", size + 1),
        format!("store {size} 256"),
        format!("store {} 0", MOST_SIZE + 1),
    ];
    script.ask_unreadable(lines[random.below(lines.len())].as_bytes());
}

/// Places past the end, or too many bytes, cannot be read; no bytes at the end can.
pub fn past_the_end(script: &mut Script, random: &mut Random) {
    let size = script.desk.store.bytes.len();
    let past = [
        format!("put {size} 00"),
        format!("put {} -", size + 1),
        format!("put {} 0000", size.max(1) - 1),
        format!("peek {size} 1"),
        format!("peek {} 0", size + 1),
        format!("peek {} 2", size.max(1) - 1),
        format!("peek 0 {}", MOST_PEEKED + 1),
    ];
    script.ask_unreadable(past[random.below(past.len())].as_bytes());
    script.ask(&format!("put {size} -"));
    script.ask(&format!("peek {size} 0"));
}
