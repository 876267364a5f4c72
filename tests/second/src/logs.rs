//! Requests to the log: stores that are filled, hurt, too small, too large, and cut in an append.

use crate::ask;
use crate::counts;
use crate::kinds;
use crate::log::{self, MOST_STORE};
use crate::random::Random;
use crate::runs;
use crate::script::Script;
use crate::store::{MOST_PEEKED, MOST_SIZE, MOST_WRITES};
use crate::stores;
use crate::unreadable;

/// The reader's refusals.
pub const REFUSALS: [&str; 18] = [
    "40", "41", "42", "1", "2", "3", "43", "44", "6", "4", "5", "7", "8", "9", "45", "10", "11",
    "12",
];

pub fn scene(script: &mut Script, random: &mut Random) {
    match random.below(12) {
        0..3 => hurt_and_healed(script, random),
        3..5 => behind_junk(script, random),
        5..8 => refused(script, random),
        8 => just_fits(script, random),
        9 => cut_again(script, random),
        10 => at_the_limits(script, random),
        _ => beside_the_dispatcher(script, random),
    }
}

/// A store of some plans, by appends and by puts, with `free` bytes behind them. Says where these begin.
fn filled(script: &mut Script, random: &mut Random, free: usize) -> usize {
    let plans: Vec<Vec<u8>> = (0..random.within(1, 4)).map(|_| kinds::small_plan(random)).collect();
    let size = plans.concat().len() + free;
    ask::fill(script, size, random.pick(&[0, 1, 84, 255]));
    let mut end = 0;
    for plan in &plans {
        if random.chance(60) {
            ask::append(script, plan);
        } else {
            ask::put(script, end, plan);
        }
        end += plan.len();
    }
    end
}

/// An append, or one that is cut, often where it tells the most.
fn append_or_cut(script: &mut Script, random: &mut Random, plan: &[u8]) {
    if random.chance(10) {
        ask::unread(script, random, plan);
    }
    if random.chance(40) {
        return ask::append(script, plan);
    }
    let store = &script.desk.store.bytes;
    let start = log::walk(store).last().map_or(0, |last| last.end());
    let zeros = store.len() - start;
    let total = zeros + plan.len();
    let count = match random.below(6) {
        0 => random.below(zeros + 1),
        1 => random.within(zeros, total),
        2 => random.pick(&[0, 1, zeros, zeros + 1]),
        3 => total.saturating_sub(1),
        4 => total,
        _ => random.pick(&[total + 1, MOST_WRITES]),
    };
    ask::cut(script, plan, count);
}

fn another(script: &mut Script, random: &mut Random) {
    let plan = kinds::small_plan(random);
    append_or_cut(script, random, &plan);
}

/// One byte of some plan is changed, and sometimes set right again.
fn hurt_and_healed(script: &mut Script, random: &mut Random) {
    let free = random.below(100);
    let end = filled(script, random, free);
    let at = random.below(end);
    let sound = script.desk.store.bytes[at];
    ask::put(script, at, &stores::hurt(random, &[sound]));
    ask::look(script);
    if random.chance(40) {
        ask::put(script, at, &[sound]);
        ask::look(script);
    }
    another(script, random);
    ask::look(script);
}

/// A plan that the walk does not reach; an append clears it.
fn behind_junk(script: &mut Script, random: &mut Random) {
    let end = filled(script, random, 200);
    let junk: Vec<u8> = (0..random.within(1, 40)).map(|_| random.below(256) as u8).collect();
    ask::put(script, end, &junk);
    ask::put(script, end + junk.len(), &kinds::small_plan(random));
    ask::look(script);
    for _ in 0..random.within(1, 2) {
        another(script, random);
        ask::look(script);
    }
}

/// Bytes that the reader refuses, also where they would not fit or the store is too large.
fn refused(script: &mut Script, random: &mut Random) {
    let free = random.pick(&[0, 30, 120]);
    filled(script, random, free);
    if random.chance(15) {
        ask::fill(script, MOST_STORE + 1, random.below(256));
    }
    for _ in 0..random.within(2, 4) {
        let number = random.pick(&REFUSALS);
        let plan = kinds::refused_plan(random, number);
        append_or_cut(script, random, &plan);
    }
    script.ask("newest");
    script.ask(&format!("peek 0 {}", script.desk.store.bytes.len().min(MOST_PEEKED)));
}

/// A byte too few, just enough, a byte more.
fn just_fits(script: &mut Script, random: &mut Random) {
    let plan = kinds::small_plan(random);
    let free = plan.len() + random.below(3) - 1;
    filled(script, random, free);
    append_or_cut(script, random, &plan);
    ask::look(script);
    ask::append(script, &plan);
    ask::append(script, &plan);
    ask::look(script);
}

/// One cut after the other, over what the cut before has left.
fn cut_again(script: &mut Script, random: &mut Random) {
    let plan = kinds::small_plan(random);
    let store = stores::small(random, &plan);
    ask::set_up(script, &store, random.below(256));
    for _ in 0..random.within(2, 4) {
        append_or_cut(script, random, &plan);
        ask::look(script);
    }
}

/// The smallest and the largest stores, and those that are too large.
fn at_the_limits(script: &mut Script, random: &mut Random) {
    let plan = kinds::small_plan(random);
    let least = plan.len();
    let limits = [0, 1, least - 1, least, MOST_STORE - 1, MOST_STORE, MOST_STORE + 1, MOST_SIZE];
    let size = random.pick(&limits);
    ask::fill(script, size, random.pick(&[0, 1, 255]));
    ask::past_the_end(script, random);
    if least <= size {
        ask::put(script, random.pick(&[0, size - least]), &plan);
    }
    for _ in 0..2 {
        script.ask("newest");
        script.ask("listed");
        append_or_cut(script, random, &plan);
        let shown = size.min(100);
        script.ask(&format!("peek 0 {shown}"));
        script.ask(&format!("peek {} {shown}", size - shown));
    }
}

/// The store is the log's alone, and the state the dispatcher's; neither minds a count, nor an
/// unreadable line.
fn beside_the_dispatcher(script: &mut Script, random: &mut Random) {
    runs::open_accepted(script, random);
    filled(script, random, 150);
    for _ in 0..2 {
        runs::step(script, random, 30);
        another(script, random);
        counts::request(script, random);
        unreadable::request(script, random);
        runs::step(script, random, 30);
    }
    ask::look(script);
    runs::open_accepted(script, random);
    ask::look(script);
}
