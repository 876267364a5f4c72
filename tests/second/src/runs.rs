//! Requests to the dispatcher: runs that cross tick 65535, with ticks lost, stale, repeated, and
//! half the counter away.

use crate::damage;
use crate::fields::hex;
use crate::kinds;
use crate::plan::IDLE;
use crate::random::Random;
use crate::script::Script;
use crate::unreadable;

/// The all-zero state, before any plan was opened.
pub fn before_any_open(script: &mut Script) {
    script.ask("step 1 0");
    script.ask("poke tick 0 7");
    script.ask("poke n 0 2");
    script.ask("step 8 1");
}

pub fn run(script: &mut Script, random: &mut Random) {
    if random.chance(10) {
        let mut plan = accepted_plan(random);
        damage::plan_bytes(random, &mut plan);
        open(script, random, &plan);
    } else {
        open_accepted(script, random);
    }
    // how often, of a hundred slots, the ordered job ends: from never, which switches and halts
    let ends = random.pick(&[0, 15, 40, 70]);
    let mut same_answers = 0;
    for _ in 0..random.within(10, 50) {
        if random.chance(4) {
            // what cannot be read changes nothing, as the next step shows
            unreadable::request(script, random);
        }
        step(script, random, ends);
        // a halted dispatcher, or one that was not opened, says the same from now on
        let state = &script.desk.state;
        same_answers += usize::from(state.halted != 0 || state.n == 0);
        if same_answers == 2 {
            return;
        }
    }
}

pub fn open_accepted(script: &mut Script, random: &mut Random) {
    let plan = accepted_plan(random);
    open(script, random, &plan);
}

fn accepted_plan(random: &mut Random) -> Vec<u8> {
    if random.chance(20) {
        let list = kinds::list_that_builds(random);
        return kinds::built(&list).expect("this list builds");
    }
    kinds::small_plan(random)
}

fn open(script: &mut Script, random: &mut Random, plan: &[u8]) {
    let first = match random.below(4) {
        0 => random.below(65536),
        1 => random.pick(&[0, 1, 32767, 32768]),
        _ => 65535 - random.below(30),
    };
    script.ask(&format!("open {} {first}", hex(plan)));
}

/// Mostly the next tick, and sometimes one repeated, stale, after lost ones, or half the counter
/// away: more often where the next would be refused as well, so that it shows which no comes first.
pub fn step(script: &mut Script, random: &mut Random, ends: usize) {
    let state = &script.desk.state;
    let ended = random.chance(if state.ordered == IDLE { 8 } else { ends });
    let next = state.tick.wrapping_add(1);
    let is_refused = state.clone().step(next, ended).is_err();
    let ahead = match random.below(if is_refused { 40 } else { 200 }) {
        0..6 => 0,
        6..9 => random.pick(&[32_769, 65_535]),
        9..12 => random.within(32_769, 65_535),
        12..14 => random.pick(&[2, 32_767]),
        14..16 => random.within(2, 32_767),
        16..20 => 32_768,
        _ => 1,
    };
    let tick = (usize::from(state.tick) + ahead) % 65_536;
    script.ask(&format!("step {tick} {}", u8::from(ended)));
}
