//! Requests to a dispatcher whose state was poked: what a step looks at, and what it does not.

use crate::list::{MOST_EDGES, MOST_JOBS, MOST_SLOTS};
use crate::plan::IDLE;
use crate::random::Random;
use crate::runs;
use crate::script::Script;

/// How often, of a hundred slots, the ordered job ends here.
const ENDS: usize = 30;

/// How many places a field has, and which count says how many of them are looked at.
#[derive(Clone, Copy)]
enum Places {
    One,
    Slots,
    Jobs,
    Edges,
}

/// The fields of the state; the mark says that the field is a byte.
const FIELDS: [(&str, Places, bool); 20] = [
    ("l", Places::One, false),
    ("n", Places::One, false),
    ("m", Places::One, false),
    ("slot", Places::One, false),
    ("tick", Places::One, false),
    ("ordered", Places::One, true),
    ("high", Places::One, true),
    ("halted", Places::One, true),
    ("lo", Places::Slots, true),
    ("hi", Places::Slots, true),
    ("arrival", Places::Jobs, false),
    ("deadline", Places::Jobs, false),
    ("clo", Places::Jobs, false),
    ("chi", Places::Jobs, false),
    ("level", Places::Jobs, true),
    ("from", Places::Edges, true),
    ("to", Places::Edges, true),
    ("units", Places::Jobs, false),
    ("done", Places::Jobs, true),
    ("cut", Places::Jobs, true),
];

pub fn poked_run(script: &mut Script, random: &mut Random) {
    runs::open_accepted(script, random);
    for _ in 0..random.below(10) {
        runs::step(script, random, ENDS);
    }
    if script.desk.state.halted != 0 {
        script.ask("poke halted 0 0");
    }
    match random.below(10) {
        0..3 => any_field(script, random),
        3..6 => at_the_edge_of_sight(script, random),
        6..8 => around_the_next_order(script, random),
        8 => past_the_count(script, random),
        _ => full_count(script, random),
    }
}

fn next(script: &mut Script, random: &mut Random) {
    let state = &script.desk.state;
    let ended = state.ordered != IDLE && random.chance(ENDS);
    let tick = state.tick.wrapping_add(1);
    script.ask(&format!("step {tick} {}", u8::from(ended)));
}

/// Any value, often a telling one, in any field.
fn any_field(script: &mut Script, random: &mut Random) {
    for _ in 0..random.within(1, 2) {
        let (field, places, byte) = random.pick(&FIELDS);
        let index = any_index(script, random, places);
        let value = any_value(script, random);
        let value = if byte { value % 256 } else { value };
        script.ask(&format!("poke {field} {index} {value}"));
        for _ in 0..random.within(1, 3) {
            runs::step(script, random, ENDS);
        }
    }
}

fn any_index(script: &Script, random: &mut Random, places: Places) -> usize {
    let state = &script.desk.state;
    let (count, places) = match places {
        Places::One => (1, 1),
        Places::Slots => (usize::from(state.l), MOST_SLOTS),
        Places::Jobs => (usize::from(state.n), MOST_JOBS),
        Places::Edges => (usize::from(state.m), MOST_EDGES),
    };
    random.pick(&[0, usize::from(state.ordered), count, places - 1]).min(places - 1)
}

fn any_value(script: &Script, random: &mut Random) -> usize {
    let state = &script.desk.state;
    let (l, n, slot) = (usize::from(state.l), usize::from(state.n), usize::from(state.slot));
    match random.below(4) {
        0 => random.below(4),
        1 => random.pick(&[l, n, slot]) + random.below(2),
        2 => random.pick(&[63, 64, 65, 254, 255, 256, 257, 1023, 1024, 1025, 65535]),
        _ => random.below(65536),
    }
    .min(65535)
}

/// Row 37: values just good and no longer good, in the last place looked at and the first not.
fn at_the_edge_of_sight(script: &mut Script, random: &mut Random) {
    let state = &script.desk.state;
    let (l, n, m) = (usize::from(state.l), usize::from(state.n), usize::from(state.m));
    let single = [
        ("l", [0, 1025, l + 1]),
        ("n", [0, 65, n + 1]),
        ("m", [257, 256, m + 1]),
        ("slot", [l, l - 1, 65535]),
        ("ordered", [n, n - 1, 254]),
    ];
    let rows = [
        ("lo", l, MOST_SLOTS, [n, n - 1, 254]),
        ("hi", l, MOST_SLOTS, [n, n - 1, 254]),
        ("from", m, MOST_EDGES, [n, n - 1, 255]),
        ("to", m, MOST_EDGES, [n, n - 1, 255]),
        ("level", n, MOST_JOBS, [2, 1, 255]),
        ("units", n, MOST_JOBS, [1025, 1024, 65535]),
        ("clo", n, MOST_JOBS, [1025, 1024, 65535]),
        ("chi", n, MOST_JOBS, [1025, 1024, 65535]),
    ];
    let (field, index, values) = if random.chance(25) {
        let (field, values) = random.pick(&single);
        (field, 0, values)
    } else {
        let (field, count, places, values) = random.pick(&rows);
        let index = random.pick(&[count.saturating_sub(1), count]);
        (field, index.min(places - 1), values)
    };
    script.ask(&format!("poke {field} {index} {}", random.pick(&values)));
    next(script, random);
    // where this is 37, that comes first, whatever the tick
    runs::step(script, random, ENDS);
}

/// What decides whether the job named next is ordered: its times and marks, in either mode.
fn around_the_next_order(script: &mut Script, random: &mut Random) {
    for _ in 0..3 {
        script.ask(&format!("poke high 0 {}", random.pick(&[0, 1, 2, 255])));
        let state = &script.desk.state;
        let slot = (state.slot + 1) % state.l;
        let job = random.below(usize::from(state.n));
        let table = if state.high == 0 { "lo" } else { "hi" };
        script.ask(&format!("poke {table} {slot} {job}"));
        let time = usize::from(slot) + random.below(2);
        let mark = random.pick(&[0, 1, 2, 255]);
        let (field, value) = match random.below(4) {
            0 => ("arrival", time),
            1 => ("deadline", time),
            2 => ("done", mark),
            _ => ("cut", mark),
        };
        script.ask(&format!("poke {field} {job} {value}"));
        next(script, random);
    }
}

/// A fresh frame clears the counts and marks of all places; raising n then shows them.
fn past_the_count(script: &mut Script, random: &mut Random) {
    let past = usize::from(script.desk.state.n).min(MOST_JOBS - 1);
    let job = random.pick(&[past, MOST_JOBS - 1]);
    for field in ["units", "done", "cut"] {
        script.ask(&format!("poke {field} {job} {}", random.within(1, 255)));
    }
    for _ in 0..random.below(12) {
        next(script, random);
    }
    script.ask(&format!("poke n 0 {MOST_JOBS}"));
    next(script, random);
}

/// Brings the count of a job to where it stops, orders the job and ends it.
fn full_count(script: &mut Script, random: &mut Random) {
    let job = random.below(usize::from(script.desk.state.n));
    script.ask(&format!("poke ordered 0 {job}"));
    script.ask(&format!("poke units {job} {}", random.within(1022, 1025)));
    script.ask(&format!("poke chi {job} {}", random.pick(&[1023, 1024])));
    let tick = script.desk.state.tick.wrapping_add(1);
    script.ask(&format!("step {tick} {}", random.pick(&[0, 1, 1, 1])));
    next(script, random);
}
