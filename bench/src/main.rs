//! Times the proved calls against plain Rust of the same rules, in one process, and prints a table.
//! Ends with 1 where the two sides do not answer alike.

use std::hint::black_box;
use std::process::ExitCode;

mod answer;
mod compare;
#[cfg(target_arch = "x86_64")]
mod counts;
mod frame;
mod held;
mod hut;
mod logs;
mod named;
mod plain;
mod timing;

// the second program's, which has more than is needed here
#[path = "../../tests/second/src/limits.rs"]
mod limits;
#[allow(dead_code)]
#[path = "../../tests/second/src/random.rs"]
mod random;
#[allow(dead_code)]
#[path = "../../tests/second/src/refusal.rs"]
mod refusal;
#[path = "../../tests/second/src/state.rs"]
mod state;

use answer::Answer;
use frame::{Ends, Frame};
use held::Held;
use logs::{Side, RATTLE, RUST};
use named::{Named, MOST_PLAN_BYTES};
use timing::Timed;

fn main() -> ExitCode {
    let lists = named::all();
    for named in &lists {
        if let Err(difference) = compare::sides(named) {
            eprintln!("{difference}");
            return ExitCode::FAILURE;
        }
    }
    #[cfg(target_arch = "x86_64")]
    for question in counts::all() {
        if let Some(difference) = question.difference() {
            eprintln!("{difference}");
            return ExitCode::FAILURE;
        }
    }
    println!("| List | Call | Rattle | Rust | Rattle / Rust | quartiles |");
    println!("|---|---|---:|---:|---:|---|");
    for named in &lists {
        time(named);
    }
    let plans: Vec<&[u8]> = lists.iter().filter_map(|named| named.plan.as_deref()).collect();
    if let [small, .., largest] = plans[..] {
        time_log(small, largest);
    }
    #[cfg(target_arch = "x86_64")]
    for question in counts::all() {
        row(&question.name(), &question.call(), question.time());
    }
    ExitCode::SUCCESS
}

fn time(named: &Named) {
    let row = |call, timed| row(named.name, call, timed);
    row("check", check(named));
    if let Some(plan) = &named.plan {
        row("build", build(named));
        let (_, state) = hut::open(plan, 0);
        let frame = |ends| Frame::of(&state.plain(), named.lo.len(), ends);
        row("step, ends at CLO", steps(&frame(Ends::Ordinary)));
        row("step, fewest ends", steps(&frame(Ends::Fewest)));
    }
}

/// The last list's plan, a largest one, fills a log; and into an empty one goes also the first's.
fn time_log(small: &[u8], largest: &[u8]) {
    let most = logs::most(largest);
    let holding = |times| logs::holding(largest, times);
    row("log, empty", "append, small", append(holding(0), small));
    row("log, empty", "append, largest", append(holding(0), largest));
    let before = format!("log, {} largest", most - 1);
    row(&before, "append, largest", append(holding(most - 1), largest));
    let full = format!("log, {most} largest");
    row(&full, "append, small", append(holding(most), small));
    row(&full, "append, largest: 50", append(holding(most), largest));
    let store = holding(most);
    row(&full, "newest", newest(&store));
    row(&full, "list", list(&store));
}

/// An append to a log. What it wrote is zeroed again, in the time: on both sides the same bytes, a
/// plan's.
fn append(log: Vec<u8>, plan: &[u8]) -> Timed {
    let answer = (RUST.append)(&mut log.clone(), plan);
    let is_written = answer.answer.number == 0;
    let written = if is_written { answer.at..answer.at + answer.bytes } else { 0..0 };
    let with = |side: Side| {
        let (mut store, written) = (log.clone(), written.clone());
        move || {
            black_box((side.append)(black_box(&mut store), black_box(plan)));
            store[written.clone()].fill(0);
        }
    };
    timing::pair(with(RATTLE), with(RUST))
}

fn newest(store: &[u8]) -> Timed {
    let with = |side: Side| {
        move || {
            black_box((side.newest)(black_box(store)));
        }
    };
    timing::pair(with(RATTLE), with(RUST))
}

fn list(store: &[u8]) -> Timed {
    let with = |side: Side| {
        move || {
            side.list(black_box(store), |answer| {
                black_box(answer);
            });
        }
    };
    timing::pair(with(RATTLE), with(RUST))
}

fn check(named: &Named) -> Timed {
    let with = |call: fn(&[u8], &[u8], &[u8]) -> Answer| {
        move || {
            let (list, lo, hi) = black_box((&named.list, &named.lo, &named.hi));
            black_box(call(list, lo, hi));
        }
    };
    timing::pair(with(hut::check), with(plain::check::check))
}

fn build(named: &Named) -> Timed {
    let with = |call: fn(&[u8], &mut [u8]) -> Answer| {
        let mut out = [0; MOST_PLAN_BYTES];
        move || {
            black_box(call(black_box(&named.list), &mut out));
        }
    };
    timing::pair(with(hut::build), with(plain::build::build))
}

fn steps(frame: &Frame) -> Timed {
    let marks = &frame.marks;
    let held = over(marks, frame.state.tick, Held::of(&frame.state), hut::step);
    let plain = over(marks, frame.state.tick, frame.state.clone(), plain::dispatch::step);
    timing::pair(held, plain).each(marks.len())
}

/// The steps of a frame, on either kind of state.
fn over<S>(marks: &[bool], first: u16, mut state: S, call: fn(&mut S, u16, bool) -> Answer) -> impl FnMut() + '_
where
    S: 'static,
{
    let mut tick = first;
    move || {
        for &mark in marks {
            tick = tick.wrapping_add(1);
            black_box(call(&mut state, tick, mark));
        }
    }
}

fn row(name: &str, call: &str, timed: Timed) {
    let (rattle, rust) = (time_of(timed.rattle), time_of(timed.rust));
    let (low, high) = timed.quartiles;
    let ratio = timed.ratio;
    println!("| {name} | {call} | {rattle} | {rust} | {ratio:.2} | {low:.2} to {high:.2} |");
}

fn time_of(nanoseconds: f64) -> String {
    if nanoseconds < 1e1 {
        format!("{nanoseconds:.1} ns")
    } else if nanoseconds < 1e3 {
        format!("{nanoseconds:.0} ns")
    } else if nanoseconds < 1e6 {
        format!("{:.2} µs", nanoseconds / 1e3)
    } else {
        format!("{:.2} ms", nanoseconds / 1e6)
    }
}
