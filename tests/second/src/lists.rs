//! Random lists and tables, shaped so that every answer comes often.

use crate::build;
use crate::list::{Job, List, MOST_EDGES, MOST_JOBS, MOST_SLOTS};
use crate::plan::IDLE;
use crate::random::Random;

/// What a list is aimed at; fewer edges where the jobs do not allow so many.
pub struct Shape {
    pub jobs: usize,
    pub edges: usize,
    pub length: usize,
    pub budget: usize,
}

/// Small enough that every execution can be tried.
pub fn small(random: &mut Random) -> List {
    let shape = Shape {
        jobs: random.within(1, 4),
        edges: random.below(4),
        length: random.within(3, 8),
        budget: 4,
    };
    of_shape(random, &shape)
}

/// Mostly small, some of middle size, few of the largest size.
pub fn any(random: &mut Random) -> List {
    let shape = match random.below(1000) {
        0..4 => Shape { jobs: MOST_JOBS, edges: MOST_EDGES, length: MOST_SLOTS, budget: 3 },
        4..14 => Shape {
            jobs: random.within(1, MOST_JOBS),
            edges: random.below(40),
            length: random.within(200, MOST_SLOTS),
            budget: 10,
        },
        14..250 => Shape {
            jobs: random.within(2, 12),
            edges: random.below(8),
            length: random.within(8, 40),
            budget: 5,
        },
        _ => return small(random),
    };
    of_shape(random, &shape)
}

/// A list with a ring of edges, and sometimes an edge from low to high.
pub fn with_a_ring(random: &mut Random) -> List {
    let jobs = random.within(2, 6);
    let shape = Shape { jobs, edges: random.below(4), length: random.within(3, 8), budget: 4 };
    let mut list = of_shape(random, &shape);
    let (ring, back, of_one_level) = (random.within(2, jobs), random.chance(50), random.chance(70));
    for job in 0..ring {
        let next = (job + 1) % ring;
        list.edges.push(if back { (next, job) } else { (job, next) });
        list.jobs[job].high |= of_one_level;
    }
    // an edge of the ring may be there twice
    list.edges.sort_unstable();
    list
}

/// A list that keeps every rule as far as the shape does.
pub fn of_shape(random: &mut Random, shape: &Shape) -> List {
    let high = random.pick(&[25, 55, 90]);
    let at_once = random.pick(&[20, 50, 80]);
    let jobs: Vec<Job> = (0..shape.jobs).map(|_| job(random, shape, high, at_once)).collect();
    let edges = edges(random, &jobs, shape.edges);
    let length = jobs.iter().map(|job| job.deadline).max().unwrap_or(0);
    List { jobs, edges, length }
}

/// `high` and `at_once`: of a hundred jobs, how many are high, and how many arrive at slot 0.
fn job(random: &mut Random, shape: &Shape, high: usize, at_once: usize) -> Job {
    let arrival = if random.chance(at_once) { 0 } else { random.below(shape.length) };
    let late = random.chance(40);
    let deadline = if late { shape.length } else { random.within(arrival + 1, shape.length) };
    let window = deadline - arrival;
    let high = random.chance(high);
    // a few jobs get more units than slots, so that 10, 20 and 21 come
    let most = if random.chance(4) { shape.budget } else { shape.budget.min(window) };
    let clo = random.within(1, most.div_ceil(2));
    let more = high && random.chance(70);
    let chi = if more { random.within(clo, most) } else { clo };
    Job { arrival, deadline, clo, chi, high }
}

/// Rising edges that never go from low to high, and never against one order of the jobs.
fn edges(random: &mut Random, jobs: &[Job], count: usize) -> Vec<(usize, usize)> {
    let by_deadline = random.chance(70);
    let place = |job: usize| if by_deadline { (jobs[job].deadline, job) } else { (0, job) };
    let mut allowed: Vec<(usize, usize)> = Vec::new();
    for before in 0..jobs.len() {
        for after in 0..jobs.len() {
            if place(before) < place(after) && (jobs[before].high || !jobs[after].high) {
                allowed.push((before, after));
            }
        }
    }
    let mut edges = Vec::new();
    while edges.len() < count && !allowed.is_empty() {
        edges.push(allowed.swap_remove(random.below(allowed.len())));
    }
    edges.sort_unstable();
    edges
}

/// Tables for a list that is not refused: from sound to arbitrary, every entry a job or idle.
pub fn tables(random: &mut Random, list: &List) -> (Vec<u8>, Vec<u8>) {
    let (mut lo, mut hi) = match random.below(10) {
        0..6 => build::pair(list).unwrap_or_else(|_| placed(random, list)),
        6..9 => placed(random, list),
        _ => (arbitrary(random, list), arbitrary(random, list)),
    };
    for _ in 0..random.below(4) {
        // a fault in table LO hides what follows a switch
        let table = if random.chance(20) { &mut lo } else { &mut hi };
        let slot = random.below(table.len());
        table[slot] = entry(random, list);
    }
    if random.chance(40) {
        add_low_entries(random, list, &mut hi);
    }
    (lo, hi)
}

/// Names low jobs in the idle slots of table HI. No place there is a fault for them, and the
/// dispatcher must leave out those that may not run.
fn add_low_entries(random: &mut Random, list: &List, hi: &mut [u8]) {
    let low: Vec<usize> = (0..list.jobs.len()).filter(|&job| !list.jobs[job].high).collect();
    for entry in hi.iter_mut().filter(|entry| **entry == IDLE) {
        if !low.is_empty() {
            *entry = random.pick(&low) as u8;
        }
    }
}

fn entry(random: &mut Random, list: &List) -> u8 {
    if random.chance(20) {
        IDLE
    } else {
        random.below(list.jobs.len()) as u8
    }
}

fn arbitrary(random: &mut Random, list: &List) -> Vec<u8> {
    (0..list.length).map(|_| entry(random, list)).collect()
}

/// Units at random free slots between arrival and deadline; edges are not looked at.
fn placed(random: &mut Random, list: &List) -> (Vec<u8>, Vec<u8>) {
    let mut lo = vec![IDLE; list.length];
    for (number, job) in list.jobs.iter().enumerate() {
        place(random, &mut lo, number, job, job.clo, &|entry| entry == IDLE);
    }
    let mut hi = lo.clone();
    let not_high = |entry: u8| !list.jobs.get(usize::from(entry)).is_some_and(|job| job.high);
    for (number, job) in list.jobs.iter().enumerate().filter(|(_, job)| job.high) {
        place(random, &mut hi, number, job, job.chi - job.clo, &not_high);
    }
    (lo, hi)
}

fn place(
    random: &mut Random,
    table: &mut [u8],
    number: usize,
    job: &Job,
    units: usize,
    free: &dyn Fn(u8) -> bool,
) {
    for _ in 0..units {
        let window = job.arrival..job.deadline;
        let slots: Vec<usize> = window.filter(|&slot| free(table[slot])).collect();
        if !slots.is_empty() {
            table[random.pick(&slots)] = number as u8;
        }
    }
}
