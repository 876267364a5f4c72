//! Makes requests of every kind, with what they should answer. How a line is read, and what the
//! protocol leaves open, stands in `desk`.

use crate::counts;
use crate::damage;
use crate::desk::{LENT, MOST_LINE, MOST_ROOM, UNREADABLE};
use crate::fields::{hex, MOST_BYTES};
use crate::kinds::{self, Case};
use crate::list::{MOST_EDGES, MOST_JOBS, MOST_SLOTS};
use crate::lists::{self, Shape};
use crate::logs;
use crate::plan;
use crate::pokes;
use crate::random::Random;
use crate::runs;
use crate::script::Script;
use crate::unreadable;

/// Every answer of the table "When the desk says no", 36, yes, and a line that cannot be read.
const NUMBERS: [&str; 34] = [
    "0", "40", "41", "42", "1", "2", "3", "43", "44", "6", "4", "5", "7", "8", "9", "45", "10",
    "11", "12", "46", "20", "21", "22", "23", "24", "37", "32", "30", "36", "33", "31", "34", "35",
    UNREADABLE,
];

/// The answers that some words must get besides: the count's, the log's, and to appends those of
/// the reader.
const OF_WORDS: [(&[&str], &[&str]); 8] = [
    (&["count"], &["0", UNREADABLE]),
    (&["append", "cut"], &logs::REFUSALS),
    (&["append"], &["0", "50", "52", UNREADABLE]),
    (&["cut"], &["0", "50", "52", UNREADABLE]),
    (&["newest"], &["0", "51", "52", UNREADABLE]),
    (&["listed"], &["0", "51", "52", UNREADABLE]),
    (&["put"], &["0", UNREADABLE]),
    (&["store", "peek"], &["0", UNREADABLE]),
];

/// What must come with 36: an end signalled or none, a job ordered or none, as the answer shows.
const HALF_AWAY: [(&str, &str, bool); 4] = [
    ("36 with a job", " 0", false),
    ("36 with a job, and its end", " 1", false),
    ("36 with no job", " 0", true),
    ("36 with no job, and an end", " 1", true),
];

/// At least `count` requests.
pub fn make(seed: u64, count: usize) -> (Script, Result<(), String>) {
    let mut random = Random::new(seed);
    let mut script = Script::new();
    runs::before_any_open(&mut script);
    beyond_the_limits(&mut script, &mut random);
    longest_lines(&mut script);
    unreadable::each_once(&mut script);
    while script.len() < count {
        scene(&mut script, &mut random);
    }
    // the last line is written without its newline, and an empty one would then be none
    script.ask("list -");
    let outcome = all_came(&script);
    (script, outcome)
}

fn all_came(script: &Script) -> Result<(), String> {
    let mut outcome = Ok(());
    let mut must_come = |count: usize, what: &str| {
        println!("{count:>7}  {what}");
        if count == 0 {
            outcome = Err(format!("never came: {what}"));
        }
    };
    for (words, numbers) in [(&[][..], &NUMBERS[..])].into_iter().chain(OF_WORDS) {
        for number in numbers {
            must_come(script.came(words, number), &[&[*number], words].concat().join(" "));
        }
    }
    for (what, end, is_idle) in HALF_AWAY {
        let is_meant = |request: &[u8], answer: &str| {
            let idle = answer.contains(" ordered=255 ");
            answer.starts_with("36 ") && request.ends_with(end.as_bytes()) && idle == is_idle
        };
        must_come(script.count(is_meant), what);
    }
    outcome
}

fn scene(script: &mut Script, random: &mut Random) {
    match random.below(108) {
        0..14 => script.ask(&format!("list {}", hex(&list_bytes(random)))),
        14..34 => check_request(script, random),
        34..44 => write_request(script, random),
        44..66 => build_request(script, random),
        66..82 => read_request(script, random),
        82..89 => unreadable::request(script, random),
        89..93 => runs::run(script, random),
        93..100 => pokes::poked_run(script, random),
        100..102 => counts::request(script, random),
        _ => logs::scene(script, random),
    }
}

/// A list's bytes, mostly with something wrong.
fn list_bytes(random: &mut Random) -> Vec<u8> {
    match random.below(10) {
        0..2 => lists::any(random).bytes(),
        2..4 => lists::with_a_ring(random).bytes(),
        place => {
            let list = if place < 6 { lists::with_a_ring(random) } else { lists::any(random) };
            damage::list_bytes(random, &list)
        }
    }
}

/// The `check` request of a list and two tables.
pub fn check_of(case: &Case) -> String {
    format!("check {} {} {}", hex(&case.list.bytes()), hex(&case.lo), hex(&case.hi))
}

/// List and tables of all sizes.
fn case(random: &mut Random) -> Case {
    if random.chance(60) {
        return kinds::case(random);
    }
    if random.chance(10) {
        return kinds::ring_case(random);
    }
    let list = lists::any(random);
    let (lo, hi) = lists::tables(random, &list);
    Case { list, lo, hi }
}

/// List and tables as fields of a request, now and then damaged; and the size of their plan.
fn list_and_tables(random: &mut Random) -> (String, usize) {
    let Case { list, mut lo, mut hi } = case(random);
    let bytes = if random.chance(8) { damage::list_bytes(random, &list) } else { list.bytes() };
    // one table, the other, or both: mostly neither
    let hurt = random.below(12);
    if hurt == 0 || hurt == 1 {
        damage::table(random, &list, &mut lo);
    }
    if hurt == 0 || hurt == 2 {
        damage::table(random, &list, &mut hi);
    }
    (format!("{} {} {}", hex(&bytes), hex(&lo), hex(&hi)), list.plan_size())
}

fn check_request(script: &mut Script, random: &mut Random) {
    let (fields, _) = list_and_tables(random);
    script.ask(&format!("check {fields}"));
}

fn write_request(script: &mut Script, random: &mut Random) {
    let (fields, size) = list_and_tables(random);
    let room = room(random, size);
    script.ask(&format!("write {fields} {room}"));
}

fn read_request(script: &mut Script, random: &mut Random) {
    let case = case(random);
    script.ask(&format!("read {}", hex(&damage::plan_of(random, case))));
}

fn build_request(script: &mut Script, random: &mut Random) {
    let aimed = random.chance(60);
    let list = if aimed { kinds::list_to_build(random) } else { lists::any(random) };
    let bytes = if random.chance(6) { list_bytes(random) } else { list.bytes() };
    let room = room(random, list.plan_size());
    script.ask(&format!("build {} {room}", hex(&bytes)));
}

/// Mostly enough, and often a byte too short.
fn room(random: &mut Random, size: usize) -> usize {
    match random.below(100) {
        0..70 => size + random.pick(&[0, 1, 9]),
        70..85 => size - 1,
        85..98 => random.below(size),
        _ => MOST_ROOM,
    }
}

/// Lists at each limit and one past it: among them the largest of all.
fn beyond_the_limits(script: &mut Script, random: &mut Random) {
    for more in 0..=1 {
        for (jobs, edges, length) in [
            (MOST_JOBS + more, 0, 64),
            (MOST_JOBS, MOST_EDGES + more, MOST_SLOTS),
            (2, 0, MOST_SLOTS + more),
        ] {
            let shape = Shape { jobs, edges, length, budget: 2 };
            let mut list = lists::of_shape(random, &shape);
            list.jobs[0].deadline = length;
            list.length = length;
            let bytes = list.bytes();
            let idle = vec![plan::IDLE; list.length];
            script.ask(&format!("list {}", hex(&bytes)));
            script.ask(&format!("build {} {}", hex(&bytes), list.plan_size()));
            script.ask(&format!("read {}", hex(&plan::compose(&bytes, &idle, &idle))));
        }
    }
}

/// The longest bytes and the longest line that can be read, and one more of each.
fn longest_lines(script: &mut Script) {
    let bytes = hex(&[LENT; MOST_BYTES]);
    script.ask(&format!("list {bytes}"));
    script.ask_unreadable(format!("list {bytes}aa").as_bytes());
    script.ask_unreadable(format!("count {bytes}aa {LENT} 1").as_bytes());
    script.ask(&format!("check {bytes} {bytes} {bytes}"));
    let zeros = "0".repeat(MOST_LINE - "step 1 0".len());
    script.ask(&format!("step {zeros}1 0"));
    script.ask_unreadable(format!("step {zeros}01 0").as_bytes());
}
