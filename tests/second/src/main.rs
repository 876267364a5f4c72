//! The second program: document 01 and requests 2026-01 to 2026-03 of document 02 once more, in
//! plain code that shares nothing with the proved code, to compare that with.

mod ask;
mod build;
mod check;
mod compare;
mod count;
mod counts;
mod cuts;
mod damage;
mod desk;
mod dispatch;
mod executions;
mod fields;
mod kinds;
mod limits;
mod list;
mod lists;
mod log;
mod logs;
mod plan;
mod pokes;
mod question;
mod random;
mod refusal;
mod requests;
mod runs;
mod script;
mod state;
mod store;
mod stores;
mod trial;
mod unreadable;
mod vectors;

use std::io::{self, BufRead, BufWriter, Write};
use std::process::ExitCode;

use script::Script;

const USAGE: &str = "\
second vectors REQUESTS ANSWERS                  the cases worked on paper
second executions SEED COUNT REQUESTS ANSWERS    small lists, every execution tried
second requests SEED COUNT REQUESTS ANSWERS      requests of every kind
second cuts SEED COUNT REQUESTS ANSWERS          appends to the log, cut short at every byte
second counts SEED COUNT REQUESTS ANSWERS        entries of a job counted, in tables of all lengths
    each writes requests and the answers that they should get to the two files, says what came,
    and fails where this program is at odds with itself or some kind never came
second answers                                   answers the requests on standard input
second compare REQUESTS ANSWERS GOT [...]        compares answers, for each three files";

fn main() -> ExitCode {
    let words: Vec<String> = std::env::args().skip(1).collect();
    let words: Vec<&str> = words.iter().map(String::as_str).collect();
    match command(&words) {
        Ok(()) => ExitCode::SUCCESS,
        Err(said) => {
            eprintln!("second: {said}");
            ExitCode::FAILURE
        }
    }
}

fn command(words: &[&str]) -> Result<(), String> {
    match *words {
        ["vectors", requests, answers] => save(vectors::compare(), requests, answers),
        ["executions", seed, count, requests, answers] => {
            save(executions::compare(number(seed)?, number(count)? as usize), requests, answers)
        }
        ["requests", seed, count, requests, answers] => {
            save(requests::make(number(seed)?, number(count)? as usize), requests, answers)
        }
        ["cuts", seed, count, requests, answers] => {
            save(cuts::make(number(seed)?, number(count)? as usize), requests, answers)
        }
        ["counts", seed, count, requests, answers] => {
            save(counts::make(number(seed)?, number(count)? as usize), requests, answers)
        }
        ["answers"] => answer().map_err(|error| error.to_string()),
        ["compare", ref files @ ..] if !files.is_empty() && files.len() % 3 == 0 => {
            compare_all(files)
        }
        _ => Err(format!("usage:\n{USAGE}")),
    }
}

fn number(word: &str) -> Result<u64, String> {
    word.parse().map_err(|_| format!("{word} is not a number"))
}

fn save(made: (Script, Result<(), String>), requests: &str, answers: &str) -> Result<(), String> {
    let (script, outcome) = made;
    script.save(requests, answers).map_err(|error| error.to_string())?;
    println!("{:>7}  requests in all", script.len());
    outcome
}

fn answer() -> io::Result<()> {
    let mut desk = desk::Desk::new();
    let mut out = BufWriter::new(io::stdout().lock());
    for line in io::stdin().lock().split(b'\n') {
        writeln!(out, "{}", desk.answer(&line?))?;
    }
    out.flush()
}

fn compare_all(files: &[&str]) -> Result<(), String> {
    let (mut passed, mut failed) = (0, 0);
    for three in files.chunks(3) {
        let counts = compare::files(three[0], three[1], three[2]);
        let counts = counts.map_err(|error| error.to_string())?;
        passed += counts.0;
        failed += counts.1;
    }
    println!("{passed} passed, {failed} failed");
    if failed == 0 {
        Ok(())
    } else {
        Err("the answers differ".to_string())
    }
}
