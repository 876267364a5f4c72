//! Compares answers line by line.

use std::{fs, io};

const SHOWN: usize = 5;
const MOST_SHOWN: usize = 600;

/// How many lines are as expected, and how many are not. The first few that differ are printed.
pub fn files(requests: &str, expected: &str, got: &str) -> io::Result<(usize, usize)> {
    let (requests, expected, got) = (fs::read(requests)?, fs::read(expected)?, fs::read(got)?);
    let (requests, expected, got) = (lines(&requests), lines(&expected), lines(&got));
    let mut failed = 0;
    for (place, answer) in expected.iter().enumerate() {
        if got.get(place) == Some(answer) {
            continue;
        }
        failed += 1;
        if failed <= SHOWN {
            let got = got.get(place).map_or("nothing".to_string(), |line| cut(line));
            println!("line {}: {}", place + 1, cut(requests[place]));
            println!("  expected {}\n  got      {got}", cut(answer));
        }
    }
    let passed = expected.len() - failed;
    let more = got.len().saturating_sub(expected.len());
    if more > 0 {
        println!("{more} lines more than requests");
    }
    Ok((passed, failed + more))
}

/// The lines of a text, whether or not the last one has its newline.
fn lines(text: &[u8]) -> Vec<&[u8]> {
    let text = text.strip_suffix(b"\n").unwrap_or(text);
    text.split(|&byte| byte == b'\n').collect()
}

fn cut(line: &[u8]) -> String {
    String::from_utf8_lossy(&line[..line.len().min(MOST_SHOWN)]).into_owned()
}
