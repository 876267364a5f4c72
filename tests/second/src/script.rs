//! A text of requests beside the answers that they should get.

use std::{fs, io};

use crate::desk::{Desk, UNREADABLE};

pub struct Script {
    pub desk: Desk,
    requests: Vec<Vec<u8>>,
    answers: Vec<String>,
}

impl Script {
    pub fn new() -> Script {
        Script { desk: Desk::new(), requests: Vec::new(), answers: Vec::new() }
    }

    pub fn len(&self) -> usize {
        self.requests.len()
    }

    /// Adds a request that was made to be read.
    pub fn ask(&mut self, request: &str) {
        let answer = self.add(request.as_bytes());
        assert_ne!(answer, UNREADABLE, "made to be read: {request}");
    }

    /// Adds a line that was made not to be read.
    pub fn ask_unreadable(&mut self, line: &[u8]) {
        let answer = self.add(line);
        assert_eq!(answer, UNREADABLE, "made not to be read: {}", String::from_utf8_lossy(line));
    }

    fn add(&mut self, line: &[u8]) -> &str {
        let answer = self.desk.answer(line);
        self.requests.push(line.to_vec());
        self.answers.push(answer);
        &self.answers[self.answers.len() - 1]
    }

    /// Adds a request with its answer written by hand; the desk's own answer is handed back.
    pub fn ask_by_hand(&mut self, request: &str, answer: &str) -> String {
        self.requests.push(request.as_bytes().to_vec());
        self.answers.push(answer.to_string());
        self.desk.answer(request.as_bytes())
    }

    /// How often an answer number came to one of the words, or to any line where none is given.
    pub fn came(&self, words: &[&str], number: &str) -> usize {
        let is_meant = |request: &[u8]| {
            let word = request.split(|&byte| byte == b' ').next().unwrap_or_default();
            words.is_empty() || words.iter().any(|meant| meant.as_bytes() == word)
        };
        self.count(|request, answer| is_meant(request) && answer.split(' ').next() == Some(number))
    }

    /// How many requests are meant, by what they ask and what they are answered.
    pub fn count(&self, is_meant: impl Fn(&[u8], &str) -> bool) -> usize {
        let pairs = self.requests.iter().zip(&self.answers);
        pairs.filter(|(request, answer)| is_meant(request, answer)).count()
    }

    /// The last request is left without its newline: it must be answered all the same.
    pub fn save(&self, requests: &str, answers: &str) -> io::Result<()> {
        fs::write(requests, self.requests.join(&b'\n'))?;
        fs::write(answers, self.answers.join("\n") + "\n")
    }
}
