//! A list read from its bytes: 40, 1 to 9, 43, 44.

use crate::answer::Answer;
pub use crate::limits::{MOST_EDGES, MOST_JOBS, MOST_SLOTS, MOST_UNITS};

const HEAD_BYTES: usize = 8;
const JOB_BYTES: usize = 10;
const EDGE_BYTES: usize = 2;

/// The three counts at the front, as they stand.
pub struct Counts {
    jobs: usize,
    edges: usize,
    pub slots: usize,
}

impl Counts {
    pub fn of(bytes: &[u8]) -> Counts {
        Counts { jobs: word_at(bytes, 0), edges: word_at(bytes, 2), slots: word_at(bytes, 4) }
    }

    pub fn list_bytes(&self) -> usize {
        HEAD_BYTES + JOB_BYTES * self.jobs + EDGE_BYTES * self.edges
    }

    /// 1 to 3.
    pub fn test(&self) -> Result<(), Answer> {
        if !(1..=MOST_JOBS).contains(&self.jobs) {
            return Err(Answer::bare(1));
        }
        if self.edges > MOST_EDGES {
            return Err(Answer::bare(2));
        }
        if !(1..=MOST_SLOTS).contains(&self.slots) {
            return Err(Answer::bare(3));
        }
        Ok(())
    }
}

#[derive(Clone, Copy)]
pub struct Job {
    pub arrival: usize,
    pub deadline: usize,
    pub clo: usize,
    pub chi: usize,
    pub high: bool,
}

impl Job {
    fn of(bytes: &[u8; JOB_BYTES]) -> Job {
        Job {
            arrival: word_at(bytes, 0),
            deadline: word_at(bytes, 2),
            clo: word_at(bytes, 4),
            chi: word_at(bytes, 6),
            high: bytes[8] == 1,
        }
    }
}

/// One mark a job, and one count of units a job.
pub type Marks = [bool; MOST_JOBS];
pub type Units = [usize; MOST_JOBS];

/// A list that was tested. It is its bytes: fields are read where they stand.
pub struct List<'a> {
    jobs: &'a [[u8; JOB_BYTES]],
    edges: &'a [[u8; EDGE_BYTES]],
    pub slots: usize,
}

impl List<'_> {
    pub fn count(&self) -> usize {
        self.jobs.len()
    }

    pub fn job(&self, number: usize) -> Job {
        Job::of(&self.jobs[number])
    }

    /// The job that a table's entry names; none where it is idle.
    pub fn named(&self, entry: u8) -> Option<Job> {
        self.jobs.get(usize::from(entry)).map(Job::of)
    }

    pub fn jobs(&self) -> impl Iterator<Item = Job> + '_ {
        self.jobs.iter().map(Job::of)
    }

    pub fn edges(&self) -> impl Iterator<Item = (usize, usize)> + '_ {
        self.edges.iter().map(|&[before, after]| (usize::from(before), usize::from(after)))
    }
}

pub fn read(bytes: &[u8]) -> Result<List<'_>, Answer> {
    if bytes.len() < HEAD_BYTES {
        return Err(Answer::bare(40));
    }
    let counts = Counts::of(bytes);
    counts.test()?;
    if bytes.len() != counts.list_bytes() {
        return Err(Answer::bare(43));
    }
    let slots = counts.slots;
    let (jobs, edges) = bytes[HEAD_BYTES..].split_at(JOB_BYTES * counts.jobs);
    let list = List { jobs: jobs.as_chunks().0, edges: edges.as_chunks().0, slots };
    if word_at(bytes, 6) != 0 || list.jobs.iter().any(|job| job[9] != 0) {
        return Err(Answer::bare(44));
    }
    for (number, job) in list.jobs.iter().enumerate() {
        test_job(job).map_err(|no| Answer::at_job(no, number))?;
    }
    if list.jobs().map(|job| job.deadline).max() != Some(slots) {
        return Err(Answer::bare(3));
    }
    for number in 0..list.edges.len() {
        test_edge(&list, number).map_err(|no| Answer::at_edge(no, number))?;
    }
    if is_cyclic(&list) {
        return Err(Answer::bare(9));
    }
    Ok(list)
}

fn word_at(bytes: &[u8], at: usize) -> usize {
    usize::from(u16::from_le_bytes([bytes[at], bytes[at + 1]]))
}

/// The number of the refusal, if there is one.
fn test_job(bytes: &[u8; JOB_BYTES]) -> Result<(), usize> {
    let job = Job::of(bytes);
    if bytes[8] > 1 {
        return Err(6);
    }
    if job.deadline <= job.arrival || job.deadline > MOST_SLOTS {
        return Err(4);
    }
    let ordered = 1 <= job.clo && job.clo <= job.chi && job.chi <= MOST_UNITS;
    if !ordered || (!job.high && job.clo != job.chi) {
        return Err(5);
    }
    Ok(())
}

fn test_edge(list: &List, number: usize) -> Result<(), usize> {
    let [before, after] = list.edges[number];
    let rises = number == 0 || list.edges[number - 1] < [before, after];
    let (Some(first), Some(second)) = (list.named(before), list.named(after)) else {
        return Err(7);
    };
    if before == after || !rises {
        return Err(7);
    }
    if !first.high && second.high {
        return Err(8);
    }
    Ok(())
}

/// A job is alive where an edge comes from a job that was: on a cycle that never ends.
fn is_cyclic(list: &List) -> bool {
    let mut alive = [true; MOST_JOBS];
    for _ in 0..list.count() {
        let mut next = [false; MOST_JOBS];
        for (before, after) in list.edges() {
            if alive[before] {
                next[after] = true;
            }
        }
        alive = next;
    }
    alive[..list.count()].contains(&true)
}
