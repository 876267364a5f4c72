//! The job list, its bytes, and when the desk refuses it ("The job list", "Plan bytes").

pub use crate::limits::{MOST_EDGES, MOST_JOBS, MOST_SLOTS, MOST_UNITS};
use crate::refusal::Refusal;

pub const HEAD_BYTES: usize = 8;
pub const JOB_BYTES: usize = 10;

#[derive(Clone, Copy)]
pub struct Job {
    pub arrival: usize,
    pub deadline: usize,
    pub clo: usize,
    pub chi: usize,
    pub high: bool,
}

#[derive(Clone)]
pub struct List {
    pub jobs: Vec<Job>,
    pub edges: Vec<(usize, usize)>,
    /// The frame length L.
    pub length: usize,
}

impl List {
    pub fn predecessors(&self, job: usize) -> impl Iterator<Item = usize> + '_ {
        self.edges.iter().filter(move |edge| edge.1 == job).map(|edge| edge.0)
    }

    pub fn successors(&self, job: usize) -> impl Iterator<Item = usize> + '_ {
        self.edges.iter().filter(move |edge| edge.0 == job).map(|edge| edge.1)
    }

    pub fn plan_size(&self) -> usize {
        plan_size(self.jobs.len(), self.edges.len(), self.length)
    }

    pub fn bytes(&self) -> Vec<u8> {
        let mut bytes = Vec::new();
        for word in [self.jobs.len(), self.edges.len(), self.length, 0] {
            put_word(&mut bytes, word);
        }
        for job in &self.jobs {
            for word in [job.arrival, job.deadline, job.clo, job.chi] {
                put_word(&mut bytes, word);
            }
            bytes.extend([u8::from(job.high), 0]);
        }
        for &(before, after) in &self.edges {
            bytes.extend([before as u8, after as u8]);
        }
        bytes
    }
}

fn put_word(bytes: &mut Vec<u8>, word: usize) {
    bytes.extend((word as u16).to_le_bytes());
}

fn word_at(bytes: &[u8], at: usize) -> usize {
    usize::from(u16::from_le_bytes([bytes[at], bytes[at + 1]]))
}

fn list_size(jobs: usize, edges: usize) -> usize {
    HEAD_BYTES + JOB_BYTES * jobs + 2 * edges
}

fn plan_size(jobs: usize, edges: usize, length: usize) -> usize {
    list_size(jobs, edges) + 2 * length + 8
}

/// The counts at the front of a list or plan, each within its range.
pub struct Head {
    pub jobs: usize,
    pub edges: usize,
    pub length: usize,
}

impl Head {
    /// Rows 1, 2 and 3, of which row 3 looks at the range of L alone: the jobs are not read yet.
    pub fn read(bytes: &[u8]) -> Result<Head, Refusal> {
        let head =
            Head { jobs: word_at(bytes, 0), edges: word_at(bytes, 2), length: word_at(bytes, 4) };
        if !(1..=MOST_JOBS).contains(&head.jobs) {
            return Err(Refusal::bare(1));
        }
        if head.edges > MOST_EDGES {
            return Err(Refusal::bare(2));
        }
        if !(1..=MOST_SLOTS).contains(&head.length) {
            return Err(Refusal::bare(3));
        }
        Ok(head)
    }

    pub fn list_size(&self) -> usize {
        list_size(self.jobs, self.edges)
    }

    pub fn plan_size(&self) -> usize {
        plan_size(self.jobs, self.edges, self.length)
    }
}

pub fn read(bytes: &[u8]) -> Result<List, Refusal> {
    if bytes.len() < HEAD_BYTES {
        return Err(Refusal::bare(40));
    }
    let head = Head::read(bytes)?;
    if bytes.len() != head.list_size() {
        return Err(Refusal::bare(43));
    }
    read_body(bytes, &head)
}

/// Row 44 and on. `bytes` may be a whole plan: nothing past the edges is looked at.
pub fn read_body(bytes: &[u8], head: &Head) -> Result<List, Refusal> {
    if !zero_fields_are_zero(bytes, head) {
        return Err(Refusal::bare(44));
    }
    let mut jobs = Vec::new();
    for number in 0..head.jobs {
        let at = HEAD_BYTES + JOB_BYTES * number;
        let job = read_job(&bytes[at..at + JOB_BYTES]).map_err(|no| Refusal::at_job(no, number))?;
        jobs.push(job);
    }
    if jobs.iter().map(|job| job.deadline).max() != Some(head.length) {
        return Err(Refusal::bare(3));
    }
    let edges = read_edges(&bytes[list_size(head.jobs, 0)..head.list_size()], &jobs)?;
    let list = List { jobs, edges, length: head.length };
    if has_cycle(&list) {
        return Err(Refusal::bare(9));
    }
    Ok(list)
}

fn zero_fields_are_zero(bytes: &[u8], head: &Head) -> bool {
    let of_job = |job| bytes[HEAD_BYTES + JOB_BYTES * job + 9];
    word_at(bytes, 6) == 0 && (0..head.jobs).all(|job| of_job(job) == 0)
}

/// One job, or the number of the refusal.
fn read_job(bytes: &[u8]) -> Result<Job, usize> {
    let job = Job {
        arrival: word_at(bytes, 0),
        deadline: word_at(bytes, 2),
        clo: word_at(bytes, 4),
        chi: word_at(bytes, 6),
        high: bytes[8] == 1,
    };
    if bytes[8] > 1 {
        return Err(6);
    }
    if job.arrival >= job.deadline || job.deadline > MOST_SLOTS {
        return Err(4);
    }
    let ordered = 1 <= job.clo && job.clo <= job.chi && job.chi <= MOST_UNITS;
    if !ordered || (!job.high && job.clo != job.chi) {
        return Err(5);
    }
    Ok(job)
}

fn read_edges(bytes: &[u8], jobs: &[Job]) -> Result<Vec<(usize, usize)>, Refusal> {
    let mut edges: Vec<(usize, usize)> = Vec::new();
    for pair in bytes.chunks(2) {
        let (before, after) = (usize::from(pair[0]), usize::from(pair[1]));
        let number = edges.len();
        let known = before < jobs.len() && after < jobs.len();
        let rising = edges.last().is_none_or(|&last| last < (before, after));
        if !known || before == after || !rising {
            return Err(Refusal::at_edge(7, number));
        }
        if !jobs[before].high && jobs[after].high {
            return Err(Refusal::at_edge(8, number));
        }
        edges.push((before, after));
    }
    Ok(edges)
}

/// Takes away, one by one, jobs that no job still there must precede: what a cycle holds stays.
fn has_cycle(list: &List) -> bool {
    let mut left: Vec<usize> = (0..list.jobs.len()).collect();
    loop {
        let free = |&job: &usize| !list.predecessors(job).any(|before| left.contains(&before));
        match left.iter().position(free) {
            Some(place) => left.remove(place),
            None => return !left.is_empty(),
        };
    }
}
