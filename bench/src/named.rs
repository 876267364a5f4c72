//! The named lists, each with two tables. The proved calls make them, and plain Rust has to agree.

use std::collections::BTreeSet;

use crate::answer::{Answer, ABSENT};
use crate::hut;
use crate::plain::check::switches_at;
use crate::plain::list::{self, Job, List};
use crate::plain::plan::TRAILER_BYTES;
use crate::plain::IDLE;
use crate::random::Random;

pub const MOST_PLAN_BYTES: usize = 3216;

pub struct Named {
    pub name: &'static str,
    pub list: Vec<u8>,
    pub lo: Vec<u8>,
    pub hi: Vec<u8>,
    /// The built plan; none where the tables were spoilt.
    pub plan: Option<Vec<u8>>,
}

/// The first jobs are low, the others high; as many of these as there are switches have CHI > CLO.
struct Shape {
    jobs: usize,
    low: usize,
    slots: usize,
    edges: usize,
    switches: usize,
}

pub fn all() -> Vec<Named> {
    let largest = |switches| Shape { jobs: 64, low: 4, slots: 1024, edges: 256, switches };
    let middle = Shape { jobs: 16, low: 4, slots: 128, edges: 24, switches: 8 };
    let sixty = built("64 × 1,024 × 256, 60 switches", largest(60).draw(), 60);
    let (early, last) = (early_no(&sixty), last_no(&sixty));
    vec![
        built("small", small(), 2),
        built("16 × 128", middle.draw(), middle.switches),
        built("64 × 1,024 × 256, 0 switches", largest(0).draw(), 0),
        built("64 × 1,024 × 256, 32 switches", largest(32).draw(), 32),
        sixty,
        early,
        last,
    ]
}

/// The gate, the dish and the decoder of the README.
fn small() -> Vec<u8> {
    let gate = Job { arrival: 0, deadline: 6, high: true, clo: 2, chi: 4 };
    let dish = Job { arrival: 2, deadline: 16, high: true, clo: 3, chi: 6 };
    let decoder = Job { arrival: 0, deadline: 16, high: false, clo: 5, chi: 5 };
    bytes(&[gate, dish, decoder], &[(0, 1)])
}

fn bytes(jobs: &[Job], edges: &[(usize, usize)]) -> Vec<u8> {
    let slots = jobs.iter().map(|job| job.deadline).max().unwrap_or(0);
    let words = |four: [usize; 4]| four.map(|word| (word as u16).to_le_bytes()).concat();
    let mut bytes = words([jobs.len(), edges.len(), slots, 0]);
    for job in jobs {
        bytes.extend(words([job.arrival, job.deadline, job.clo, job.chi]));
        bytes.extend([u8::from(job.high), 0]);
    }
    bytes.extend(edges.iter().flat_map(|&(before, after)| [before as u8, after as u8]));
    bytes
}

impl Shape {
    /// With this seed, each shape above gives a list that builds.
    const SEED: u64 = 1;

    fn draw(&self) -> Vec<u8> {
        let mut random = Random::new(Shape::SEED);
        let jobs: Vec<Job> = (0..self.jobs).map(|number| self.job(&mut random, number)).collect();
        bytes(&jobs, &self.edges(&mut random))
    }

    /// Arrivals rise over seven eighths of the frame, at each level. Every draw is made for every
    /// job, so that the largest lists differ in CHI alone.
    fn job(&self, random: &mut Random, number: usize) -> Job {
        let share = self.slots / self.jobs;
        let window = random.within(self.slots / 6, self.slots / 3);
        let clo = random.within(share / 8, share / 2);
        let more = random.within(1, share / 4);
        let arrival_of = |place, count| self.slots * 7 / 8 * place / (count - 1);
        if number < self.low {
            let arrival = arrival_of(number, self.low);
            return Job { arrival, deadline: self.slots, high: false, clo: share, chi: share };
        }
        let (place, count) = (number - self.low, self.jobs - self.low);
        let arrival = arrival_of(place, count);
        let last = place + 1 == count;
        let deadline = if last { self.slots } else { self.slots.min(arrival + window) };
        // spread evenly
        let switches = (place + 1) * self.switches / count > place * self.switches / count;
        let chi = if switches { clo + more } else { clo };
        Job { arrival, deadline, high: true, clo, chi }
    }

    /// From a high job to one of the next ten, or now and then to a low job.
    fn edges(&self, random: &mut Random) -> Vec<(usize, usize)> {
        let mut edges = BTreeSet::new();
        while edges.len() < self.edges {
            let before = random.within(self.low, self.jobs - 2);
            let near = random.within(before + 1, (before + 10).min(self.jobs - 1));
            let after = if random.chance(10) { random.below(self.low) } else { near };
            edges.insert((before, after));
        }
        edges.into_iter().collect()
    }
}

fn built(name: &'static str, list: Vec<u8>, switches: usize) -> Named {
    let mut plan = vec![0; MOST_PLAN_BYTES];
    let answer = hut::build(&list, &mut plan);
    assert_eq!(answer.number, 0, "{name} does not build: {answer:?}");
    plan.truncate(answer.length);
    let tables = &plan[list.len()..plan.len() - TRAILER_BYTES];
    let (lo, hi) = tables.split_at(tables.len() / 2);
    let (lo, hi) = (lo.to_vec(), hi.to_vec());
    let named = Named { name, list, lo, hi, plan: Some(plan) };
    assert_eq!(named.switches().len(), switches, "{name} has other switches");
    named
}

impl Named {
    fn read(&self) -> List<'_> {
        list::read(&self.list).unwrap_or_else(|no| panic!("{} is no list: {no:?}", self.name))
    }

    fn switches(&self) -> Vec<usize> {
        let list = self.read();
        (0..list.slots).filter(|&slot| switches_at(&list, &self.lo, slot)).collect()
    }

    fn verdict(&self) -> Answer {
        hut::check(&self.list, &self.lo, &self.hi)
    }

    fn spoilt(&self, name: &'static str) -> Named {
        let (list, lo, hi) = (self.list.clone(), self.lo.clone(), self.hi.clone());
        Named { name, list, lo, hi, plan: None }
    }
}

/// Table LO names the last job in slot 0, long before it arrives.
fn early_no(sound: &Named) -> Named {
    let mut early = sound.spoilt("early no");
    let last = sound.read().count() - 1;
    early.lo[0] = last as u8;
    assert_eq!(early.verdict(), Answer::fault(11, 0, last, ABSENT));
    early
}

/// Table HI gives the last job its last unit too soon: between the last two switches. After any
/// switch but the last the job has enough units; after the last it is late, when the frame ends.
fn last_no(sound: &Named) -> Named {
    let (list, switches) = (sound.read(), sound.switches());
    let job = list.count() - 1;
    let [.., before, switch] = switches[..] else {
        panic!("{} has too few switches", sound.name);
    };
    let wanted = Answer::fault(10, list.slots, job, switch);
    let mut last = sound.spoilt("last no");
    let unit = last.hi.iter().rposition(|&entry| usize::from(entry) == job);
    last.hi[unit.expect("table HI has the last job")] = IDLE;
    for slot in before + 1..switch {
        let entry = std::mem::replace(&mut last.hi[slot], job as u8);
        if last.verdict() == wanted {
            return last;
        }
        last.hi[slot] = entry;
    }
    panic!("{} has no slot for a last no", sound.name);
}
