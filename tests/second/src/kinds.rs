//! The kinds of verdict, and small lists drawn so that each kind comes often.

use crate::build;
use crate::check;
use crate::damage;
use crate::list::List;
use crate::lists;
use crate::plan;
use crate::random::Random;
use crate::refusal::{Refusal, NO_SWITCH};

pub const VERDICTS: [&str; 8] = [
    "yes, and no switch exists",
    "yes, with a switch",
    "10 without a switch",
    "10 after a switch",
    "11 without a switch",
    "11 after a switch",
    "12 without a switch",
    "12 after a switch",
];

/// The answers of the builder once its output is long enough.
const BUILDS: [usize; 6] = [0, 20, 21, 22, 23, 24];

/// The rarest kind comes once in a thousand draws.
const DRAWS: usize = 3000;

/// A list and two tables of its length.
pub struct Case {
    pub list: List,
    pub lo: Vec<u8>,
    pub hi: Vec<u8>,
}

impl Case {
    pub fn verdict(&self) -> Result<(), Refusal> {
        check::search(&self.list, &self.lo, &self.hi)
    }

    pub fn kind(&self) -> &'static str {
        let mut slots = 0..self.list.length;
        match self.verdict() {
            Ok(()) => {
                let exists = slots.any(|slot| check::switches_at(&self.list, &self.lo, slot));
                VERDICTS[usize::from(exists)]
            }
            Err(fault) => {
                let after = fault.switch != Some(NO_SWITCH);
                VERDICTS[2 + 2 * (fault.number - 10) + usize::from(after)]
            }
        }
    }
}

fn draw_until<T>(make: &mut dyn FnMut() -> T, wanted: impl Fn(&T) -> bool) -> T {
    let mut made = make();
    for _ in 0..DRAWS {
        if wanted(&made) {
            break;
        }
        made = make();
    }
    made
}

fn small_case(random: &mut Random) -> Case {
    let list = lists::small(random);
    let (lo, hi) = lists::tables(random, &list);
    Case { list, lo, hi }
}

pub fn case_of_kind(random: &mut Random, kind: &str) -> Case {
    draw_until(&mut || small_case(random), |case| case.kind() == kind)
}

/// As it comes, or of a kind that was chosen before.
pub fn case(random: &mut Random) -> Case {
    if random.chance(50) {
        return small_case(random);
    }
    let kind = random.pick(&VERDICTS);
    case_of_kind(random, kind)
}

/// An accepted plan of a small list, mostly with a switch.
pub fn small_plan(random: &mut Random) -> Vec<u8> {
    let kind = random.pick(&[VERDICTS[0], VERDICTS[1], VERDICTS[1]]);
    let Case { list, lo, hi } = case_of_kind(random, kind);
    plan::compose(&list.bytes(), &lo, &hi)
}

/// The bytes of a small plan that the reader refuses, with the number as the aim.
pub fn refused_plan(random: &mut Random, number: &str) -> Vec<u8> {
    let refused =
        |bytes: &Vec<u8>| plan::read(bytes).is_err_and(|no| no.number.to_string() == number);
    let mut damaged = || {
        let case = if random.chance(20) { ring_case(random) } else { small_case(random) };
        damage::plan_of(random, case)
    };
    draw_until(&mut damaged, refused)
}

/// A list with a ring of edges, and tables of its length.
pub fn ring_case(random: &mut Random) -> Case {
    let list = lists::with_a_ring(random);
    let (lo, hi) = (vec![0; list.length], vec![0; list.length]);
    Case { list, lo, hi }
}

/// A small list for the builder, with each of its answers as the aim.
pub fn list_to_build(random: &mut Random) -> List {
    let wanted = random.pick(&BUILDS);
    let answer = |list: &List| match built(list) {
        Ok(_) => 0,
        Err(no) => no.number,
    };
    draw_until(&mut || lists::small(random), |list| answer(list) == wanted && telling(list))
}

/// Jobs enough to get into each other's way.
fn telling(list: &List) -> bool {
    list.jobs.len() > 2 && list.jobs.iter().any(|job| job.chi > job.clo)
}

/// A list of any size that the builder makes a plan of.
pub fn list_that_builds(random: &mut Random) -> List {
    draw_until(&mut || lists::any(random), |list| built(list).is_ok())
}

/// The whole plan that the builder makes.
pub fn built(list: &List) -> Result<Vec<u8>, Refusal> {
    let mut out = vec![0; list.plan_size()];
    build::build(&list.bytes(), &mut out).map(|()| out)
}
