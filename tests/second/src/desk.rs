//! Answers requests, a line each, as the proved program `answers` must.
//!
//! What the protocol leaves open is settled so:
//! - A line is what stands before its newline; the last one may lack it. Any byte may be in it.
//! - Fields are what stands between single blanks, so two blanks, or one at either end of the line,
//!   make an empty field; an empty field cannot be read, and no bytes are `-` alone.
//! - A number is decimal digits, one or more; leading zeros are allowed. ENDED is a number too.
//! - Bytes are at most 65,536, a line at most 400,000 bytes without its newline.

use std::slice::from_mut;

use crate::build;
use crate::check;
use crate::count;
use crate::dispatch;
use crate::fields::{bytes, hex, mark, number, word};
use crate::list::{self, MOST_JOBS};
use crate::plan;
use crate::refusal::Refusal;
use crate::state::State;
use crate::store::Store;

pub const MOST_LINE: usize = 400_000;
pub const MOST_ROOM: usize = 4_096;
/// What lent memory holds before the call.
pub const LENT: u8 = 0xaa;

/// The answer to a line that cannot be read.
pub const UNREADABLE: &str = "?";

/// What the requests are about: the dispatcher's state and the log's store.
pub struct Desk {
    pub state: State,
    pub store: Store,
}

impl Desk {
    pub fn new() -> Desk {
        Desk { state: State::zero(), store: Store::new() }
    }

    pub fn answer(&mut self, line: &[u8]) -> String {
        let readable = line.len() <= MOST_LINE;
        let answer = if readable { self.answer_fields(line) } else { None };
        answer.unwrap_or_else(|| UNREADABLE.to_string())
    }

    fn answer_fields(&mut self, line: &[u8]) -> Option<String> {
        let fields: Vec<&[u8]> = line.split(|&byte| byte == b' ').collect();
        match fields[..] {
            [b"list", list] => Some(said(&list::read(&bytes(list)?))),
            [b"check", list, lo, hi] => {
                Some(said(&check::check(&bytes(list)?, &bytes(lo)?, &bytes(hi)?)))
            }
            [b"write", list, lo, hi, room] => {
                let (list, lo, hi) = (bytes(list)?, bytes(lo)?, bytes(hi)?);
                lend(room, |out| plan::write(&list, &lo, &hi, out))
            }
            [b"build", list, room] => {
                let list = bytes(list)?;
                lend(room, |out| build::build(&list, out))
            }
            [b"read", plan] => Some(read(&bytes(plan)?)),
            [b"open", plan, first] => Some(self.open(&bytes(plan)?, word(first)?)),
            [b"step", tick, ended] => Some(self.step(word(tick)?, mark(ended)?)),
            [b"poke", field, index, value] => {
                poke(&mut self.state, field, word(index)?.into(), word(value)?)?;
                Some(format!("0{}", shown(&self.state)))
            }
            [b"count", table, job, slot] => {
                let count = count::before(&bytes(table)?, word(job)?.into(), word(slot)?.into());
                Some(format!("0 count={count}"))
            }
            _ => self.store.answer(&fields),
        }
    }

    fn open(&mut self, plan: &[u8], first: u16) -> String {
        let (answer, state) = dispatch::open(plan, first);
        self.state = state;
        said(&answer) + &shown(&self.state)
    }

    fn step(&mut self, tick: u16, ended: bool) -> String {
        let answer = self.state.step(tick, ended);
        let order = answer.map_or(String::new(), |job| format!(" order={job}"));
        said(&answer) + &order + &shown(&self.state)
    }
}

/// The number and its place, 0 for yes.
pub fn said<T>(answer: &Result<T, Refusal>) -> String {
    answer.as_ref().map_or_else(Refusal::to_string, |_| "0".to_string())
}

/// Lends ROOM bytes to the call and shows all of them afterwards.
fn lend(room: &[u8], call: impl Fn(&mut [u8]) -> Result<(), Refusal>) -> Option<String> {
    let mut out = vec![LENT; number(room, MOST_ROOM)?];
    let answer = call(&mut out);
    Some(format!("{} out={}", said(&answer), hex(&out)))
}

fn read(bytes: &[u8]) -> String {
    match plan::read(bytes) {
        Ok(plan) => {
            format!("0 list={} lo={} hi={}", hex(plan.list_bytes), hex(plan.lo), hex(plan.hi))
        }
        Err(no) => no.to_string(),
    }
}

fn shown(state: &State) -> String {
    let jobs = usize::from(state.n);
    if !(1..=MOST_JOBS).contains(&jobs) {
        return " | -".to_string();
    }
    let marks = |places: &[u8]| {
        let places: Vec<u16> = places[..jobs].iter().map(|&mark| u16::from(mark != 0)).collect();
        row(&places)
    };
    format!(
        " | slot={} tick={} ordered={} high={} halted={} units={} done={} cut={}",
        state.slot,
        state.tick,
        state.ordered,
        u8::from(state.high != 0),
        u8::from(state.halted != 0),
        row(&state.units[..jobs]),
        marks(&state.done),
        marks(&state.cut),
    )
}

fn row(places: &[u16]) -> String {
    let places: Vec<String> = places.iter().map(u16::to_string).collect();
    places.join(",")
}

/// Sets one field; nothing happens where the field, the place or the value does not exist.
fn poke(state: &mut State, field: &[u8], index: usize, value: u16) -> Option<()> {
    let set_word = |places: &mut [u16]| places.get_mut(index).map(|place| *place = value);
    let set_byte = |places: &mut [u8]| {
        let value = u8::try_from(value).ok()?;
        places.get_mut(index).map(|place| *place = value)
    };
    match field {
        b"l" => set_word(from_mut(&mut state.l)),
        b"n" => set_word(from_mut(&mut state.n)),
        b"m" => set_word(from_mut(&mut state.m)),
        b"slot" => set_word(from_mut(&mut state.slot)),
        b"tick" => set_word(from_mut(&mut state.tick)),
        b"ordered" => set_byte(from_mut(&mut state.ordered)),
        b"high" => set_byte(from_mut(&mut state.high)),
        b"halted" => set_byte(from_mut(&mut state.halted)),
        b"lo" => set_byte(&mut state.lo),
        b"hi" => set_byte(&mut state.hi),
        b"arrival" => set_word(&mut state.arrival),
        b"deadline" => set_word(&mut state.deadline),
        b"clo" => set_word(&mut state.clo),
        b"chi" => set_word(&mut state.chi),
        b"level" => set_byte(&mut state.level),
        b"from" => set_byte(&mut state.from),
        b"to" => set_byte(&mut state.to),
        b"units" => set_word(&mut state.units),
        b"done" => set_byte(&mut state.done),
        b"cut" => set_byte(&mut state.cut),
        _ => None,
    }
}
