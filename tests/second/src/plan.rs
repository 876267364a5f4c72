//! Plans: reading and writing their bytes ("Plan bytes").

use crate::check;
pub use crate::limits::IDLE;
use crate::list::{self, Head, List};
use crate::refusal::Refusal;

const MARK: [u8; 4] = [0x54, 0x54, 0x50, 0x31];
pub const TRAILER_BYTES: usize = 8;
const LEAST_BYTES: usize = 16;

/// An accepted plan and the parts of its bytes.
pub struct Plan<'a> {
    pub list: List,
    pub list_bytes: &'a [u8],
    pub lo: &'a [u8],
    pub hi: &'a [u8],
}

pub fn read(bytes: &[u8]) -> Result<Plan<'_>, Refusal> {
    if bytes.len() < LEAST_BYTES {
        return Err(Refusal::bare(40));
    }
    let (front, trailer) = bytes.split_at(bytes.len() - TRAILER_BYTES);
    if trailer[4..] != MARK {
        return Err(Refusal::bare(41));
    }
    if distance(trailer) != front.len() {
        return Err(Refusal::bare(42));
    }
    let head = Head::read(bytes)?;
    if bytes.len() != head.plan_size() {
        return Err(Refusal::bare(43));
    }
    let list = list::read_body(bytes, &head)?;
    let (list_bytes, tables) = front.split_at(head.list_size());
    let (lo, hi) = tables.split_at(head.length);
    check::tables(&list, lo, hi)?;
    Ok(Plan { list, list_bytes, lo, hi })
}

/// How far back from a trailer its plan begins.
pub fn distance(trailer: &[u8]) -> usize {
    u32::from_le_bytes([trailer[0], trailer[1], trailer[2], trailer[3]]) as usize
}

/// The bytes of a plan, accepted or not.
pub fn compose(list: &[u8], lo: &[u8], hi: &[u8]) -> Vec<u8> {
    let mut bytes = [list, lo, hi].concat();
    let back = bytes.len() as u32;
    bytes.extend(back.to_le_bytes());
    bytes.extend(MARK);
    bytes
}

/// Writes at the front of `out`, or leaves it as it was.
pub fn write(list: &[u8], lo: &[u8], hi: &[u8], out: &mut [u8]) -> Result<(), Refusal> {
    check::check(list, lo, hi)?;
    let plan = compose(list, lo, hi);
    match out.get_mut(..plan.len()) {
        Some(front) => front.copy_from_slice(&plan),
        None => return Err(Refusal::bare(46)),
    }
    Ok(())
}
