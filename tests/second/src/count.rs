//! Request 2026-03: how many entries of a job stand before a slot.

/// The slots where a job stands, in rising order. A number over 255 stands nowhere.
pub fn slots_of(table: &[u8], job: usize) -> Vec<usize> {
    (0..table.len()).filter(|&slot| usize::from(table[slot]) == job).collect()
}

/// How many of these come before a slot: all of them, where it is past the table.
pub fn before(table: &[u8], job: usize, slot: usize) -> usize {
    slots_of(table, job).partition_point(|&stands| stands < slot)
}
