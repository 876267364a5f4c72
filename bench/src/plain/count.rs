//! The plain walk over a table's entries.

/// How many of the entries before a slot name a job.
pub fn entries_before(table: &[u8], job: usize, slot: usize) -> usize {
    table.iter().take(slot).filter(|&&entry| usize::from(entry) == job).count()
}
