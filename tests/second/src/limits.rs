//! The limits of document 01, and the table entry for no job. The bench has them from here too.

pub const MOST_JOBS: usize = 64;
pub const MOST_EDGES: usize = 256;
pub const MOST_SLOTS: usize = 1024;
pub const MOST_UNITS: usize = 1024;

/// The table entry for no job.
pub const IDLE: u8 = 255;
