//! A no of documents 01 and 02: its number, and the place that goes with it.

use std::fmt;

/// The switch slot of a fault that was found with no switch made.
pub const NO_SWITCH: usize = 65535;

#[derive(Clone, Copy, Debug, Default, PartialEq, Eq)]
pub struct Refusal {
    pub number: usize,
    pub fault: Option<usize>,
    pub slot: Option<usize>,
    pub job: Option<usize>,
    pub pred: Option<usize>,
    pub switch: Option<usize>,
    pub edge: Option<usize>,
}

impl Refusal {
    pub fn bare(number: usize) -> Refusal {
        Refusal { number, ..Refusal::default() }
    }

    pub fn at_slot(number: usize, slot: usize) -> Refusal {
        Refusal { slot: Some(slot), ..Refusal::bare(number) }
    }

    pub fn at_job(number: usize, job: usize) -> Refusal {
        Refusal { job: Some(job), ..Refusal::bare(number) }
    }

    pub fn at_edge(number: usize, edge: usize) -> Refusal {
        Refusal { edge: Some(edge), ..Refusal::bare(number) }
    }
}

impl fmt::Display for Refusal {
    fn fmt(&self, out: &mut fmt::Formatter) -> fmt::Result {
        write!(out, "{}", self.number)?;
        let places = [
            ("fault", self.fault),
            ("slot", self.slot),
            ("job", self.job),
            ("pred", self.pred),
            ("switch", self.switch),
            ("edge", self.edge),
        ];
        for (name, value) in places {
            if let Some(value) = value {
                write!(out, " {name}={value}")?;
            }
        }
        Ok(())
    }
}
