//! What a call answers, as include/hut.h lays it out: a number, 0 for yes, and its place.

pub const ABSENT: usize = 65535;

#[repr(C)]
#[derive(Clone, Copy, Debug, PartialEq, Eq)]
pub struct Place {
    pub fault: usize,
    pub slot: usize,
    pub job: usize,
    pub pred: usize,
    pub switched: usize,
    pub edge: usize,
}

#[repr(C)]
#[derive(Clone, Copy, Debug, PartialEq, Eq)]
pub struct Answer {
    pub number: usize,
    pub place: Place,
    pub order: usize,
    pub length: usize,
}

/// What the log answers: on yes where the plan begins in the store, and its bytes.
#[repr(C)]
#[derive(Clone, Copy, Debug, PartialEq, Eq)]
pub struct LogAnswer {
    pub answer: Answer,
    pub at: usize,
    pub bytes: usize,
}

impl LogAnswer {
    pub fn plan_at(at: usize, bytes: usize) -> LogAnswer {
        LogAnswer { answer: YES, at, bytes }
    }

    pub fn no(answer: Answer) -> LogAnswer {
        LogAnswer { answer, at: ABSENT, bytes: ABSENT }
    }
}

const NOWHERE: Place = Place {
    fault: ABSENT,
    slot: ABSENT,
    job: ABSENT,
    pred: ABSENT,
    switched: ABSENT,
    edge: ABSENT,
};

pub const YES: Answer = Answer::bare(0);

impl Answer {
    pub const fn bare(number: usize) -> Answer {
        Answer::at(number, NOWHERE)
    }

    const fn at(number: usize, place: Place) -> Answer {
        Answer { number, place, order: ABSENT, length: ABSENT }
    }

    pub fn at_job(number: usize, job: usize) -> Answer {
        Answer::at(number, Place { job, ..NOWHERE })
    }

    pub fn at_edge(number: usize, edge: usize) -> Answer {
        Answer::at(number, Place { edge, ..NOWHERE })
    }

    pub fn at_slot(number: usize, slot: usize) -> Answer {
        Answer::at(number, Place { slot, ..NOWHERE })
    }

    pub fn late(number: usize, slot: usize, job: usize) -> Answer {
        Answer::at(number, Place { slot, job, ..NOWHERE })
    }

    pub fn fault(number: usize, slot: usize, job: usize, switched: usize) -> Answer {
        Answer::at(number, Place { slot, job, switched, ..NOWHERE })
    }

    pub fn plan_of(length: usize) -> Answer {
        Answer { length, ..YES }
    }

    pub fn order_of(order: usize) -> Answer {
        Answer { order, ..YES }
    }
}
