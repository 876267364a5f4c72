//! Questions to the count: tables made so that the count is known, and random ones.

use crate::plan::IDLE;
use crate::question::{near, Question, ENTRIES, MOST_WORD};
use crate::random::Random;
use crate::script::Script;

/// What a question may be about: each must come.
const KINDS: [(&str, fn(&Question) -> bool); 20] = [
    ("count in a table of no slots", |asked| asked.table.is_empty()),
    ("count in a table of more than 65,535 slots", |asked| asked.table.len() > MOST_WORD),
    ("slot 0", |asked| asked.slot == 0),
    ("slot inside of the table", |asked| (1..asked.table.len()).contains(&asked.slot)),
    ("slot at the table's end", |asked| asked.slot == asked.table.len()),
    ("slot past the table's end", |asked| asked.slot > asked.table.len()),
    ("slot 65535 past the table's end", |asked| {
        asked.slot == MOST_WORD && asked.table.len() < MOST_WORD
    }),
    ("slot 65535 inside of the table", |asked| {
        asked.slot == MOST_WORD && asked.table.len() > MOST_WORD
    }),
    ("job 255, which is idle", |asked| asked.job == IDLE.into() && asked.count() > 0),
    ("job over 255", |asked| asked.job >= ENTRIES),
    ("job over 255 whose lower byte is counted", |asked| {
        asked.job >= ENTRIES && asked.count_of(asked.job % ENTRIES) > 0
    }),
    ("job 65535, with idle entries", |asked| {
        asked.job == MOST_WORD && asked.count_of(IDLE.into()) > 0
    }),
    ("job in the first slot alone", |asked| asked.is_alone_at(0)),
    ("job in the slot before alone", |asked| asked.slot > 0 && asked.is_alone_at(asked.slot - 1)),
    ("job in the slot itself alone", |asked| asked.is_alone_at(asked.slot)),
    ("count of 0", |asked| asked.count() == 0),
    ("count of 1 to 254", |asked| (1..255).contains(&asked.count())),
    ("count of 255", |asked| asked.count() == 255),
    ("count of 256 and more", |asked| asked.count() >= 256),
    ("count of 65,535", |asked| asked.count() == MOST_WORD),
];

/// At and around the sizes of blocks that a count may go by, and 255 blocks of 16: a byte counts
/// no further. The last are the longest table that a SLOT can end, and the longest that can be read.
const LENGTHS: [usize; 46] = [
    1, 2, 7, 8, 9, 15, 16, 17, 31, 32, 33, 63, 64, 65, 127, 128, 129, 191, 192, 193, 223, 224, 225,
    239, 240, 241, 254, 255, 256, 257, 447, 448, 449, 509, 510, 511, 512, 1023, 1024, 1025, 4079,
    4080, 4081, 4097, 65_535, 65_536,
];

/// A question, and its count as the table was made for it.
type Known = (Question, usize);

/// `count` random questions besides the known ones.
pub fn make(seed: u64, count: usize) -> (Script, Result<(), String>) {
    let mut random = Random::new(seed);
    let mut script = Script::new();
    let mut outcome = Ok(());
    let mut asked = Vec::new();
    for (question, count) in known(&mut random) {
        let answer = format!("0 count={count}");
        let own = script.ask_by_hand(&question.request(), &answer);
        if own != answer {
            let Question { table, job, slot } = &question;
            let asked = format!("{} slots, job {job}, slot {slot}", table.len());
            outcome = Err(format!("{asked}\n  known:    {answer}\n  answered: {own}"));
        }
        asked.push(question);
    }
    for _ in 0..count {
        asked.push(Question::any(&mut random));
        script.ask(&asked[asked.len() - 1].request());
    }
    for (kind, is_of) in KINDS {
        let came = asked.iter().filter(|question| is_of(question)).count();
        println!("{came:>7}  {kind}");
        if came == 0 {
            outcome = outcome.and(Err(format!("never came: {kind}")));
        }
    }
    (script, outcome)
}

/// A random question among other requests.
pub fn request(script: &mut Script, random: &mut Random) {
    script.ask(&Question::any(random).request());
}

fn known(random: &mut Random) -> Vec<Known> {
    let mut known = in_no_slot();
    known.extend(before_every_slot());
    for (length, entry) in LENGTHS.into_iter().zip([0, 1, 63, 254, IDLE].into_iter().cycle()) {
        known.extend(in_every_slot(length, entry));
        for place in [0, length / 2, length - 1] {
            known.extend(in_one_slot(length, place, entry, near(random, entry)));
        }
    }
    known
}

fn in_no_slot() -> Vec<Known> {
    let jobs = [0, 1, IDLE.into(), ENTRIES, MOST_WORD];
    let asked = |job| [0, 1, MOST_WORD].map(|slot| (Question { table: Vec::new(), job, slot }, 0));
    jobs.into_iter().flat_map(asked).collect()
}

/// Each seventh entry is the job's, in a table of more than two blocks of 256.
fn before_every_slot() -> Vec<Known> {
    let table: Vec<u8> = (0..=75).flat_map(|_| [5, 0, 1, 2, 3, 4, 6]).collect();
    let asked = |slot: usize| {
        let count = slot.min(table.len()).div_ceil(7);
        (Question { table: table.clone(), job: 5, slot }, count)
    };
    (0..table.len() + 3).map(asked).collect()
}

/// One entry in all slots. A job that only has the entry as its lower byte stands in none.
fn in_every_slot(length: usize, entry: u8) -> Vec<Known> {
    let asked = |over: usize, slot: usize| {
        let (job, slot) = (usize::from(entry) + ENTRIES * over, slot.min(MOST_WORD));
        let count = if over == 0 { slot.min(length) } else { 0 };
        (Question { table: vec![entry; length], job, slot }, count)
    };
    let slots = [0, 1, length / 2, length - 1, length, length + 1, MOST_WORD];
    let over_a_byte = [1, 255].map(|over| asked(over, length));
    slots.map(|slot| asked(0, slot)).into_iter().chain(over_a_byte).collect()
}

/// One entry alone among others of one kind: it is counted, and so are the others.
fn in_one_slot(length: usize, place: usize, entry: u8, other: u8) -> Vec<Known> {
    let mut table = vec![other; length];
    table[place] = entry;
    let asked = |slot: usize| {
        let slot = slot.min(MOST_WORD);
        let alone = usize::from(place < slot);
        [(entry, alone), (other, slot.min(length) - alone)]
            .map(|(job, count)| (Question { table: table.clone(), job: job.into(), slot }, count))
    };
    [place, place + 1, MOST_WORD].into_iter().flat_map(asked).collect()
}
