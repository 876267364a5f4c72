//! The cases that document 01 works on paper, one for 24, a session with the log of request
//! 2026-01, some with 36 of request 2026-02 and some counts of request 2026-03, with answers written
//! by hand.

use crate::script::Script;

/// List A: job 0 (0, 5, high, 1, 3), job 1 (0, 3, low, 2, 2).
const A: &str = "02000000050000000000050001000300010000000300020002000000";
/// List A with edge (0, 1).
const A_EDGE: &str = "020001000500000000000500010003000100000003000200020000000001";
/// The whole plan of P1.
const P1: &str = "02000000050000000000050001000300010000000300020002000000\
                  010100ffff01010000002600000054545031";

fn cases() -> Vec<(String, String)> {
    let mut cases = builds();
    cases.extend(checks());
    cases.extend(steps());
    cases.extend(half_away());
    cases.extend(log());
    cases.extend(counts());
    cases
}

fn refused(no: &str, room: usize) -> String {
    format!("{no} out={}", "aa".repeat(room))
}

fn builds() -> Vec<(String, String)> {
    let p2 = "02000000040000000000040001000300010000000300020002000000";
    let p3 = "02000000030000000000030001000300010000000300020002000000";
    let p4 = "02000000030000000000030001000300010000000200020002000000";
    let p5 = "02000000040000000000040002000400010000000200020002000000";
    let p7 = "020001000500000000000500010003000100000003000200020000000100";
    // (1, 3, high, 1, 1), (0, 5, high, 1, 3): LO 1 0 - - - and HI 1 1 1 0 -
    let failing = "02000000050000000100030001000100010000000500010003000100";
    vec![
        // P1 to P7
        (format!("build {A} 46"), format!("0 out={P1}")),
        (format!("build {p2} 44"), format!("0 out={p2}010001ff010000002400000054545031")),
        (format!("build {p3} 42"), format!("0 out={p3}0001010000002200000054545031")),
        (format!("build {p4} 42"), refused("22 slot=0", 42)),
        (format!("build {p5} 44"), refused("22 slot=0", 44)),
        (
            format!("build {A_EDGE} 48"),
            format!("0 out={A_EDGE}000101ffff000000ffff2800000054545031"),
        ),
        (format!("build {p7} 48"), refused("8 edge=0", 48)),
        (format!("list {p7}"), "8 edge=0".to_string()),
        // a pair that is built, and fails the check
        (format!("build {failing} 46"), refused("24 fault=10 slot=3 job=0 switch=0", 46)),
        // the whole plan is read, and written, as it stands on the paper
        (format!("read {P1}"), format!("0 list={A} lo=010100ffff hi=0101000000")),
        (format!("write {A} 010100ffff 0101000000 48"), format!("0 out={P1}aaaa")),
    ]
}

fn checks() -> Vec<(String, String)> {
    let budgets_3_3 = "02000000050000000000050003000300010000000300020002000000";
    let cases = [
        // P1's pair, P8, P9, P10, and the case that has no number
        (format!("check {A} 010100ffff 0101000000"), "0"),
        (format!("check {A} 010100ffff 000000ffff"), "10 slot=5 job=0 switch=2"),
        (format!("check {A_EDGE} 010100ffff ffffffffff"), "12 slot=0 job=1 pred=0 switch=65535"),
        (format!("check {A} 01010000ff 0101000000"), "0"),
        (format!("check {budgets_3_3} 0101000000 ffffffffff"), "0"),
    ];
    cases.map(|(request, answer)| (request, answer.to_string())).to_vec()
}

/// The counts and marks of P1's two jobs: before any unit is booked, and with one of job 1.
const FRESH: &str = "units=0,0 done=0,0 cut=0,0";
const ONE_UNIT: &str = "units=0,1 done=0,0 cut=0,0";

/// The state as it is shown, in mode LO.
fn state(slot: u16, tick: u16, ordered: u8, halted: u8, jobs: &str) -> String {
    format!(" | slot={slot} tick={tick} ordered={ordered} high=0 halted={halted} {jobs}")
}

/// P11, then P12 as request 2026-02 amends it, and 32,769 beside it: each of these ticks is tried
/// on a dispatcher opened for it.
fn steps() -> Vec<(String, String)> {
    let mut cases = vec![
        (format!("open {P1} 65535"), "0".to_string() + &state(4, 65534, 255, 0, FRESH)),
        ("step 65535 0".to_string(), "0 order=1".to_string() + &state(0, 65535, 1, 0, FRESH)),
        ("step 0 0".to_string(), "0 order=1".to_string() + &state(1, 0, 1, 0, ONE_UNIT)),
    ];
    for (tick, no, halted) in [(32767, 31, 1), (32768, 36, 1), (32769, 33, 0), (65535, 33, 0)] {
        cases.push((format!("open {P1} 0"), "0".to_string() + &state(4, 65535, 255, 0, FRESH)));
        cases.push(("step 0 0".to_string(), "0 order=1".to_string() + &state(0, 0, 1, 0, FRESH)));
        cases.push((format!("step {tick} 0"), no.to_string() + &state(0, 0, 1, halted, FRESH)));
    }
    cases
}

/// 36 beside what else a step may say, each where both hold, and what becomes of an end.
fn half_away() -> Vec<(String, String)> {
    // one job (0, 1, high, 1, 1), named by both tables
    let one_job = "01000000010000000000010001000100010000001400000054545031";
    let fresh = "units=0 done=0 cut=0";
    let cases = [
        // no job is ordered, and an end is signalled: 37 comes before 36, 34 after it
        (format!("open {P1} 0"), "0", state(4, 65535, 255, 0, FRESH)),
        ("poke slot 0 5".to_string(), "0", state(5, 65535, 255, 0, FRESH)),
        ("step 32767 1".to_string(), "37", state(5, 65535, 255, 0, FRESH)),
        ("poke slot 0 4".to_string(), "0", state(4, 65535, 255, 0, FRESH)),
        ("step 0 1".to_string(), "34", state(4, 65535, 255, 0, FRESH)),
        ("step 32767 1".to_string(), "36", state(4, 65535, 255, 1, FRESH)),
        // it halts, and 32 comes before it
        ("step 0 0".to_string(), "32", state(4, 65535, 255, 1, FRESH)),
        ("step 32767 0".to_string(), "32", state(4, 65535, 255, 1, FRESH)),
        // an end is dropped with it: once the halted mark is cleared, job 1 goes on
        (format!("open {P1} 0"), "0", state(4, 65535, 255, 0, FRESH)),
        ("step 0 0".to_string(), "0 order=1", state(0, 0, 1, 0, FRESH)),
        ("step 32768 1".to_string(), "36", state(0, 0, 1, 1, FRESH)),
        ("poke halted 0 0".to_string(), "0", state(0, 0, 1, 0, FRESH)),
        ("step 1 0".to_string(), "0 order=1", state(1, 1, 1, 0, ONE_UNIT)),
        // the job is at its CHI: 35 comes after 36
        (format!("open {one_job} 0"), "0", state(0, 65535, 255, 0, fresh)),
        ("step 0 0".to_string(), "0 order=0", state(0, 0, 0, 0, fresh)),
        ("step 32768 0".to_string(), "36", state(0, 0, 0, 1, fresh)),
        ("poke halted 0 0".to_string(), "0", state(0, 0, 0, 0, fresh)),
        ("step 1 0".to_string(), "35 job=0", state(0, 0, 0, 1, fresh)),
    ];
    cases.map(|(request, answer, state)| (request, answer.to_string() + &state)).to_vec()
}

/// The log's session: two cuts of one append, among its zeros and one byte before its end.
fn log() -> Vec<(String, String)> {
    let p8 = format!("{A}010100ffff000000ffff2600000054545031");
    let cases = [
        ("store 100 255".to_string(), "0"),
        ("newest".to_string(), "51"),
        (format!("append {P1}"), "0 at=0"),
        ("put 46 aabbcc".to_string(), "0"),
        (format!("cut {P1} 52"), "0 at=46"),
        ("peek 45 6".to_string(), "0 bytes=31aabb000000"),
        (format!("cut {P1} 99"), "0 at=46"),
        ("newest".to_string(), "0 at=0 size=46"),
        (format!("cut {P1} 100"), "0 at=46"),
        ("listed".to_string(), "0 at=46,0"),
        (format!("append {P1}"), "50"),
        (format!("append {p8}"), "10 slot=5 job=0 switch=2"),
    ];
    cases.map(|(request, answer)| (request, answer.to_string())).to_vec()
}

/// Counts in P1's table LO.
fn counts() -> Vec<(String, String)> {
    let cases = [
        // job 1 has two entries, at slots 0 and 1
        ("1 0", 0),
        ("1 1", 1),
        ("1 2", 2),
        ("1 65535", 2),
        // job 0 has one, at slot 2
        ("0 2", 0),
        ("0 3", 1),
        // the idle entries, at slots 3 and 4
        ("255 4", 1),
        ("255 5", 2),
        // no entry: a job that the table does not name, and jobs over 255
        ("2 5", 0),
        ("256 65535", 0),
        ("257 2", 0),
        ("511 5", 0),
        ("65535 5", 0),
    ];
    let in_table = |(asked, count)| (format!("count 010100ffff {asked}"), count);
    let empty = ("count - 0 1".to_string(), 0);
    let cases = cases.map(in_table).into_iter().chain([empty]);
    cases.map(|(request, count)| (request, format!("0 count={count}"))).collect()
}

/// The cases as a script, and whether this program answers each as the paper does.
pub fn compare() -> (Script, Result<(), String>) {
    let mut script = Script::new();
    let mut outcome = Ok(());
    for (request, by_hand) in cases() {
        let own = script.ask_by_hand(&request, &by_hand);
        if own != by_hand {
            outcome = Err(format!("{request}\n  on paper: {by_hand}\n  answered: {own}"));
        }
    }
    (script, outcome)
}
