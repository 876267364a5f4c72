//! Times two calls against each other.

use std::time::Duration;

const REPEATS: usize = 21;
const LEAST: Duration = Duration::from_millis(10);

/// CLOCK_THREAD_CPUTIME_ID.
const THREAD_CLOCK: i32 = 3;

#[repr(C)]
struct Timespec {
    seconds: u64,
    nanoseconds: u64,
}

extern "C" {
    fn clock_gettime(clock: i32, time: *mut Timespec) -> i32;
}

/// Medians: nanoseconds of each side, and the ratio with its quartiles.
pub struct Timed {
    pub rattle: f64,
    pub rust: f64,
    pub ratio: f64,
    pub quartiles: (f64, f64),
}

impl Timed {
    /// Of a call that does a thing so many times.
    pub fn each(self, times: usize) -> Timed {
        let times = times as f64;
        Timed { rattle: self.rattle / times, rust: self.rust / times, ..self }
    }
}

/// A ratio is of two runs that stand beside each other, so that drift hits both.
pub fn pair(mut rattle: impl FnMut(), mut rust: impl FnMut()) -> Timed {
    let calls = (enough(&mut rattle), enough(&mut rust));
    let (mut times, mut ratios) = ((Vec::new(), Vec::new()), Vec::new());
    for repeat in 0..REPEATS {
        // each side is first in half of the repeats
        let (of_rattle, of_rust) = if repeat % 2 == 0 {
            let first = run(&mut rattle, calls.0);
            (first, run(&mut rust, calls.1))
        } else {
            let first = run(&mut rust, calls.1);
            (run(&mut rattle, calls.0), first)
        };
        times.0.push(of_rattle);
        times.1.push(of_rust);
        ratios.push(of_rattle / of_rust);
    }
    Timed {
        rattle: at(&mut times.0, 2),
        rust: at(&mut times.1, 2),
        ratio: at(&mut ratios, 2),
        quartiles: (at(&mut ratios, 1), at(&mut ratios, 3)),
    }
}

/// The least power of two of calls that takes long enough. It warms up, too.
fn enough(call: &mut impl FnMut()) -> usize {
    let mut calls = 1;
    while run(call, calls) * (calls as f64) < LEAST.as_nanos() as f64 {
        calls *= 2;
    }
    calls
}

/// The nanoseconds of one call.
fn run(call: &mut impl FnMut(), calls: usize) -> f64 {
    let start = processor_time();
    for _ in 0..calls {
        call();
    }
    (processor_time() - start).as_nanos() as f64 / calls as f64
}

/// What this thread has run so far: what other programs take of the processor does not count.
fn processor_time() -> Duration {
    let mut time = Timespec { seconds: 0, nanoseconds: 0 };
    // SAFETY: `time` is written, and is laid out as C has it on a 64-bit Linux.
    let status = unsafe { clock_gettime(THREAD_CLOCK, &mut time) };
    assert_eq!(status, 0, "no clock for processor time");
    Duration::from_secs(time.seconds) + Duration::from_nanos(time.nanoseconds)
}

/// A quartile: 2 is the median.
fn at(values: &mut [f64], quarter: usize) -> f64 {
    values.sort_by(f64::total_cmp);
    values[(values.len() - 1) * quarter / 4]
}
