//! Times of a benchmark.

use std::time::Duration;

/// A time of the C library: seconds, and the ns after them.
#[repr(C)]
struct Timespec {
    seconds: i64,
    ns: i64,
}

const CLOCK_THREAD_CPUTIME: i32 = 3;

extern "C" {
    fn clock_gettime(clock: i32, time: *mut Timespec) -> i32;
}

/// The time that this thread has had a processor for. Other programs on the machine do not add to it.
fn processor_time() -> Duration {
    let mut time = Timespec { seconds: 0, ns: 0 };
    let status = unsafe { clock_gettime(CLOCK_THREAD_CPUTIME, &mut time) };
    assert_eq!(status, 0, "there is no clock for the processor's time");
    Duration::new(time.seconds as u64, time.ns as u32)
}

/// Gives the ns of a call, as the mean of several.
pub fn time(calls: u32, mut call: impl FnMut()) -> f64 {
    let began = processor_time();
    for _ in 0..calls {
        call();
    }
    (processor_time() - began).as_nanos() as f64 / f64::from(calls)
}

pub fn median(mut times: Vec<f64>) -> f64 {
    times.sort_by(|a, b| a.partial_cmp(b).expect("times are numbers"));
    times[times.len() / 2]
}

/// Prints the time of the proved side and those of others, all given in ns, and its ratio to each.
pub fn print_times(what: &str, proved: f64, others: &[(&str, f64)]) {
    print!("  {:<32} proved {:>9.1} us", what, proved / 1e3);
    for (name, time) in others {
        print!("  {} {:>9.1} us  ratio {:.3}", name, time / 1e3, proved / time);
    }
    println!();
}
