//! Time by rounds: one turn for each contender in each round, the first place going round.

use std::time::Duration;

pub const LEAST_ROUNDS: usize = 7;
const MOST_ROUNDS: usize = 99;

/// The processor time of this thread, so that neighbours on the machine count little (64-bit Linux).
pub fn now() -> Duration {
    #[repr(C)]
    struct Time {
        seconds: i64,
        nanoseconds: i64,
    }
    extern "C" {
        fn clock_gettime(clock: i32, time: *mut Time) -> i32;
    }
    const THREAD_CPU_TIME: i32 = 3;
    let mut time = Time { seconds: 0, nanoseconds: 0 };
    // SAFETY: the time is written whole.
    let failed = unsafe { clock_gettime(THREAD_CPU_TIME, &mut time) };
    assert_eq!(failed, 0);
    Duration::new(time.seconds as u64, time.nanoseconds as u32)
}

/// The seconds of each contender in each round, after one round that is not counted. As many rounds as the budget of
/// seconds allows, at least seven.
pub fn rounds(budget: f64, count: usize, mut work: impl FnMut(usize)) -> Vec<Vec<f64>> {
    let mut turn = |index: usize| {
        let start = now();
        work(index);
        (now() - start).as_secs_f64()
    };
    let first: f64 = (0..count).map(&mut turn).sum();
    let wanted = ((budget / first) as usize).clamp(LEAST_ROUNDS, MOST_ROUNDS) | 1;
    let mut times = vec![Vec::new(); count];
    for round in 0..wanted {
        for index in (0..count).map(|place| (place + round) % count) {
            times[index].push(turn(index));
        }
    }
    times
}

/// The values at a quarter, a half and three quarters of the way up.
pub fn quartiles(values: &[f64]) -> [f64; 3] {
    let mut sorted = values.to_vec();
    sorted.sort_by(f64::total_cmp);
    [1, 2, 3].map(|quarter| sorted[(sorted.len() - 1) * quarter / 4])
}

pub fn median(values: &[f64]) -> f64 {
    quartiles(values)[1]
}

/// The ratio of the medians, and between which values the middle half of the rounds' own ratios lies.
pub fn ratio(above: &[f64], below: &[f64]) -> String {
    let own: Vec<f64> = above.iter().zip(below).map(|(above, below)| above / below).collect();
    let [low, _, high] = quartiles(&own);
    format!("{:.2} ({low:.2} to {high:.2})", median(above) / median(below))
}

/// A contender's seconds, speed and time for a record, on standard error.
pub fn tell_times(who: &str, times: &[f64], bytes: usize, records: u64) {
    let seconds = median(times);
    let speed = bytes as f64 / (1 << 20) as f64 / seconds;
    let each = seconds * 1e9 / records as f64;
    eprintln!("  {who}: {seconds:.6} s, {speed:.0} MiB/s, {each:.0} ns a record, {} rounds", times.len());
}

/// The lines of how the time for one of something grows: for one file again and again, and for copies one after the other.
pub fn tell_growth(name: &str, one: &str, times: &[Vec<f64>]) {
    let sizes = times.len() / 2;
    for (kind, times) in ["one file again and again", "copies one after the other"].iter().zip(times.chunks(sizes)) {
        let seconds: Vec<String> = times.iter().map(|times| format!(" {:.3e}", median(times))).collect();
        eprintln!("{name}, {kind}: seconds for {one}{}", seconds.concat());
        let shown: Vec<String> = times.iter().map(|size| format!(" {} |", ratio(size, &times[0]))).collect();
        println!("| {name}, {kind} |{}", shown.concat());
    }
}
