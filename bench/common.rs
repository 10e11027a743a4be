// What the benchmarks share: the clock, and the lines of a form.
use crate::random::Random;

extern "C" {
    fn clock_gettime(clock: i32, time: *mut [i64; 2]) -> i32;
}

// The time that this thread has taken, in nanoseconds: what other programs take of a busy machine does not count.
fn thread_time() -> i64 {
    const CLOCK_THREAD_CPUTIME_ID: i32 = 3;
    let mut time = [0; 2];
    // SAFETY: on 64-bit Linux a time is two 64-bit numbers, seconds and nanoseconds.
    assert_eq!(unsafe { clock_gettime(CLOCK_THREAD_CPUTIME_ID, &mut time) }, 0);
    1_000_000_000 * time[0] + time[1]
}

// Nanoseconds for each of n things.
pub fn time(n: usize, f: impl FnOnce()) -> f64 {
    let start = thread_time();
    f();
    (thread_time() - start) as f64 / n as f64
}

// An area with its origin.
#[derive(Clone, Copy)]
pub struct Area {
    pub w: u32,
    pub h: u32,
    pub ox: i32,
    pub oy: i32,
}

// A form of n lines: now and then an area and its origin, which has no line of its own where it is 0 0, and random lookups between.
pub fn form(random: &mut Random, n: usize, (ox, oy): (i32, i32)) -> Vec<Vec<u8>> {
    (0..n)
        .map(|i| match (i % 100, i % 2) {
            (0, _) => b"AREA 4096 4096".to_vec(),
            (1, _) if (ox, oy) != (0, 0) => format!("ORIGIN {ox} {oy}").into_bytes(),
            (_, 0) => format!("N {}", random.below(4096 * 4096)).into_bytes(),
            _ => format!("S {} {}", ox + random.below(4096) as i32, oy + random.below(4096) as i32).into_bytes(),
        })
        .collect()
}
