// Runs of a window: the library beside the best safe Rust that we could write for the same idea, in one process on the same windows; and how both grow with
// the window's border. First that they answer alike, then both in turn, and of each window the least time of the rounds.
#[allow(dead_code)] // only windows and single lookups are asked here
#[path = "../bindings/rust/src/raw.rs"]
mod raw;

use std::hint::black_box;
use std::time::Instant;

// What is seen of a window in an a by b block: u along the run from u0 on and below u1, v along the side from v0 on and below v1.
#[derive(Clone, Copy)]
struct Pane {
    a: u32,
    b: u32,
    u0: u32,
    u1: u32,
    v0: u32,
    v1: u32,
}

// Where numbers are taken up: a count alone, or pairs in a slice. `end` is the number behind the last run.
trait Taker {
    fn take(&mut self, from: u32, to: u32);
    fn block(&mut self);
}

struct Counter {
    runs: u32,
    end: u32,
}

impl Taker for Counter {
    #[inline(always)]
    fn take(&mut self, from: u32, to: u32) {
        self.runs += (self.end != from) as u32;
        self.end = to;
    }
    #[inline(always)]
    fn block(&mut self) {}
}

struct Writer<'a> {
    pairs: &'a mut [u32],
    at: usize,
    end: u32,
}

impl Taker for Writer<'_> {
    #[inline(always)]
    fn take(&mut self, from: u32, to: u32) {
        if self.end == from {
            self.pairs[self.at - 1] = to - 1;
        } else {
            self.pairs[self.at] = from;
            self.pairs[self.at + 1] = to - 1;
            self.at += 2;
        }
        self.end = to;
    }
    #[inline(always)]
    fn block(&mut self) {}
}

// How many blocks are entered.
struct Blocks(u64);

impl Taker for Blocks {
    fn take(&mut self, _: u32, _: u32) {}
    fn block(&mut self) {
        self.0 += 1;
    }
}

fn even_half(length: u32) -> u32 {
    let half = length / 2;
    if length > 2 { half + half % 2 } else { half }
}

#[inline(always)]
fn enter<T: Taker>(taker: &mut T, p: Pane, n: u32) {
    taker.block();
    if p.u1 <= p.u0 || p.v1 <= p.v0 {
        return;
    }
    if p.u0 == 0 && p.v0 == 0 && p.u1 == p.a && p.v1 == p.b {
        return taker.take(n, n + p.a * p.b);
    }
    walk(taker, p.a, p.b, p.u0, p.u1, p.v0, p.v1, n)
}

#[allow(clippy::too_many_arguments)] // handed on one by one they stay in registers
fn walk<T: Taker>(taker: &mut T, a: u32, b: u32, u0: u32, u1: u32, v0: u32, v1: u32, n: u32) {
    if b == 1 {
        taker.take(n + u0, n + u1)
    } else if a == 1 {
        taker.take(n + v0, n + v1)
    } else if 3 * b < 2 * a {
        let e = even_half(a);
        enter(taker, Pane { a: e, b, u0, u1: u1.min(e), v0, v1 }, n);
        enter(taker, Pane { a: a - e, b, u0: u0.saturating_sub(e), u1: u1.saturating_sub(e), v0, v1 }, n + e * b)
    } else if a == 2 && b <= 3 {
        if u0 == 0 {
            taker.take(n + v0, n + v1);
        }
        if u1 == 2 {
            taker.take(n + (2 * b - v1), n + (2 * b - v0));
        }
    } else {
        let (e, m) = (even_half(b), a / 2);
        let (to_b, rest) = (n + e * m, a - m);
        enter(taker, Pane { a: e, b: m, u0: v0, u1: v1.min(e), v0: u0, v1: u1.min(m) }, n);
        enter(taker, Pane { a, b: b - e, u0, u1, v0: v0.saturating_sub(e), v1: v1.saturating_sub(e) }, to_b);
        let c = Pane { a: e, b: rest, u0: e.saturating_sub(v1), u1: e.saturating_sub(v0), v0: a - u1, v1: a.saturating_sub(u0).min(rest) };
        enter(taker, c, to_b + a * (b - e))
    }
}

#[derive(Clone, Copy)]
struct Area {
    w: u32,
    h: u32,
    ox: i32,
    oy: i32,
}

#[derive(Clone, Copy)]
struct Window(i32, i32, i32, i32);

// The window as the whole area's pane, unless it is refused.
fn pane(area: Area, v: Window) -> Option<Pane> {
    let Area { w, h, ox, oy } = area;
    let accepted = (1..=65535).contains(&w) && (1..=65535).contains(&h) && w * h <= 16_777_216;
    let granted = accepted && ox.unsigned_abs().max(oy.unsigned_abs()) <= 1_000_000;
    if !granted || v.0 > v.2 || v.1 > v.3 {
        return None;
    }
    let from = (v.0 as i64 - ox as i64, v.1 as i64 - oy as i64);
    let to = (v.2 as i64 - ox as i64, v.3 as i64 - oy as i64);
    if from.0 < 0 || from.1 < 0 || to.0 >= w as i64 || to.1 >= h as i64 {
        return None;
    }
    Some(Pane { a: w, b: h, u0: from.0 as u32, u1: to.0 as u32 + 1, v0: from.1 as u32, v1: to.1 as u32 + 1 })
}

fn see<T: Taker>(taker: &mut T, p: Pane) {
    walk(taker, p.a, p.b, p.u0, p.u1, p.v0, p.v1, 0)
}

fn in_rust(area: Area, v: Window, runs: &mut [u32]) -> Result<u32, u32> {
    let p = pane(area, v).ok_or(0u32)?;
    let mut counter = Counter { runs: 0, end: u32::MAX };
    see(&mut counter, p);
    if runs.len() / 2 < counter.runs as usize {
        return Err(counter.runs);
    }
    let mut writer = Writer { pairs: runs, at: 0, end: u32::MAX };
    see(&mut writer, p);
    Ok(counter.runs)
}

fn blocks(area: Area, v: Window) -> u64 {
    let mut blocks = Blocks(0);
    see(&mut blocks, pane(area, v).expect("a window of the area"));
    blocks.0
}

// SAFETY, here and below: each slice is passed with its own length, and no two of them overlap.
fn by_library(area: Area, v: Window, runs: &mut [u32]) -> Result<u32, u32> {
    let Area { w, h, ox, oy } = area;
    let mut count = [0];
    match unsafe { raw::uvalinda_runs_for_window(w, h, ox, oy, v.0, v.1, v.2, v.3, runs.as_mut_ptr(), runs.len(), count.as_mut_ptr(), 1) } {
        0 => Ok(count[0]),
        _ => Err(count[0]),
    }
}

// The numbers of some squares by lookups, sorted and joined: of the border, whose numbers are enough to find every run's ends, or of all squares.
fn by_lookups(area: Area, v: Window, all: bool) -> usize {
    let Area { w, h, ox, oy } = area;
    let mut numbers = vec![];
    for y in v.1..=v.3 {
        let step = if all || y == v.1 || y == v.3 { 1 } else { (v.2 - v.0).max(1) as usize };
        for x in (v.0..=v.2).step_by(step) {
            let mut found = [0; 2];
            unsafe { raw::uvalinda_square_to_number(w, h, ox, oy, x, y, found.as_mut_ptr(), 2) };
            numbers.push(found[0]);
        }
    }
    numbers.sort_unstable();
    numbers.windows(2).filter(|n| n[0] + 1 != n[1]).count()
}

// The time of some calls on a window, in microseconds a call.
fn time(v: Window, calls: u32, call: &mut impl FnMut(Window) -> u64) -> f64 {
    let begun = Instant::now();
    for _ in 0..calls {
        black_box(call(black_box(v)));
    }
    begun.elapsed().as_secs_f64() * 1e6 / calls as f64
}

// Two calls in turn on each window, so that both meet the same machine: of each window the least time of the rounds, on the average over the windows.
fn in_turn(windows: &[Window], rounds: u32, calls: u32, mut one: impl FnMut(Window) -> u64, mut other: impl FnMut(Window) -> u64) -> (f64, f64) {
    let (mut first, mut second) = (0.0, 0.0);
    for v in windows {
        let mut best = (f64::MAX, f64::MAX);
        for _ in 0..rounds {
            best = (best.0.min(time(*v, calls, &mut one)), best.1.min(time(*v, calls, &mut other)));
        }
        (first, second) = (first + best.0, second + best.1);
    }
    (first / windows.len() as f64, second / windows.len() as f64)
}

fn main() {
    let side = 4096;
    let area = black_box(Area { w: side as u32, h: side as u32, ox: -2000, oy: 31 });
    println!("### Runs of a window of 4,096 by 4,096\n");
    println!("| Window | Runs | Library, µs | Rust, µs | Ratio | Border by lookups | All squares by lookups | Blocks for each border square |");
    println!("|---|---|---|---|---|---|---|---|");
    let (mut one, mut other) = (vec![0; 40_000], vec![0; 40_000]);
    for (wide, high) in [(10, 10), (100, 100), (1000, 1000), (2900, 2900), (1, 1000), (1000, 1)] {
        let at = |i: i32| (area.ox + (i * 977 + 131) % (side - wide + 1), area.oy + (i * 1_409 + 577) % (side - high + 1));
        let windows: Vec<Window> = (0..32).map(at).map(|(x, y)| Window(x, y, x + wide - 1, y + high - 1)).collect();
        let (mut runs, mut entered) = (0, 0);
        for v in &windows {
            let count = by_library(area, *v, &mut one).expect("there is room");
            assert_eq!(Ok(count), in_rust(area, *v, &mut other));
            assert_eq!(one[..2 * count as usize], other[..2 * count as usize]);
            assert_eq!(by_library(area, *v, &mut []), in_rust(area, *v, &mut []));
            (runs, entered) = (runs + count as u64, entered + blocks(area, *v));
        }
        let calls = 1 + 2_000 / (wide + high) as u32;
        let by_library = |v: Window| u64::from(by_library(area, v, &mut one).unwrap_or_default());
        let in_rust = |v: Window| u64::from(in_rust(area, v, &mut other).unwrap_or_default());
        let (library, rust) = in_turn(&windows, 60, calls, by_library, in_rust);
        let (border, all) = in_turn(&windows[..1], 3, 1, |v| by_lookups(area, v, false) as u64, |v| by_lookups(area, v, true) as u64);
        // All squares, but for those that have one beyond them on each of their four sides.
        let inner = (wide - 2).max(0) * (high - 2).max(0);
        let squares = (wide * high - inner) as f64 * windows.len() as f64;
        println!(
            "| {wide} by {high} | {} | {library:.2} | {rust:.2} | {:.2} | {:.0} times | {:.0} times | {:.2} |",
            runs / windows.len() as u64,
            library / rust,
            border / library,
            all / library,
            entered as f64 / squares,
        );
    }
}
