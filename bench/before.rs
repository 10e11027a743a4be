// The library of another commit and the one at hand, side by side in one process on the same inputs: the least time of many short rounds, of which a busy
// machine disturbs few. A library from before areas had an origin is asked for the squares from (0, 0) on, the one at hand for those from its origin on. All
// areas are ones that both accept. Where they answer otherwise, the row is left to the reader of the change.
#[path = "../tests/random.rs"]
mod random;
mod common;

mod before {
    #[allow(dead_code)] // not every call is compared
    mod raw {
        include!(env!("BEFORE"));
    }
    mod library {
        include!(env!("BEFORE_CALLS"));
    }
    pub use library::*;
}

#[path = "."]
mod after {
    #[allow(dead_code)] // nor here
    #[path = "../bindings/rust/src/raw.rs"]
    mod raw;
    mod library;
    pub use library::*;
}

use common::{form, time};
use random::{sides, Lines, Random};
use std::hint::black_box;

// The least time of each of two rounds, taken in turn.
fn least(rounds: usize, mut before: impl FnMut() -> f64, mut after: impl FnMut() -> f64) -> (f64, f64) {
    (0..rounds).fold((f64::MAX, f64::MAX), |(b, a), _| (b.min(before()), a.min(after())))
}

fn row(area: &str, call: &str, (before, after): (f64, f64)) {
    println!("| {area} | {call} | {before:.2} | {after:.2} | {:.2} |", after / before);
}

// A call over each of the inputs in turn, 400 times.
fn calls<I: Copy, A>(area: &str, call: &str, inputs: (&[I], &[I]), mut before: impl FnMut(I) -> A, mut after: impl FnMut(I) -> A) {
    let n = inputs.0.len();
    let times = least(
        400,
        || time(n, || inputs.0.iter().for_each(|&i| _ = black_box(before(black_box(i))))),
        || time(n, || inputs.1.iter().for_each(|&i| _ = black_box(after(black_box(i))))),
    );
    row(area, call, times);
}

fn lookups(random: &mut Random) {
    let ((bx, by), (ax, ay)) = (before::ORIGIN, after::ORIGIN);
    for (w, h) in [(64, 64), (1024, 1024), (4096, 4096), (3000, 5000)] {
        let area = format!("{w} by {h}");
        let numbers: Vec<u32> = (0..8000).map(|_| random.below(w as u64 * h as u64) as u32).collect();
        let (one, other) = (|n| before::number_to_square(w, h, bx, by, n), |n| after::number_to_square(w, h, ax, ay, n));
        calls(&area, "number to square", (&numbers, &numbers), one, other);
        let squares: Vec<(i32, i32)> = (0..8000).map(|_| (random.below(w as u64) as i32, random.below(h as u64) as i32)).collect();
        let from = |ox: i32, oy: i32| -> Vec<(i32, i32)> { squares.iter().map(|(x, y)| (ox + x, oy + y)).collect() };
        let (one, other) = (|(x, y)| before::square_to_number(w, h, bx, by, x, y), |(x, y)| after::square_to_number(w, h, ax, ay, x, y));
        calls(&area, "square to number", (&from(bx, by), &from(ax, ay)), one, other);
    }
    let areas: Vec<(u32, u32)> = (0..8000).map(|_| sides(random, 65535)).collect();
    let (one, other) = (|(w, h)| before::finish_square(w, h, bx, by), |(w, h)| after::finish_square(w, h, ax, ay));
    calls("random", "finish square", (&areas, &areas), one, other);
}

// Random lines that both answer alike, each under the area that the ones before it left. What only one of them knows is left out.
fn lines_alike(n: usize) -> Vec<Vec<u8>> {
    let mut lines = Lines::from(1);
    let (mut one, mut other) = (None, None);
    let mut alike = vec![];
    while alike.len() < n {
        let (line, left) = (lines.next(), (one, other));
        if before::handle_line(&mut one, &line) == after::handle_line(&mut other, &line) {
            alike.push(line);
        } else {
            (one, other) = left;
        }
    }
    alike
}

fn lines(random: &mut Random) {
    let form = form(random, 8000, before::ORIGIN);
    for (area, call, lines) in [("4096 by 4096", "lines of a form", form), ("random", "random lines", lines_alike(8000))] {
        let lines: Vec<&[u8]> = lines.iter().map(|line| &line[..]).collect();
        let (mut one, mut other) = (None, None);
        calls(area, call, (&lines, &lines), |line| before::handle_line(&mut one, line), |line| after::handle_line(&mut other, line));
    }
}

// Tables, a square at a time; a small one is filled and checked several times a round.
fn tables() {
    for (w, h) in [(33, 47), (64, 64), (1024, 1024), (4096, 4096), (3000, 5000)] {
        for (kind, by_square) in [("by number", false), ("by square", true)] {
            let n = w as usize * h as usize;
            let (mut table, mut other) = (vec![0; n], vec![0; n]);
            let (several, rounds) = (100_000usize.div_ceil(n), if n < 2_000_000 { 60 } else { 12 });
            let time = |call: &mut dyn FnMut()| time(n * several, || (0..several).for_each(|_| call()));
            let fills = least(
                rounds,
                || time(&mut || _ = black_box(before::fill(w, h, black_box(&mut table), by_square))),
                || time(&mut || _ = black_box(after::fill(w, h, black_box(&mut other), by_square))),
            );
            assert!(table == other);
            let checks = least(
                rounds,
                || time(&mut || assert_eq!(before::check(w, h, black_box(&table), by_square), Ok(None))),
                || time(&mut || assert_eq!(after::check(w, h, black_box(&table), by_square), Ok(None))),
            );
            row(&format!("{w} by {h}"), &format!("fill {kind}"), fills);
            row(&format!("{w} by {h}"), &format!("check {kind}"), checks);
        }
    }
}

fn main() {
    let mut random = Random::from(1);
    println!("| area | call | before | after | ratio |\n|---|---|---|---|---|");
    lookups(&mut random);
    lines(&mut random);
    tables();
}
