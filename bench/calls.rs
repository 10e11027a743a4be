// Every call of the library and a version of it in plain Rust, side by side in one process on the same inputs: first that they answer alike, then the
// least time of several rounds.
#[path = "../tests/random.rs"]
mod random;
#[allow(dead_code)] // windows have a benchmark of their own
#[path = "../bindings/rust/src/raw.rs"]
mod raw;
mod common;
mod copying;
mod library;
mod strong;
mod versions;

use common::{form, time};
use library::*;
use random::{sides, Lines, Random};
use std::fmt::Debug;
use std::hint::black_box;

// The areas whose tables are timed.
const TABLES: [(u32, u32); 10] =
    [(64, 64), (33, 47), (256, 256), (1024, 1024), (4096, 4096), (8192, 2048), (4095, 4097), (3000, 5000), (40000, 400), (65535, 256)];

// Two functions over the same inputs: the least time a call of each.
fn least<I: Copy, A: PartialEq + Debug>(inputs: &[I], mut one: impl FnMut(I) -> A, mut other: impl FnMut(I) -> A) -> (f64, f64) {
    for &i in inputs {
        assert_eq!(one(i), other(i));
    }
    let mut best = (f64::MAX, f64::MAX);
    for _ in 0..9 {
        best.0 = best.0.min(time(inputs.len(), || inputs.iter().for_each(|&i| _ = black_box(one(black_box(i))))));
        best.1 = best.1.min(time(inputs.len(), || inputs.iter().for_each(|&i| _ = black_box(other(black_box(i))))));
    }
    best
}

fn row(area: &str, call: &str, (library, rust): (f64, f64)) {
    println!("| {area} | {call} | {library:.2} | {rust:.2} | {:.2} |", library / rust);
}

fn lookups(random: &mut Random) {
    println!("### Lookups and lines\n\nNanoseconds a call, the least of nine rounds over a million random inputs, or over 200,000 lines.\n");
    println!("| area | call | library | Rust | ratio |\n|---|---|---|---|---|");
    let (ox, oy) = black_box(ORIGIN);
    for (w, h) in [(64, 64), (256, 256), (1024, 1024), (4096, 4096), (16384, 1024), (65535, 256), (3000, 5000)] {
        let area = format!("{w} by {h}");
        let numbers: Vec<u32> = (0..1_000_000).map(|_| random.below(w as u64 * h as u64) as u32).collect();
        row(&area, "number to square", least(&numbers, |n| number_to_square(w, h, ox, oy, n), |n| versions::number_to_square(w, h, ox, oy, n)));
        let squares: Vec<(i32, i32)> = (0..1_000_000).map(|_| (ox + random.below(w as u64) as i32, oy + random.below(h as u64) as i32)).collect();
        let times = least(&squares, |(x, y)| square_to_number(w, h, ox, oy, x, y), |(x, y)| versions::square_to_number(w, h, ox, oy, x, y));
        row(&area, "square to number", times);
    }
    let areas: Vec<(u32, u32)> = (0..1_000_000).map(|_| sides(random, 65535)).collect();
    row("random", "finish square", least(&areas, |(w, h)| finish_square(w, h, ox, oy), |(w, h)| versions::finish_square(w, h, ox, oy)));
}

// Lines of a form, and random lines of which many are refused, each under the area that the line before it left.
fn lines(random: &mut Random) {
    let form = form(random, 200_000, ORIGIN);
    let mut lines = Lines::from(1);
    let mixed: Vec<Vec<u8>> = (0..200_000).map(|_| lines.next()).collect();
    for (area, call, lines) in [("4096 by 4096", "lines of a form", form), ("random", "random lines, half of them refused", mixed)] {
        let lines: Vec<&[u8]> = lines.iter().map(|line| &line[..]).collect();
        let (mut ours, mut theirs) = (None, None);
        row(area, call, least(&lines, |line| handle_line(&mut ours, line), |line| versions::handle_line(&mut theirs, line)));
    }
}

#[inline(never)]
fn index_fill(table: &mut [u32]) {
    for (i, place) in table.iter_mut().enumerate() {
        *place = i as u32;
    }
}

// All three versions answer alike, of a right table and of one with a wrong place, which is put right again.
fn answer_alike(w: u32, h: u32, by_square: bool, ours: &mut [u32], theirs: &mut [u32], best: &mut [u32]) {
    let blocks = fill(w, h, ours, by_square);
    assert_eq!((blocks, blocks), (versions::fill(w, h, theirs, by_square), strong::fill(w, h, best, by_square)));
    assert!(ours == theirs && ours == best);
    let middle = ours.len() / 2;
    ours[middle] += 1;
    let wrong = Ok(Some((middle as u32, theirs[middle])));
    assert_eq!((check(w, h, ours, by_square), versions::check(w, h, ours, by_square)), (wrong, wrong));
    assert_eq!(strong::check(w, h, ours, by_square), wrong);
    ours[middle] -= 1;
}

// The least time a square of fill and check, each in the library, in Rust and in the best Rust, and of writing the index. One call on a small table would be
// too short for the clock, so a round has several.
fn least_of_tables(w: u32, h: u32, by_square: bool) -> [f64; 7] {
    let n = w as usize * h as usize;
    let (mut ours, mut theirs, mut index) = (vec![0; n], vec![0; n], vec![0; n]);
    answer_alike(w, h, by_square, &mut ours, &mut theirs, &mut index);
    let calls = 300_000usize.div_ceil(n);
    let time = |call: &mut dyn FnMut()| time(n * calls, || (0..calls).for_each(|_| call()));
    let mut best = [f64::MAX; 7];
    for _ in 0..7 {
        let round = [
            time(&mut || _ = black_box(fill(w, h, black_box(&mut ours), by_square))),
            time(&mut || _ = black_box(versions::fill(w, h, black_box(&mut theirs), by_square))),
            time(&mut || _ = black_box(strong::fill(w, h, black_box(&mut theirs), by_square))),
            time(&mut || assert_eq!(check(w, h, black_box(&ours), by_square), Ok(None))),
            time(&mut || assert_eq!(versions::check(w, h, black_box(&theirs), by_square), Ok(None))),
            time(&mut || assert_eq!(strong::check(w, h, black_box(&theirs), by_square), Ok(None))),
            time(&mut || index_fill(black_box(&mut index))),
        ];
        for (b, r) in best.iter_mut().zip(round) {
            *b = b.min(r);
        }
    }
    best
}

fn tables() {
    println!("\n### Tables\n\nNanoseconds a square, the least of seven rounds over the whole area, or over a small one several times.\n");
    print!("| area | kind | fill | Rust fill | ratio | best Rust fill | ratio | to writing the index ");
    println!("| check | Rust check | ratio | best Rust check | ratio | to the fill |");
    println!("|{}", "---|".repeat(14));
    for (w, h) in TABLES {
        for (by_square, kind) in [(false, "by number"), (true, "by square")] {
            let [fill, rust, best, check, rust_check, best_check, index] = least_of_tables(w, h, by_square);
            print!("| {w} by {h} | {kind} | {fill:.2} | {rust:.2} | {:.2} | {best:.2} | {:.2} | {:.2} ", fill / rust, fill / best, fill / index);
            print!("| {check:.2} | {rust_check:.2} | {:.2} ", check / rust_check);
            println!("| {best_check:.2} | {:.2} | {:.2} |", check / best_check, check / fill);
        }
    }
}

// Tables by number beside a Rust version that copies and compares as the library does.
fn copies() {
    println!("\n### Tables by number, beside a Rust version with the same idea\n\nNanoseconds a square, the least of 25 rounds.\n");
    println!("| area | fill | copying Rust fill | ratio | check | copying Rust check | ratio | check to fill | the same in Rust |\n|{}", "---|".repeat(9));
    for (w, h) in TABLES {
        let n = w as usize * h as usize;
        let (mut ours, mut theirs) = (vec![0; n], vec![0; n]);
        assert_eq!(fill(w, h, &mut ours, false), copying::fill(w, h, &mut theirs));
        assert!(ours == theirs);
        let calls = 300_000usize.div_ceil(n);
        let time = |call: &mut dyn FnMut()| time(n * calls, || (0..calls).for_each(|_| call()));
        let mut best = [f64::MAX; 4];
        for _ in 0..25 {
            let round = [
                time(&mut || _ = black_box(fill(w, h, black_box(&mut ours), false))),
                time(&mut || _ = black_box(copying::fill(w, h, black_box(&mut theirs)))),
                time(&mut || assert_eq!(check(w, h, black_box(&ours), false), Ok(None))),
                time(&mut || assert_eq!(copying::check(w, h, black_box(&theirs)), Ok(None))),
            ];
            for (b, r) in best.iter_mut().zip(round) {
                *b = b.min(r);
            }
        }
        let [fill, rust, check, rust_check] = best;
        print!("| {w} by {h} | {fill:.3} | {rust:.3} | {:.2} | {check:.3} | {rust_check:.3} | {:.2} ", fill / rust, check / rust_check);
        println!("| {:.2} | {:.2} |", check / fill, rust_check / rust);
    }
}

fn main() {
    let mut random = Random::from(1);
    lookups(&mut random);
    lines(&mut random);
    tables();
    copies();
}
