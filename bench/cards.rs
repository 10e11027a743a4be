// Cards written and read: the library beside a check and a plain copy of the same table, and beside safe Rust, in one process on the same tables; and the sums
// of all blocks beside a plain sum. First that all answer alike, then each in turn, and of each the least time of the rounds.
#![allow(dead_code)] // of what the benchmarks share, only tables and the clock are asked here
#[path = "../tests/random.rs"]
mod random;
#[path = "../bindings/rust/src/raw.rs"]
mod raw;
mod common;
mod copying;
mod filing;
mod library;
mod strong;
mod versions;

use common::time;
use library::{check, fill};
use std::hint::black_box;

const AREAS: [(u32, u32); 6] = [(64, 64), (33, 47), (1024, 1024), (4096, 4096), (3000, 5000), (65535, 256)];

// SAFETY, here and below: each slice is passed with its own length, and no two of them overlap.
fn write(w: u32, h: u32, kind: u32, table: &[u32], file: &mut [u8]) -> Result<(), u32> {
    match unsafe { raw::uvalinda_write_card(w, h, kind, table.as_ptr(), table.len(), file.as_mut_ptr(), file.len()) } {
        0 => Ok(()),
        refusal => Err(refusal),
    }
}

fn read(w: u32, h: u32, kind: u32, file: &[u8], table: &mut [u32]) -> Result<(), (u32, u64)> {
    let mut block = [0];
    match unsafe { raw::uvalinda_read_card(w, h, kind, file.as_ptr(), file.len(), table.as_mut_ptr(), table.len(), block.as_mut_ptr(), block.len()) } {
        0 => Ok(()),
        refusal => Err((refusal, block[0])),
    }
}

// A file of words with word i changed, and the check of its block put right where it is to be.
fn altered(file: &[u8], i: usize, by: u32, sealed: bool) -> Vec<u8> {
    let mut file = file.to_vec();
    for at in [Some(4 * i), sealed.then_some(512 * (i / 128) + 508)].into_iter().flatten() {
        let word = u32::from_le_bytes(file[at..at + 4].try_into().expect("four bytes"));
        file[at..at + 4].copy_from_slice(&word.wrapping_add(by).to_le_bytes());
    }
    file
}

// All versions answer alike: of the right card and table, and of some that are wrong. The file is then the card, and the table the right one.
fn answer_alike(w: u32, h: u32, kind: u32, table: &mut [u32], file: &mut [u8]) {
    _ = fill(w, h, table, kind == 2);
    let (mut other_file, mut other_table, mut third_table) = (file.to_vec(), vec![0; table.len()], vec![0; table.len()]);
    let middle = table.len() / 2;
    table[middle] += 1;
    assert_eq!((write(w, h, kind, table, file), filing::write(w, h, kind, table, &mut other_file)), (Err(15), Err(15)));
    table[middle] -= 1;
    assert_eq!((write(w, h, kind, table, file), filing::write(w, h, kind, table, &mut other_file)), (Ok(()), Ok(())));
    assert!(file == other_file);
    let mut alike = |kind: u32, file: &[u8], due: Result<(), (u32, u64)>| {
        assert_eq!(read(w, h, kind, file, &mut other_table), due);
        assert_eq!(filing::read_by_stretches(w, h, kind, file, &mut third_table), due);
        assert!(other_table == third_table);
        third_table.fill(0);
        assert_eq!(filing::read_by_walk(w, h, kind, file, &mut third_table), due);
        assert!(other_table == third_table && (other_table == table) == due.is_ok());
        other_table.fill(0);
        third_table.fill(0);
    };
    alike(kind, file, Ok(()));
    alike(3 - kind, file, Err((15, 0)));
    alike(3, file, Err((15, 0)));
    alike(kind, &file[..file.len() - 512], Err((15, 0)));
    let (words, place) = (file.len() / 4, 128 * (1 + middle / 126) + middle % 126);
    for i in [0, 3, 4, 126, place, words - 2] {
        alike(kind, &altered(file, i, 1, false), Err((14, i as u64 / 128)));
        alike(kind, &altered(file, i, 1, true), Err((15, 0)));
    }
    alike(kind, &altered(file, words - 1, 1, false), Err((14, words as u64 / 128 - 1)));
}

// All words of a file in one straight sum.
#[inline(never)]
fn plain_sum(file: &[u8]) -> u32 {
    file.chunks_exact(4).map(|word| u32::from_le_bytes(word.try_into().expect("four bytes"))).fold(0, u32::wrapping_add)
}

// A check of a table, and its copy to other memory.
fn check_and_copy(w: u32, h: u32, kind: u32, table: &[u32], other: &mut [u32]) {
    assert_eq!(check(w, h, table, kind == 2), Ok(None));
    other.copy_from_slice(table);
}

// The least time a square of: the check and a copy; reading in the library, and in Rust by stretches and by a walk over the file; writing in both; the sums of
// all blocks, which is what reading takes where the last check is bad; and the plain sum. One call on a small table would be too short for the clock, so a
// round has several. Every other round goes backwards: what lies in the cache is left there by the call before.
fn least(w: u32, h: u32, kind: u32) -> [f64; 8] {
    let n = w as usize * h as usize;
    let (mut table, mut other, mut file) = (vec![0; n], vec![0; n], vec![0; 512 * (1 + n.div_ceil(126))]);
    answer_alike(w, h, kind, &mut table, &mut file);
    let bad = altered(&file, file.len() / 4 - 1, 1, false);
    let mut call = |which: usize| match which {
        0 => check_and_copy(w, h, kind, black_box(&table), black_box(&mut other)),
        1 => assert_eq!(read(w, h, kind, black_box(&file), black_box(&mut other)), Ok(())),
        2 => assert_eq!(filing::read_by_stretches(w, h, kind, black_box(&file), black_box(&mut other)), Ok(())),
        3 => assert_eq!(filing::read_by_walk(w, h, kind, black_box(&file), black_box(&mut other)), Ok(())),
        4 => assert_eq!(write(w, h, kind, black_box(&table), black_box(&mut file)), Ok(())),
        5 => assert_eq!(filing::write(w, h, kind, black_box(&table), black_box(&mut file)), Ok(())),
        6 => assert!(read(w, h, kind, black_box(&bad), black_box(&mut other)).is_err()),
        _ => _ = black_box(plain_sum(black_box(&bad))),
    };
    let calls = 300_000usize.div_ceil(n);
    let mut best = [f64::MAX; 8];
    for round in 0..24 {
        for i in 0..8 {
            let which = if round % 2 == 0 { i } else { 7 - i };
            best[which] = best[which].min(time(n * calls, || (0..calls).for_each(|_| call(which))));
        }
    }
    best
}

fn main() {
    println!("### Cards\n\nNanoseconds a square, the least of 24 rounds over the whole area, or over a small one several times.\n");
    print!("| area | kind | check and copy | read | ratio | Rust read, by stretches | ratio | by a walk | ratio ");
    println!("| write | to check and copy | Rust write | ratio | sums of all blocks | plain sum | ratio |\n|{}", "---|".repeat(16));
    for (w, h) in AREAS {
        for (kind, name) in [(1, "by number"), (2, "by square")] {
            let [plain, read, stretches, walk, write, rust_write, sums, sum] = least(w, h, kind);
            print!("| {w} by {h} | {name} | {plain:.2} | {read:.2} | {:.2} ", read / plain);
            print!("| {stretches:.2} | {:.2} | {walk:.2} | {:.2} ", read / stretches, read / walk);
            print!("| {write:.2} | {:.2} | {rust_write:.2} | {:.2} ", write / plain, write / rust_write);
            println!("| {sums:.3} | {sum:.3} | {:.2} |", sums / sum);
        }
    }
}
