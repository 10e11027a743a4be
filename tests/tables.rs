// tables SEED: fills and checks of whole tables through the C boundary, against the independent program: every area up to 70 by 70, middling ones and some at
// the limit of squares, with sentinels around the table; every place wrong alone in small areas; and up to five wrong places at random. Where the last part of
// a cut is as long as the first, the table by number repeats itself, moved or turned: many of the wrong places lie in such a part, in the one that it repeats,
// or alike in both.
#![allow(dead_code)] // the programs' common files have more than is needed here
mod expected;
mod independent;
mod random;
#[path = "../bindings/rust/src/raw.rs"]
mod raw;

use expected::{due, told, UNTOUCHED};
use random::Random;

// How many places there are around a table.
const AROUND: usize = 16;

// An area with a table of it as it is due.
struct Due {
    w: u32,
    h: u32,
    by_square: bool,
    table: Vec<u32>,
}

impl Due {
    fn of(w: u32, h: u32, by_square: bool) -> Due {
        Due { w, h, by_square, table: independent::table_due(w as i64, h as i64, by_square) }
    }

    fn asked(&self) -> String {
        format!("{} by {}, by square: {}", self.w, self.h, self.by_square)
    }

    // A fill writes the table, counts the blocks, and writes nothing around the table, wherever in its room the table begins.
    fn fill(&self, blocks: i64) {
        let length = self.table.len();
        let start = AROUND - (self.w as usize + self.h as usize) % 4;
        let mut room = vec![UNTOUCHED; start + length + AROUND];
        let mut after = room.clone();
        after[start..start + length].copy_from_slice(&self.table);
        let mut counted = [0];
        let call = if self.by_square { raw::uvalinda_fill_by_square } else { raw::uvalinda_fill_by_number };
        // SAFETY, here and below: each slice is passed with its own length, and no two of them overlap.
        let returned = unsafe { call(self.w, self.h, room[start..].as_mut_ptr(), length, counted.as_mut_ptr(), 1) };
        assert_eq!((returned, counted), (0, [blocks as u64]), "fill of {}", self.asked());
        assert!(room == after, "the table, or what lies around it, after a fill of {}", self.asked());
    }

    // A check of a table of the same length finds the first place that is not as it is due.
    fn check(&self, table: &[u32]) {
        let answer = match (0..table.len()).find(|&i| table[i] != self.table[i]) {
            None => vec![0, 0, 0],
            Some(place) => vec![1, place as i64, self.table[place] as i64],
        };
        let mut found = [UNTOUCHED; 4];
        let call = if self.by_square { raw::uvalinda_check_by_square } else { raw::uvalinda_check_by_number };
        let returned = unsafe { call(self.w, self.h, table.as_ptr(), table.len(), found.as_mut_ptr(), found.len()) };
        let told = told(returned, found.to_vec());
        if told != due(&Ok(answer), 3, found.len()) {
            let wrong: Vec<usize> = (0..table.len()).filter(|&i| table[i] != self.table[i]).collect();
            panic!("a check of {}, wrong in {wrong:?}, told {told:?}", self.asked());
        }
    }

    // Every place wrong alone.
    fn each_wrong(&self) {
        let mut table = self.table.clone();
        for place in 0..table.len() {
            table[place] ^= 1;
            self.check(&table);
            table[place] ^= 1;
        }
    }

    // Checks with up to five wrong places.
    fn some_wrong(&self, random: &mut Random, checks: usize) {
        for _ in 0..checks {
            let mut table = self.table.clone();
            for _ in 0..random.of(&[0, 1, 1, 1, 1, 2, 2, 3, 4, 5]) {
                self.spoil(random, &mut table);
            }
            self.check(&table);
        }
    }

    // A wrong value for a place: a neighbour of the one due, one of another place, or none of this area.
    fn wrong(&self, random: &mut Random, place: usize) -> u32 {
        let (due, length) = (self.table[place], self.table.len() as u64);
        let other = self.table[random.below(length) as usize];
        random.of(&[due ^ 1, due.wrapping_add(1), due.wrapping_sub(1), due ^ 1 << 31, 0, length as u32, u32::MAX, other])
    }

    // Makes a place wrong, anywhere; or at the first, the last or any place of a part that repeats another, of the one that it repeats, or of both. Where both
    // are wrong, the one may still repeat the other, turned or moved.
    fn spoil(&self, random: &mut Random, table: &mut [u32]) {
        let due = &self.table;
        let place = random.below(due.len() as u64) as usize;
        let steps = independent::way_down(self.w as i64, self.h as i64, place as i64);
        let repeats: Vec<usize> = (1..steps.len()).filter(|&i| steps[i].again).collect();
        if repeats.is_empty() || random.below(5) == 0 {
            table[place] = self.wrong(random, place);
            return;
        }
        let repeat = random.of(&repeats);
        let any = random.below(steps[repeat].squares as u64) as usize;
        let offset = random.of(&[0, steps[repeat].squares as usize - 1, any]);
        let (one, other) = (steps[repeat - 1].first as usize + offset, steps[repeat].first as usize + offset);
        let wrong = self.wrong(random, one);
        match random.below(5) {
            0 => table[one] = wrong,
            1 => (table[one], table[other]) = (wrong, due[other].wrapping_add(due[one]).wrapping_sub(wrong)),
            2 => (table[one], table[other]) = (wrong, due[other].wrapping_sub(due[one]).wrapping_add(wrong)),
            _ => table[other] = self.wrong(random, other),
        }
    }
}

// Fills both kinds of an area's table, and checks so many with wrong places; in a small area also one for each place. Returns how many were checked. No fill
// reports more than 33,554,431 blocks, one less than twice the most squares.
fn area(random: &mut Random, w: u32, h: u32, checks: usize) -> usize {
    let blocks = independent::fill(w as i64, h as i64, w as usize * h as usize).expect("an area that is accepted")[0];
    assert!(blocks <= 33_554_431, "{w} by {h} has {blocks} blocks");
    let (by_number, by_square) = (Due::of(w, h, false), Due::of(w, h, true));
    for kind in [&by_number, &by_square] {
        kind.fill(blocks);
        kind.check(&kind.table);
    }
    by_number.some_wrong(random, checks);
    by_square.some_wrong(random, checks / 4);
    let small = w.max(h) <= 20;
    if small {
        by_number.each_wrong();
        by_square.each_wrong();
    }
    2 + checks + checks / 4 + if small { 2 * (w * h) as usize } else { 0 }
}

fn main() {
    let seed = std::env::args().nth(1).map_or(1, |word| word.parse().expect("a seed"));
    println!("tables: seed {seed}");
    let mut random = Random::from(seed);
    let mut checks = 0;
    for (w, h) in (1..=70).flat_map(|w| (1..=70).map(move |h| (w, h))) {
        checks += area(&mut random, w, h, 8);
    }
    for (w, h) in [(64, 64), (128, 128), (33, 47), (96, 160), (160, 40), (400, 12), (12, 400), (255, 257), (256, 256), (300, 200)] {
        checks += area(&mut random, w, h, 500);
    }
    for (w, h) in [(4096, 4096), (8192, 2048), (4095, 4097), (65535, 256), (256, 65535), (65535, 1), (1, 65535)] {
        checks += area(&mut random, w, h, 4);
    }
    for _ in 0..50 {
        let (w, h) = (71 + random.below(90) as u32, 71 + random.below(90) as u32);
        checks += area(&mut random, w, h, 200);
    }
    println!("tables: both kinds of every area up to 70 by 70 and of 67 others filled, and {checks} checks, as the independent program has them");
}
