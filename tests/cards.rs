// cards SEED: whole area files through the C boundary, against the independent program: how long they are; every area up to 12 by 12 written and read, those
// about one, two and three blocks of table, thin, random and the largest ones; each told as another kind or area, and with bytes and words changed at random.
#![allow(dead_code)] // the programs' common files have more than is needed here
mod card;
mod expected;
mod independent;
mod random;
#[path = "../bindings/rust/src/raw.rs"]
mod raw;

use card::{of_area, random_area, read, write, Card, OLD};
use expected::{due, told, untouched, UNTOUCHED};
use independent::{little_endian, BLOCK_BYTES, BLOCK_WORDS};
use random::Random;

// How long a card is: of every area up to 300 by 300, of those at the limits, and of any numbers at all; and by hand, where a block is full.
fn lengths(random: &mut Random) -> u64 {
    let mut calls = 0;
    let mut compare = |w: u32, h: u32| {
        let answer = independent::card_length(w.into(), h.into());
        for places in [1, 0, 3] {
            let mut bytes = untouched::<u64>(places);
            let returned = unsafe { raw::uvalinda_card_length(w, h, bytes.as_mut_ptr(), places) };
            assert_eq!(told(returned, bytes), due(&answer, 1, places), "how long a card of {w} by {h} is, told in {places} places");
            calls += 1;
        }
    };
    for (w, h) in (0..=300).flat_map(|w| (0..=300).map(move |h| (w, h))) {
        compare(w, h);
    }
    let ends = [0, 1, 126, 127, 255, 256, 257, 4095, 4096, 4097, 65534, 65535, 65536, 65537, 1 << 31, u32::MAX];
    for (w, h) in ends.into_iter().flat_map(|w| ends.map(|h| (w, h))) {
        compare(w, h);
    }
    for _ in 0..20_000 {
        let (w, h) = random_area(random);
        compare(w, h);
    }
    for (squares, blocks) in [(1, 2), (125, 2), (126, 2), (127, 3), (252, 3), (253, 4), (65535, 522)] {
        assert_eq!(independent::card_length(squares, 1), Ok(vec![512 * blocks]), "{squares} squares");
    }
    assert_eq!(independent::card_length(4096, 4096), Ok(vec![512 * (1 + 133_153)]));
    calls
}

// Writes a card over old bytes, and reads it into a table of none of its numbers. Returns its table and its bytes.
fn round(card: Card) -> (Vec<u32>, Vec<u8>) {
    let (table, file) = (card.table(), card.file());
    let (mut written, mut back) = (vec![OLD; file.len()], vec![UNTOUCHED; table.len()]);
    assert_eq!(write(card, &table, &mut written), 0, "a writer of {card:?}");
    assert!(written == file, "what the writer of {card:?} wrote");
    assert_eq!(read(card, &file, &mut back), (0, 0), "a reader of {card:?}");
    assert!(back == table, "what the reader of {card:?} gave");
    (table, file)
}

// A reader told this refuses the file so. It leaves the table as it was, which holds none of the file's numbers.
#[track_caller]
fn refused(told: Card, file: &[u8], due: (u32, u64), what: &str) {
    let mut table = vec![UNTOUCHED; told.squares()];
    assert_eq!(read(told, file, &mut table), due, "a reader told {told:?} of {what}");
    assert!(table.iter().all(|place| *place == UNTOUCHED), "the table after a refused reader told {told:?} of {what}");
}

// A card whole: as long as it is told to be, round in either sense, and written over a card of the other kind. Told the other kind, or the area turned, it
// is 15; only a writer cannot tell the kinds of an area whose two tables are one.
fn whole(card: Card) {
    let (table, file) = round(card);
    assert_eq!(independent::card_length(card.w.into(), card.h.into()), Ok(vec![file.len() as i64]), "how long {card:?} is");
    let other = card.other_kind();
    let mut over = other.file();
    assert_eq!(write(card, &table, &mut over), 0, "a writer of {card:?} over another card");
    assert!(over == file, "what the writer of {card:?} wrote over another card");
    let mut target = vec![OLD; file.len()];
    let (refusal, after) = if other.table() == table { (0, other.file()) } else { (15, target.clone()) };
    assert_eq!(write(other, &table, &mut target), refusal, "a writer told {other:?} with the other kind's table");
    assert!(target == after, "the file after a writer told {other:?} with the other kind's table");
    refused(other, &file, (15, 0), "the other kind's card");
    if card.w != card.h {
        refused(card.turned(), &file, (15, 0), "the turned area's card");
    }
}

// Some bytes of a card changed, each alone: 14 with its own block. Some words of it changed, each alone and with the check put right: 15.
fn spoilt(random: &mut Random, card: Card, rounds: usize) {
    let (mut file, mut words) = (card.file(), card.words());
    for _ in 0..rounds {
        let at = random.below(file.len() as u64) as usize;
        let change = 1 + random.below(255) as u8;
        file[at] ^= change;
        refused(card, &file, (14, (at / BLOCK_BYTES) as u64), &format!("its card with byte {at} changed by {change}"));
        file[at] ^= change;
        let word = random.below(words.len() as u64) as usize;
        if word % BLOCK_WORDS == BLOCK_WORDS - 1 {
            continue;
        }
        let change = random.of(&[1, 2, 255, 1 << 31, u32::MAX]);
        let check = word - word % BLOCK_WORDS + BLOCK_WORDS - 1;
        let (due, sum) = (words[word], words[check]);
        words[word] = due.wrapping_add(change);
        words[check] = sum.wrapping_add(change);
        refused(card, &little_endian(&words), (15, 0), &format!("its card with word {word} changed by {change}, and the check with it"));
        (words[word], words[check]) = (due, sum);
    }
}

// Areas of about one, two and three blocks of table, thin ones, random ones up to 100,000 squares, and the largest.
fn sizes(random: &mut Random) -> usize {
    let about = [
        (1, 1), (125, 1), (25, 5), (126, 1), (1, 126), (63, 2), (2, 63), (42, 3), (3, 42), (21, 6), (6, 21), (18, 7), (7, 18), (14, 9), (9, 14), (127, 1),
        (1, 127), (128, 1), (16, 8), (251, 1), (252, 1), (1, 252), (126, 2), (2, 126), (21, 12), (12, 21), (14, 18), (253, 1), (1, 253), (23, 11), (11, 23),
        (378, 1), (379, 1), (65535, 1), (1, 65535), (32768, 2), (2, 32768), (3, 30000), (30000, 3), (256, 256), (255, 257), (300, 301),
    ];
    let mut areas = about.to_vec();
    for most in [100, 1_000, 10_000, 50_000] {
        areas.extend((0..5).map(|_| {
            let w = 1 + random.below(most) as u32;
            (w, 1 + random.below(100_000 / w as u64) as u32)
        }));
    }
    for card in areas.iter().flat_map(|&(w, h)| of_area(w, h)) {
        whole(card);
        spoilt(random, card, 20);
    }
    let limit = [(4096, 4096), (65535, 256)];
    for card in limit.into_iter().flat_map(|(w, h)| of_area(w, h)) {
        largest(random, card);
    }
    areas.len() + limit.len()
}

// One of the largest cards, written and read, and refused for its last byte and for two exchanged words of a block, which no check can tell.
fn largest(random: &mut Random, card: Card) {
    let (_, mut file) = round(card);
    let last = file.len() - 1;
    file[last] ^= 1;
    refused(card, &file, (14, (last / BLOCK_BYTES) as u64), "its card with the last byte changed");
    file[last] ^= 1;
    let block = BLOCK_BYTES * (1 + random.below((file.len() / BLOCK_BYTES - 2) as u64) as usize);
    let word = block + 4 * random.below(125) as usize;
    file[word..word + 8].rotate_left(4);
    refused(card, &file, (15, 0), "its card with two words exchanged");
}

fn main() {
    let seed = std::env::args().nth(1).map_or(1, |word| word.parse().expect("a seed"));
    println!("cards: seed {seed}");
    let mut random = Random::from(seed);
    let lengths = lengths(&mut random);
    for card in (1..=12).flat_map(|w| (1..=12).flat_map(move |h| of_area(w, h))) {
        whole(card);
        spoilt(&mut random, card, 10);
    }
    let sizes = sizes(&mut random);
    println!("cards: {lengths} lengths told; both kinds of every area up to 12 by 12 and of {sizes} others written, read and spoilt");
}
