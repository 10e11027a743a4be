// departures SEED: what a writer and a reader of area files refuse, through the C boundary, against the independent program: every byte of a small card changed
// to every value; every length of a file; every word changed with its check; blocks put together otherwise; cards of other areas and kinds than told; wrong
// tables; each refusal beside each that comes after it; results too short; null pointers and lengths beyond 32 bits; and hostile files at random.
#![allow(dead_code)] // the programs' common files have more than is needed here
mod card;
mod expected;
mod independent;
mod random;
#[path = "../bindings/rust/src/raw.rs"]
mod raw;

use card::{of_area, random_area, reads, writes, Card, BY_NUMBER, BY_SQUARE, KINDS, OLD};
use expected::{untouched, UNTOUCHED};
use independent::{card_words, check_of, little_endian, BLOCK_BYTES, BLOCK_WORDS};
use random::Random;
use std::ptr::{null, null_mut};

// Told kinds that there are not; the lowest byte of some is one that there is.
const NO_KINDS: [u32; 8] = [0, 3, 4, 257, 258, 1 << 24, (1 << 31) + 1, u32::MAX];

// Where the count and the check of a block stand, and the words of content before them.
const COUNT: usize = 126;
const CHECK: usize = 127;

// Puts the check right in every whole block.
fn mend(words: &mut [u32]) {
    for block in words.chunks_exact_mut(BLOCK_WORDS) {
        block[CHECK] = check_of(&block[..CHECK]);
    }
}

// The card with words altered and the checks put right.
fn altered(card: Card, change: impl Fn(&mut Vec<u32>)) -> Vec<u8> {
    let mut words = card.words();
    change(&mut words);
    mend(&mut words);
    little_endian(&words)
}

// Every byte of a card changed to every value: 14, with the block that it lies in, unless it is the value that stands there.
fn each_byte(card: Card) -> u64 {
    let mut file = card.file();
    for at in 0..file.len() {
        let due = file[at];
        for value in 0..=255 {
            file[at] = value;
            let expected = if value == due { (0, 0) } else { (14, (at / BLOCK_BYTES) as u64) };
            assert_eq!(reads(card, &file, card.squares()), expected, "byte {at} of {card:?} changed to {value}");
        }
        file[at] = due;
    }
    256 * file.len() as u64
}

// Every length of a file, from none to two blocks more than a card has. A writer takes one of them. A reader takes a card that is cut or goes on: with bytes of
// 0, with good blocks and with bad ones. A bad block is told of where all of it is there, also beyond the card's end.
fn each_length(card: Card) {
    let (table, file) = (card.table(), card.file());
    let empty = little_endian(&card_words(&[], &[]));
    let last = file[file.len() - BLOCK_BYTES..].to_vec();
    let none = vec![0; BLOCK_BYTES];
    let mut bad_last = last.clone();
    bad_last[0] ^= 1;
    let tails = [[&none, &none], [&empty, &empty], [&last, &last], [&bad_last, &last], [&last, &bad_last], [&empty, &none]];
    for length in 0..=file.len() + 2 * BLOCK_BYTES {
        assert_eq!(writes(card, &table, length), if length == file.len() { 0 } else { 4 }, "{card:?}, a file of {length} bytes");
        for tail in tails {
            let mut long = [&file[..], tail[0], tail[1]].concat();
            long.truncate(length);
            let bad = (0..2).find(|&i| *tail[i] == none || *tail[i] == bad_last).map(|i| file.len() / BLOCK_BYTES + i);
            let expected = match bad {
                _ if length == file.len() => (0, 0),
                Some(block) if length >= (block + 1) * BLOCK_BYTES => (14, block as u64),
                _ => (15, 0),
            };
            assert_eq!(reads(card, &long, card.squares()), expected, "{card:?}, {length} bytes");
            if length > 0 {
                long[0] ^= 1;
                let expected = if length < BLOCK_BYTES { (15, 0) } else { (14, 0) };
                assert_eq!(reads(card, &long, card.squares()), expected, "{card:?}, {length} bytes, its first one changed");
            }
        }
    }
}

// A file of blocks, each by the words that it has in use.
fn file_of(blocks: &[&[u32]]) -> Vec<u8> {
    let sealed: Vec<u32> = blocks.iter().flat_map(|used| card_words(used, &[])).collect();
    little_endian(&sealed)
}

// Every word of a card but the checks made another one, with its block's check put right: 15. Among them are other versions, areas and kinds in block 0,
// counts that are one off, or in bytes, or beyond a block, unused words that are not zero, and one wrong place of the table. Exchanging two words of a block
// leaves the check as it is.
fn each_word(card: Card) -> u64 {
    let words = card.words();
    let mut calls = 0;
    for at in (0..words.len()).filter(|at| at % BLOCK_WORDS != CHECK) {
        let due = words[at];
        let values = [0, 1, 2, 3, due ^ 1, due.wrapping_add(1), due.wrapping_sub(1), due.wrapping_mul(4), due.swap_bytes(), 127, 128, 1 << 31, u32::MAX];
        for value in values.into_iter().filter(|value| *value != due) {
            let file = altered(card, |words| words[at] = value);
            assert_eq!(reads(card, &file, card.squares()), (15, 0), "word {at} of {card:?} is {value}, and not {due}");
            calls += 1;
        }
    }
    for (block, i, j) in (0..words.len() / BLOCK_WORDS).flat_map(|block| (1..CHECK).flat_map(move |j| [(block, 0, j), (block, j - 1, j)])) {
        let (one, other) = (block * BLOCK_WORDS + i, block * BLOCK_WORDS + j);
        if words[one] != words[other] {
            let file = altered(card, |words| words.swap(one, other));
            assert_eq!(reads(card, &file, card.squares()), (15, 0), "words {one} and {other} of {card:?} exchanged");
            calls += 1;
        }
    }
    calls
}

// How many words of the table its blocks have where they are put together otherwise.
const ROOMS: [usize; 4] = [1, 5, 63, 125];

// The card's blocks and words put together otherwise, with every check right.
fn put_otherwise(card: Card) -> Vec<Vec<u8>> {
    let (head, table) = (card.head(), card.table());
    let [version, w, h, kind] = head;
    let full: Vec<&[u32]> = table.chunks(COUNT).collect();
    let headed = |head: &[&[u32]]| file_of(&[head, &full].concat());
    let blocks = |table: &[&[u32]]| file_of(&[&[&head[..]], table].concat());
    let back = |words: &mut [u32]| words.iter_mut().for_each(|word| *word = word.swap_bytes());
    let mut all = vec![
        file_of(&[]),
        headed(&[]),
        headed(&[&[version, w, h]]),
        headed(&[&[version, w, h, kind, 0]]),
        headed(&[&[version, w, h, kind, 1]]),
        headed(&[&[version], &[w, h, kind]]),
        headed(&[&head, &head]),
        headed(&[&[], &head]),
        file_of(&[&full[..], &[&head]].concat()),
        blocks(&[]),
        blocks(&full[1..]),
        blocks(&full[..full.len() - 1]),
        blocks(&[&[&[][..]], &full[..]].concat()),
        blocks(&[&full[..], &[&[]]].concat()),
        blocks(&[&full[..], &full].concat()),
        blocks(&[&full[..], &[&head]].concat()),
        little_endian(&card_words(&head, &[&table[..], &[0]].concat())),
        little_endian(&card_words(&head, &table[1..])),
        altered(card, |words| back(&mut words[..CHECK])),
        altered(card, |words| back(words)),
        altered(card, |words| words.reverse()),
    ];
    for room in ROOMS {
        let (first, rest) = table.split_at(room.min(table.len()));
        all.push(blocks(&table.chunks(room).collect::<Vec<_>>()));
        all.push(blocks(&[&[first], &rest.chunks(COUNT).collect::<Vec<_>>()[..]].concat()));
        all.push(blocks(&[&[first, &[]], &rest.chunks(COUNT).collect::<Vec<_>>()[..]].concat()));
    }
    all
}

// Files that depart from the layout in how their blocks are made up, and exchanged blocks: all are 15 but those that come out as the card, which are the two of
// each room that holds the whole table. With every word the other way round, the checks too, it is 14.
fn departures(card: Card) -> u64 {
    let file = card.file();
    let mut all = put_otherwise(card);
    for (i, j) in (0..file.len() / BLOCK_BYTES).flat_map(|j| (0..j).map(move |i| (i, j))) {
        let mut order: Vec<&[u8]> = file.chunks(BLOCK_BYTES).collect();
        order.swap(i, j);
        all.push(order.concat());
    }
    let made = all.len();
    all.retain(|other| *other != file);
    let roomy = ROOMS.into_iter().filter(|room| *room >= card.squares()).count();
    assert_eq!(made - all.len(), 2 * roomy, "how many departures of {card:?} come out as the card");
    for (i, other) in all.iter().enumerate() {
        assert_eq!(reads(card, other, card.squares()), (15, 0), "departure {i} of {card:?}");
    }
    let back: Vec<u8> = file.chunks(4).flat_map(|word| word.iter().rev().copied()).collect();
    assert_eq!(reads(card, &back, card.squares()), (14, 0), "{card:?} with every word the other way round");
    all.len() as u64 + 1
}

// Cards of other areas and kinds than told, whole and right, and told kinds that there are not.
fn others(card: Card) {
    let Card { w, h, .. } = card;
    for (w, h) in [(w + 1, h), (w, h + 1), (w.max(2) - 1, h), (h, w), (w * h, 1), (1, w * h), (1, 1)] {
        for other in of_area(w, h) {
            let due = if (other.w, other.h, other.kind) == (card.w, card.h, card.kind) { 0 } else { 15 };
            assert_eq!(reads(card, &other.file(), card.squares()).0, due, "a reader told {card:?} of {other:?}");
            let (table, length) = (other.table(), card.file().len());
            let due = match () {
                _ if table.len() != card.squares() => 4,
                _ if table != card.table() => 15,
                _ => 0,
            };
            assert_eq!(writes(card, &table, length), due, "a writer told {card:?} with the table of {other:?}");
        }
    }
    for kind in NO_KINDS {
        let none = Card { kind, ..card };
        for file in [card.file(), card.other_kind().file(), none.file()] {
            assert_eq!(reads(none, &file, card.squares()), (15, 0), "a reader told {none:?}");
        }
        assert_eq!(reads(card, &none.file(), card.squares()), (15, 0), "a reader told {card:?} of {none:?}");
        assert_eq!(writes(none, &card.table(), card.file().len()), 15, "a writer told {none:?}");
        assert_eq!(writes(none, &card.other_kind().table(), card.file().len()), 15, "a writer told {none:?}");
    }
}

// Writers with one place wrong, each place in turn, and with two exchanged.
fn wrong_tables(card: Card) {
    let right = card.table();
    for at in 0..right.len() {
        let due = right[at];
        for value in [due ^ 1, due.wrapping_add(1), due.wrapping_sub(1), due ^ 1 << 31, due.swap_bytes(), right.len() as u32, u32::MAX] {
            let mut table = right.clone();
            table[at] = value;
            assert_eq!(writes(card, &table, card.file().len()), if value == due { 0 } else { 15 }, "place {at} of {card:?} is {value}");
        }
        let mut table = right.clone();
        table.swap(at, right.len() - 1);
        assert_eq!(writes(card, &table, card.file().len()), if at == right.len() - 1 { 0 } else { 15 }, "place {at} of {card:?} exchanged with the last");
    }
}

// The first of some refusals; 0 is none.
fn first(refusals: &[u32]) -> u32 {
    refusals.iter().copied().find(|refusal| *refusal != 0).unwrap_or(0)
}

// Files for a reader that is told 3 by 4 by number, each with what its checks give, the block told then, and what the rest of it gives.
fn judged_files() -> Vec<(Vec<u8>, u32, u64, u32)> {
    let (file, wrong) = (Card { w: 3, h: 4, kind: BY_NUMBER }.file(), Card { w: 4, h: 4, kind: BY_NUMBER }.file());
    let with = |file: &[u8], at: usize| [&file[..at], &[file[at] ^ 1], &file[at + 1..]].concat();
    vec![
        (file.clone(), 0, 0, 0),
        (with(&file, 0), 14, 0, 0),
        (with(&file, 1023), 14, 1, 0),
        (with(&with(&file, 600), 1000), 14, 1, 0),
        (with(&with(&file, 0), 1000), 14, 0, 0),
        ([&file[..], &[0; 512]].concat(), 14, 2, 15),
        ([&file[..], &[0; 511]].concat(), 0, 0, 15),
        (file[..1023].to_vec(), 0, 0, 15),
        (with(&file[..1023], 511), 14, 0, 15),
        (with(&file[..1023], 512), 0, 0, 15),
        (with(&wrong, 700), 14, 1, 15),
        (wrong, 0, 0, 15),
        (vec![], 0, 0, 15),
    ]
}

// Each refusal beside each that comes after it, by hand: what is due is the first that applies.
fn in_order() -> u64 {
    let (files, right) = (judged_files(), Card { w: 3, h: 4, kind: BY_NUMBER }.table());
    let areas = [(3, 4, 0), (0, 4, 1), (3, 65536, 1), (65536, 257, 1), (65536, 65536, 1), (4096, 4097, 13), (65535, 65535, 13)];
    let kinds = [(BY_NUMBER, 0), (BY_SQUARE, 15), (0, 15), (3, 15), (u32::MAX, 15)];
    let tables = [(12, 0), (11, 4), (13, 4), (0, 4)];
    let mut calls = 0;
    for ((w, h, of_area), (kind, of_kind)) in areas.into_iter().flat_map(|area| kinds.map(|kind| (area, kind))) {
        let told = Card { w, h, kind };
        for ((places, of_places), (file, of_checks, block, of_rest)) in tables.into_iter().flat_map(|table| files.iter().map(move |file| (table, file))) {
            let refusal = first(&[of_area, of_places, *of_checks, of_kind, *of_rest]);
            let expected = (refusal, if refusal == 14 { *block } else { 0 });
            assert_eq!(reads(told, file, places), expected, "a reader told {told:?}, {places} places, a file of {} bytes", file.len());
            calls += 1;
        }
        for ((places, of_places), wrong) in tables.into_iter().flat_map(|table| [(table, 0), (table, 15)]) {
            let mut table = if wrong == 0 { right.clone() } else { vec![7; 12] };
            table.resize(places, 0);
            for (bytes, of_bytes) in [(1024, 0), (1023, 4), (1025, 4), (512, 4), (1536, 4), (0, 4)] {
                let refusal = first(&[of_area, of_places, of_bytes, of_kind, wrong]);
                assert_eq!(writes(told, &table, bytes), refusal, "a writer told {told:?}, {places} places, {bytes} bytes");
                calls += 1;
            }
        }
    }
    calls
}

// The reader with a slice for the block of none, one and three places, at every answer: with none it does nothing.
fn block_places() {
    let card = Card { w: 127, h: 1, kind: BY_SQUARE };
    let (file, mut bad) = (card.file(), card.file());
    bad[1400] ^= 4;
    for (told, file, squares, refusal, index) in [
        (card, &file, 127, 0, 0),
        (Card { w: 0, ..card }, &file, 127, 1, 0),
        (Card { w: 4097, h: 4096, ..card }, &file, 127, 13, 0),
        (card, &file, 126, 4, 0),
        (card, &bad, 127, 14, 2),
        (card.other_kind(), &file, 127, 15, 0),
    ] {
        for places in [0, 1, 3] {
            let (mut table, mut block) = (vec![UNTOUCHED; squares], untouched::<u64>(places));
            let Card { w, h, kind } = told;
            let returned =
                unsafe { raw::uvalinda_read_card(w, h, kind, file.as_ptr(), file.len(), table.as_mut_ptr(), squares, block.as_mut_ptr(), places) };
            assert_eq!(expected::told(returned, block), expected::left(refusal, &[index], places), "{told:?}, {places} places for the block");
            let after = if refusal == 0 && places > 0 { card.table() } else { vec![UNTOUCHED; squares] };
            assert!(table == after, "the table after a reader told {told:?}, {places} places for the block");
        }
    }
}

// Null pointers where a length is 0, and lengths that are compared whole: 2^32 more than the right one is not the right one. Where these are refused nothing
// is looked at, so no such table is made, nor such a file for a writer.
fn bare() {
    let card = Card { w: 3, h: 4, kind: BY_NUMBER };
    let (right, file) = (card.table(), card.file());
    let (mut table, mut target, mut block) = ([UNTOUCHED; 12], [OLD; 1024], [7u64]);
    for (w, h, kind, refusal) in [(3, 4, 1, 4), (3, 4, 9, 4), (0, 4, 1, 1), (65536, 65536, 9, 1), (4096, 4097, 1, 13), (65535, 65535, 9, 13)] {
        let places = w as usize * h as usize;
        unsafe {
            assert_eq!(raw::uvalinda_write_card(w, h, kind, null(), 0, null_mut(), 0), refusal);
            assert_eq!(raw::uvalinda_write_card(w, h, kind, null(), 0, target.as_mut_ptr(), 1024), refusal);
            assert_eq!(raw::uvalinda_write_card(w, h, kind, right.as_ptr(), 12, null_mut(), 0), refusal);
            assert_eq!(raw::uvalinda_write_card(w, h, kind, right.as_ptr(), (1 << 32) + 12, target.as_mut_ptr(), 1024), refusal);
            assert_eq!(raw::uvalinda_write_card(w, h, kind, right.as_ptr(), 12, target.as_mut_ptr(), (1 << 32) + 1024), refusal);
            assert_eq!(raw::uvalinda_write_card(w, h, kind, right.as_ptr(), places + 1, target.as_mut_ptr(), 512 + 512 * places.div_ceil(126)), refusal);
            assert_eq!(raw::uvalinda_read_card(w, h, kind, null(), 0, null_mut(), 0, block.as_mut_ptr(), 1), refusal);
            assert_eq!(raw::uvalinda_read_card(w, h, kind, file.as_ptr(), 1024, null_mut(), 0, block.as_mut_ptr(), 1), refusal);
            assert_eq!(raw::uvalinda_read_card(w, h, kind, file.as_ptr(), 1024, table.as_mut_ptr(), (1 << 32) + 12, block.as_mut_ptr(), 1), refusal);
            assert_eq!(raw::uvalinda_read_card(w, h, kind, null(), 0, null_mut(), 0, null_mut(), 0), 255);
            assert_eq!(raw::uvalinda_card_length(w, h, null_mut(), 0), 255);
        }
        assert_eq!((table, target, block), ([UNTOUCHED; 12], [OLD; 1024], [0]), "{w} by {h}, kind {kind}");
    }
    unsafe {
        assert_eq!(raw::uvalinda_read_card(3, 4, 1, null(), 0, table.as_mut_ptr(), 12, block.as_mut_ptr(), 1), 15);
        assert_eq!(raw::uvalinda_read_card(3, 4, 1, file.as_ptr(), 1024, table.as_mut_ptr(), 12, null_mut(), 0), 255);
    }
    assert_eq!((table, block), ([UNTOUCHED; 12], [0]));
}

// A file that is a card, nearly one, or none: some changes with the checks put right or not, cut or gone on.
fn hostile_file(random: &mut Random, card: Card) -> Vec<u8> {
    let mut words = card.words();
    for _ in 0..random.of(&[0, 1, 1, 1, 2, 3]) {
        if words.is_empty() {
            break;
        }
        let blocks = (words.len() / BLOCK_WORDS) as u64;
        let (one, other) = (random.below(blocks) as usize * BLOCK_WORDS, random.below(blocks) as usize * BLOCK_WORDS);
        let at = one + random.of(&[0, 1, 2, 3, 4, 5, 11, 12, 13, 125, COUNT, COUNT, CHECK]);
        let block = words[one..one + BLOCK_WORDS].to_vec();
        match random.below(9) {
            0 => words[at] = random.of(&[0, 1, 2, 3, 4, 12, 125, 126, 127, u32::MAX]),
            1 => words[at] = words[at].wrapping_add(random.of(&[1, 2, u32::MAX, 1 << 31])),
            2 => words.swap(at, one + random.below(127) as usize),
            3 => (0..BLOCK_WORDS).for_each(|i| words.swap(one + i, other + i)),
            4 => drop(words.drain(one..one + BLOCK_WORDS)),
            5 => drop(words.splice(other..other, block)),
            6 => drop(words.splice(one..one, card_words(&[], &[]))),
            7 => words.extend(vec![0; BLOCK_WORDS]),
            _ => words[at] = words[at].swap_bytes(),
        }
        if random.below(3) > 0 {
            mend(&mut words);
        }
    }
    let mut file = little_endian(&words);
    match random.below(12) {
        0 => file.truncate(random.below(file.len() as u64 + 1) as usize),
        1 => file.resize(file.len() + random.below(600) as usize, random.of(&[0, 1, 255])),
        2 if !file.is_empty() => {
            let at = random.below(file.len() as u64) as usize;
            file[at] = random.below(256) as u8;
        }
        3 => file = (0..random.below(2_000)).map(|_| random.below(256) as u8).collect(),
        _ => {}
    }
    file
}

// A small card, mostly of one or two blocks of table.
fn small_card(random: &mut Random) -> Card {
    let (w, h) = random.of(&[(1, 1), (2, 1), (3, 4), (4, 3), (5, 2), (14, 9), (127, 1), (1, 127), (21, 12), (23, 11), (12, 12), (20, 19)]);
    Card { w, h, kind: random.of(&KINDS) }
}

// Hostile files and tables at random. A reader takes a file exactly if it is the card that it was told of. Every answer comes in one round of
// a hundred or oftener.
fn hostile(random: &mut Random, rounds: u64) -> u64 {
    let (mut of_readers, mut of_writers) = ([0; 16], [0; 16]);
    for _ in 0..rounds {
        let card = small_card(random);
        let file = hostile_file(random, card);
        let told = match random.below(12) {
            0 => card.other_kind(),
            1 => card.turned(),
            2 => Card { kind: random.of(&NO_KINDS), ..card },
            3 => small_card(random),
            4 => {
                let (w, h) = random_area(random);
                Card { w, h, ..card }
            }
            _ => card,
        };
        let places = if told.squares() < 1_000 && random.below(10) > 0 { told.squares() } else { random.below(300) as usize };
        let (refusal, _) = reads(told, &file, places);
        let accepted = independent::accepted(told.w.into(), told.h.into()).is_ok() && told.squares() == places && KINDS.contains(&told.kind);
        assert_eq!(refusal == 0, accepted && file == told.file(), "{told:?}, a file of {} bytes", file.len());
        of_readers[refusal as usize] += 1;
        let mut table = if places == card.squares() { card.table() } else { vec![0; places] };
        if places > 0 && random.below(3) == 0 {
            table[random.below(places as u64) as usize] ^= random.of(&[0, 1, 2, 1 << 31]);
        }
        let bytes = if random.below(8) == 0 || told.squares() > 1_000 { file.len() } else { 512 + 512 * told.squares().div_ceil(COUNT) };
        of_writers[writes(told, &table, bytes) as usize] += 1;
    }
    for (answers, due) in [(of_readers, &[0, 1, 4, 13, 14, 15][..]), (of_writers, &[0, 1, 4, 13, 15])] {
        assert!(due.iter().all(|answer: &usize| answers[*answer] >= rounds / 100), "how often each of {due:?} came, from 0 to 15: {answers:?}");
    }
    of_readers[0]
}

fn main() {
    let seed = std::env::args().nth(1).map_or(1, |word| word.parse().expect("a seed"));
    println!("departures: seed {seed}");
    let mut random = Random::from(seed);
    let (mut bytes, mut words, mut departing) = (0, 0, 0);
    for card in [(1, 1), (3, 4), (14, 9), (127, 1), (23, 11)].into_iter().flat_map(|(w, h)| of_area(w, h)) {
        if card.squares() <= 12 {
            bytes += each_byte(card);
        }
        each_length(card);
        words += each_word(card);
        departing += departures(card);
        wrong_tables(card);
    }
    println!("departures: {bytes} changes of a byte, {words} of a word with its check, {departing} of blocks, and every length of a file");
    for card in (1..=12).flat_map(|w| (1..=12).flat_map(move |h| of_area(w, h))).chain(of_area(127, 1)) {
        others(card);
    }
    let ordered = in_order();
    block_places();
    bare();
    let taken = hostile(&mut random, 200_000);
    println!("departures: {ordered} calls with several refusals, and 400000 hostile ones, of which {taken} read a card, as the independent program has them");
}
