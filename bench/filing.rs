// A card's writer and its readers in safe Rust, to measure the library against. All go the library's way: the sums of all blocks, block 0, each block's count
// and its unused words, the table, and only then is anything written. One reader has the library's own idea for the table: it fills 1,008 entries at a time
// and compares them. The other is the best that we could write: it walks over the file itself, and by number it compares a part with the one that it repeats.
use crate::copying::{self, image};
use crate::strong::{self, even_half, judged, moved};

const AT_A_TIME: usize = 1008;

type Block = [u8; 512];

fn blocks_of(file: &[u8]) -> impl Iterator<Item = &Block> {
    file.chunks_exact(512).map(|block| block.try_into().expect("512 bytes"))
}

fn words(bytes: &[u8]) -> impl Iterator<Item = u32> + '_ {
    bytes.chunks_exact(4).map(|word| u32::from_le_bytes(word.try_into().expect("four bytes")))
}

fn word(bytes: &[u8], i: usize) -> u32 {
    u32::from_le_bytes(bytes[4 * i..4 * i + 4].try_into().expect("four bytes"))
}

// Where place p of a table has its word, in the blocks behind block 0.
fn word_of(p: usize) -> usize {
    128 * (p / 126) + p % 126
}

fn check_due(block: &Block) -> u32 {
    words(&block[..508]).fold(1, u32::wrapping_add)
}

fn is_framed(block: &Block, used: usize) -> bool {
    words(&block[4 * used..504]).all(|word| word == 0) && word(block, 126) as usize == used
}

// How many pairs are alike, in 32 bits: a loop that may end early is not taken many words at a time, and a count of 64 bits takes fewer.
fn alike(pairs: impl Iterator<Item = (u32, u32)>) -> usize {
    pairs.map(|(one, other)| (one == other) as u32).sum::<u32>() as usize
}

// Whether a block's content is that of a slice.
fn has(block: &Block, content: &[u32]) -> bool {
    alike(words(&block[..504]).zip(content.iter().copied())) == content.len()
}

// The squares of a straight block that have their numbers in the stretch from `first` on.
fn straight_in(out: &mut [u32], first: u32, number: u32, place: u32, stride: i32, length: u32) {
    let skip = first.saturating_sub(number).min(length);
    let end = (first + out.len() as u32).saturating_sub(number).min(length);
    strong::straight::<false>(out, (number + skip).saturating_sub(first), moved(place, stride, skip), stride, end.saturating_sub(skip));
}

// The entries of the numbers from `first` on, of a block of the division with its first number and place.
fn stretch(out: &mut [u32], first: u32, number: u32, place: u32, run: i32, side: i32, a: u32, b: u32) {
    let (behind, end) = (number + a * b, first + out.len() as u32);
    if behind <= first || end <= number {
    } else if first <= number && behind <= end {
        copying::walk(out, number - first, place, run, side, a, b);
    } else if b == 1 {
        straight_in(out, first, number, place, run, a);
    } else if a == 1 {
        straight_in(out, first, number, place, side, b);
    } else if 2 * a > 3 * b {
        let e = even_half(a);
        stretch(out, first, number, place, run, side, e, b);
        stretch(out, first, number + e * b, moved(place, run, e), run, side, a - e, b);
    } else {
        let (e, m) = (even_half(b), a / 2);
        let (corner, to_b) = (moved(moved(place, run, a - 1), side, e - 1), number + e * m);
        stretch(out, first, number, place, side, run, e, m);
        stretch(out, first, to_b, moved(place, side, e), run, side, a, b - e);
        stretch(out, first, to_b + a * (b - e), corner, -side, -run, e, a - m);
    }
}

// Whether blocks have a right table, by stretches of its entries.
#[inline(never)]
fn right_by_stretches(w: u32, h: u32, kind: u32, blocks: &[u8]) -> bool {
    let mut buffer = [0; AT_A_TIME];
    (0..w * h).step_by(AT_A_TIME).all(|first| {
        let entries = &mut buffer[..AT_A_TIME.min((w * h - first) as usize)];
        stretch(entries, first, 0, 0, 1, w as i32, w, h);
        if kind == 1 {
            return blocks_of(&blocks[4 * word_of(first as usize)..]).zip(entries.chunks(126)).all(|(block, entries)| has(block, entries));
        }
        (first..).zip(entries).all(|(number, entry)| word(blocks, word_of(*entry as usize)) == number)
    })
}

// Whether they have the squares of a straight block.
fn straight_right<const BY_SQUARE: bool>(blocks: &[u8], number: u32, place: u32, stride: i32, length: u32) -> bool {
    (0..length).all(|i| {
        let (number, place) = (number + i, moved(place, stride, i));
        let (at, due) = if BY_SQUARE { (place, number) } else { (number, place) };
        word(blocks, word_of(at as usize)) == due
    })
}

// Whether n places from `to` on are images of those from `from` on, in pieces that lie in one block each.
fn again(blocks: &[u8], from: u32, to: u32, n: u32, constant: u32, opposite: bool) -> bool {
    let (mut from, mut to, end) = (from as usize, to as usize, (to + n) as usize);
    while to < end {
        let piece = (126 - from % 126).min(126 - to % 126).min(end - to);
        let earlier = words(&blocks[4 * word_of(from)..][..4 * piece]);
        let later = words(&blocks[4 * word_of(to)..][..4 * piece]);
        if alike(later.zip(earlier.map(|source| image(source, constant, opposite)))) != piece {
            return false;
        }
        (from, to) = (from + piece, to + piece);
    }
    true
}

// Whether they have a block of the division, with its first number and place.
fn right_in_place<const BY_SQUARE: bool>(blocks: &[u8], number: u32, place: u32, run: i32, side: i32, a: u32, b: u32) -> bool {
    if b == 1 {
        straight_right::<BY_SQUARE>(blocks, number, place, run, a)
    } else if a == 1 {
        straight_right::<BY_SQUARE>(blocks, number, place, side, b)
    } else if a == 2 && b <= 3 {
        straight_right::<BY_SQUARE>(blocks, number, place, side, b)
            && straight_right::<BY_SQUARE>(blocks, number + b, moved(moved(place, run, 1), side, b - 1), -side, b)
    } else if 2 * a > 3 * b {
        let e = even_half(a);
        let (second, to_second) = (moved(place, run, e), number + e * b);
        right_in_place::<BY_SQUARE>(blocks, number, place, run, side, e, b)
            && if !BY_SQUARE && e == a - e {
                again(blocks, number, to_second, e * b, second.wrapping_sub(place), false)
            } else {
                right_in_place::<BY_SQUARE>(blocks, to_second, second, run, side, a - e, b)
            }
    } else {
        let (e, m) = (even_half(b), a / 2);
        let (corner, to_b) = (moved(moved(place, run, a - 1), side, e - 1), number + e * m);
        let to_c = to_b + a * (b - e);
        right_in_place::<BY_SQUARE>(blocks, number, place, side, run, e, m)
            && right_in_place::<BY_SQUARE>(blocks, to_b, moved(place, side, e), run, side, a, b - e)
            && if !BY_SQUARE && a % 2 == 0 {
                again(blocks, number, to_c, e * m, place.wrapping_add(corner), true)
            } else {
                right_in_place::<BY_SQUARE>(blocks, to_c, corner, -side, -run, e, a - m)
            }
    }
}

// Whether they have a right table, by a walk over them.
#[inline(never)]
fn right_by_walk(w: u32, h: u32, kind: u32, blocks: &[u8]) -> bool {
    let right = if kind == 1 { right_in_place::<false> } else { right_in_place::<true> };
    right(blocks, 0, 0, 1, w as i32, w, h)
}

// Whether all of a file but its checks and its table is as it should be.
fn is_laid_out(w: u32, h: u32, kind: u32, file: &[u8]) -> bool {
    let places = (w * h) as usize;
    let used = |b: usize| if b == 0 { 4 } else { 126.min(places + 126 - 126 * b) };
    file.len() == 512 * (1 + places.div_ceil(126))
        && (1..=2).contains(&kind)
        && [1, w, h, kind].into_iter().eq(words(&file[..16]))
        && blocks_of(file).enumerate().all(|(b, block)| is_framed(block, used(b)))
}

fn read(right: fn(u32, u32, u32, &[u8]) -> bool, w: u32, h: u32, kind: u32, file: &[u8], table: &mut [u32]) -> Result<(), (u32, u64)> {
    judged(w, h, table.len()).map_err(|refusal| (refusal, 0))?;
    if let Some(bad) = blocks_of(file).position(|block| word(block, 127) != check_due(block)) {
        return Err((14, bad as u64));
    }
    if !is_laid_out(w, h, kind, file) || !right(w, h, kind, &file[512..]) {
        return Err((15, 0));
    }
    for (block, places) in blocks_of(&file[512..]).zip(table.chunks_mut(126)) {
        for (place, word) in places.iter_mut().zip(words(block)) {
            *place = word;
        }
    }
    Ok(())
}

#[inline(never)]
pub fn read_by_stretches(w: u32, h: u32, kind: u32, file: &[u8], table: &mut [u32]) -> Result<(), (u32, u64)> {
    read(right_by_stretches, w, h, kind, file, table)
}

#[inline(never)]
pub fn read_by_walk(w: u32, h: u32, kind: u32, file: &[u8], table: &mut [u32]) -> Result<(), (u32, u64)> {
    read(right_by_walk, w, h, kind, file, table)
}

// A block of up to 126 words of content.
fn write_block(block: &mut Block, content: &[u32]) {
    for (word, value) in block.chunks_exact_mut(4).zip(content) {
        word.copy_from_slice(&value.to_le_bytes());
    }
    block[4 * content.len()..504].fill(0);
    block[504..508].copy_from_slice(&(content.len() as u32).to_le_bytes());
    let check = check_due(block);
    block[508..].copy_from_slice(&check.to_le_bytes());
}

#[inline(never)]
pub fn write(w: u32, h: u32, kind: u32, table: &[u32], file: &mut [u8]) -> Result<(), u32> {
    judged(w, h, table.len())?;
    if file.len() != 512 * (1 + table.len().div_ceil(126)) {
        return Err(4);
    }
    let found = match kind {
        1 => copying::check(w, h, table),
        2 => strong::check(w, h, table, true),
        _ => return Err(15),
    };
    if found != Ok(None) {
        return Err(15);
    }
    let head = [1, w, h, kind];
    for (block, content) in file.chunks_exact_mut(512).zip(head.chunks(4).chain(table.chunks(126))) {
        write_block(block.try_into().expect("512 bytes"), content);
    }
    Ok(())
}
