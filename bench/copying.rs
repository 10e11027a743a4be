// Fill and check by number in safe Rust with the library's own idea: a part that repeats another is copied from it, or compared with it. Squares are linear
// addresses and directions strides, as in `strong`.
use crate::strong::{even_half, judged, leaf, look_leaf, look_straight, moved, straight, Wrong};

// A place of one block as the other has it.
pub fn image(place: u32, constant: u32, opposite: bool) -> u32 {
    if opposite { constant.wrapping_sub(place) } else { place.wrapping_add(constant) }
}

// Enters n places from `to` on, as those from `from` on have them.
#[inline(never)]
fn copy(table: &mut [u32], from: u32, to: u32, n: u32, constant: u32, opposite: bool) {
    let (earlier, later) = table.split_at_mut(to as usize);
    for (place, &source) in later[..n as usize].iter_mut().zip(&earlier[from as usize..][..n as usize]) {
        *place = image(source, constant, opposite);
    }
}

// Whether n places from `to` on are what a copy would enter: counted, since a loop that may end early is not taken many places at a time.
#[inline(never)]
fn agree(table: &[u32], from: u32, to: u32, n: u32, constant: u32, opposite: bool) -> bool {
    let (earlier, later) = (&table[from as usize..][..n as usize], &table[to as usize..][..n as usize]);
    let same: u32 = later.iter().zip(earlier).map(|(&place, &source)| (place == image(source, constant, opposite)) as u32).sum();
    same == n
}

// Fills a block from its first number and place on, and counts the blocks of its division.
pub fn walk(table: &mut [u32], number: u32, place: u32, run: i32, side: i32, a: u32, b: u32) -> u64 {
    if b == 1 {
        straight::<false>(table, number, place, run, a);
        1
    } else if a == 1 {
        straight::<false>(table, number, place, side, b);
        1
    } else if a == 2 && b <= 3 {
        leaf::<false>(table, number, place, run, side, b);
        4
    } else if 2 * a > 3 * b {
        let e = even_half(a);
        let (second, to_second) = (moved(place, run, e), number + e * b);
        let first = walk(table, number, place, run, side, e, b);
        if e == a - e {
            copy(table, number, to_second, e * b, second.wrapping_sub(place), false);
            return 1 + 2 * first;
        }
        1 + first + walk(table, to_second, second, run, side, a - e, b)
    } else {
        let (e, m) = (even_half(b), a / 2);
        let (corner, to_b) = (moved(moved(place, run, a - 1), side, e - 1), number + e * m);
        let to_c = to_b + a * (b - e);
        let up = walk(table, number, place, side, run, e, m);
        let over = walk(table, to_b, moved(place, side, e), run, side, a, b - e);
        if a % 2 == 0 {
            copy(table, number, to_c, e * m, place.wrapping_add(corner), true);
            return 1 + 2 * up + over;
        }
        1 + up + over + walk(table, to_c, corner, -side, -run, e, a - m)
    }
}

// The walk of a check, and whether all is right so far.
fn look_through(table: &[u32], wrong: &mut Wrong, number: u32, place: u32, run: i32, side: i32, a: u32, b: u32) -> bool {
    if b == 1 {
        look_straight::<false>(table, wrong, number, place, run, a)
    } else if a == 1 {
        look_straight::<false>(table, wrong, number, place, side, b)
    } else if a == 2 && b <= 3 {
        look_leaf::<false>(table, wrong, number, place, run, side, b)
    } else if 2 * a > 3 * b {
        let e = even_half(a);
        let (second, to_second) = (moved(place, run, e), number + e * b);
        look_through(table, wrong, number, place, run, side, e, b)
            && (e == a - e && agree(table, number, to_second, e * b, second.wrapping_sub(place), false)
                || look_through(table, wrong, to_second, second, run, side, a - e, b))
    } else {
        let (e, m) = (even_half(b), a / 2);
        let (corner, to_b) = (moved(moved(place, run, a - 1), side, e - 1), number + e * m);
        let to_c = to_b + a * (b - e);
        look_through(table, wrong, number, place, side, run, e, m)
            && look_through(table, wrong, to_b, moved(place, side, e), run, side, a, b - e)
            && (a % 2 == 0 && agree(table, number, to_c, e * m, place.wrapping_add(corner), true)
                || look_through(table, wrong, to_c, corner, -side, -run, e, a - m))
    }
}

#[inline(never)]
pub fn fill(w: u32, h: u32, table: &mut [u32]) -> Result<u64, u32> {
    judged(w, h, table.len())?;
    Ok(walk(table, 0, 0, 1, w as i32, w, h))
}

#[inline(never)]
pub fn check(w: u32, h: u32, table: &[u32]) -> Result<Option<(u32, u32)>, u32> {
    judged(w, h, table.len())?;
    let mut wrong = Wrong { place: u32::MAX, due: 0 };
    look_through(table, &mut wrong, 0, 0, 1, w as i32, w, h);
    Ok((wrong.place < u32::MAX).then_some((wrong.place, wrong.due)))
}
