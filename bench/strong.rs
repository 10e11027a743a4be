// The best fill and the best check in safe Rust that we could write, to measure the library against: a square is one linear address, a direction a stride
// between addresses, the kind is known when it is compiled, and blocks 2 wide and 2 or 3 deep are taken at once. A check by number stops at the first
// wrong place.
use crate::versions::accepted;

pub fn even_half(length: u32) -> u32 {
    let half = length / 2;
    if length > 2 && half % 2 == 1 { half + 1 } else { half }
}

pub fn moved(place: u32, stride: i32, n: u32) -> u32 {
    place.wrapping_add_signed(stride.wrapping_mul(n as i32))
}

// Enters a square by its number and its place.
fn enter<const BY_SQUARE: bool>(table: &mut [u32], number: u32, place: u32) {
    if BY_SQUARE { table[place as usize] = number } else { table[number as usize] = place }
}

pub fn straight<const BY_SQUARE: bool>(table: &mut [u32], number: u32, place: u32, stride: i32, length: u32) {
    let mut place = place;
    for number in number..number + length {
        enter::<BY_SQUARE>(table, number, place);
        place = moved(place, stride, 1);
    }
}

// Up the side of a block 2 wide and down again.
pub fn leaf<const BY_SQUARE: bool>(table: &mut [u32], number: u32, place: u32, run: i32, side: i32, deep: u32) {
    straight::<BY_SQUARE>(table, number, place, side, deep);
    straight::<BY_SQUARE>(table, number + deep, moved(moved(place, run, 1), side, deep - 1), -side, deep);
}

// Fills a block of a run and b side from its first number and place on, and counts the blocks of its division.
fn walk<const BY_SQUARE: bool>(table: &mut [u32], number: u32, place: u32, run: i32, side: i32, a: u32, b: u32) -> u64 {
    if b == 1 {
        straight::<BY_SQUARE>(table, number, place, run, a);
        1
    } else if a == 1 {
        straight::<BY_SQUARE>(table, number, place, side, b);
        1
    } else if a == 2 && b == 2 {
        leaf::<BY_SQUARE>(table, number, place, run, side, 2);
        4
    } else if a == 2 && b == 3 {
        leaf::<BY_SQUARE>(table, number, place, run, side, 3);
        4
    } else if 2 * a > 3 * b {
        let e = even_half(a);
        1 + walk::<BY_SQUARE>(table, number, place, run, side, e, b)
            + walk::<BY_SQUARE>(table, number + e * b, moved(place, run, e), run, side, a - e, b)
    } else {
        let (e, m) = (even_half(b), a / 2);
        let corner = moved(moved(place, run, a - 1), side, e - 1);
        1 + walk::<BY_SQUARE>(table, number, place, side, run, e, m)
            + walk::<BY_SQUARE>(table, number + e * m, moved(place, side, e), run, side, a, b - e)
            + walk::<BY_SQUARE>(table, number + e * m + a * (b - e), corner, -side, -run, e, a - m)
    }
}

// What a check has found: a wrong place and the value due there, or a place that no table has.
pub struct Wrong {
    pub place: u32,
    pub due: u32,
}

// Looks at a square by its number and its place, and says whether to go on: by number the first wrong place that is met is the least.
fn look<const BY_SQUARE: bool>(table: &[u32], wrong: &mut Wrong, number: u32, place: u32) -> bool {
    let (at, due) = if BY_SQUARE { (place, number) } else { (number, place) };
    if table[at as usize] != due && at < wrong.place {
        *wrong = Wrong { place: at, due };
        return BY_SQUARE;
    }
    true
}

pub fn look_straight<const BY_SQUARE: bool>(table: &[u32], wrong: &mut Wrong, number: u32, place: u32, stride: i32, length: u32) -> bool {
    let mut place = place;
    for number in number..number + length {
        if !look::<BY_SQUARE>(table, wrong, number, place) {
            return false;
        }
        place = moved(place, stride, 1);
    }
    true
}

pub fn look_leaf<const BY_SQUARE: bool>(table: &[u32], wrong: &mut Wrong, number: u32, place: u32, run: i32, side: i32, deep: u32) -> bool {
    look_straight::<BY_SQUARE>(table, wrong, number, place, side, deep)
        && look_straight::<BY_SQUARE>(table, wrong, number + deep, moved(moved(place, run, 1), side, deep - 1), -side, deep)
}

// The walk of a check, and whether to go on after it.
fn look_through<const BY_SQUARE: bool>(table: &[u32], wrong: &mut Wrong, number: u32, place: u32, run: i32, side: i32, a: u32, b: u32) -> bool {
    if b == 1 {
        look_straight::<BY_SQUARE>(table, wrong, number, place, run, a)
    } else if a == 1 {
        look_straight::<BY_SQUARE>(table, wrong, number, place, side, b)
    } else if a == 2 && b == 2 {
        look_leaf::<BY_SQUARE>(table, wrong, number, place, run, side, 2)
    } else if a == 2 && b == 3 {
        look_leaf::<BY_SQUARE>(table, wrong, number, place, run, side, 3)
    } else if 2 * a > 3 * b {
        let e = even_half(a);
        look_through::<BY_SQUARE>(table, wrong, number, place, run, side, e, b)
            && look_through::<BY_SQUARE>(table, wrong, number + e * b, moved(place, run, e), run, side, a - e, b)
    } else {
        let (e, m) = (even_half(b), a / 2);
        let corner = moved(moved(place, run, a - 1), side, e - 1);
        look_through::<BY_SQUARE>(table, wrong, number, place, side, run, e, m)
            && look_through::<BY_SQUARE>(table, wrong, number + e * m, moved(place, side, e), run, side, a, b - e)
            && look_through::<BY_SQUARE>(table, wrong, number + e * m + a * (b - e), corner, -side, -run, e, a - m)
    }
}

// Why a table of this length is neither filled nor checked, if it is not.
pub fn judged(w: u32, h: u32, length: usize) -> Result<(), u32> {
    accepted(w, h)?;
    if length == (w * h) as usize { Ok(()) } else { Err(4) }
}

#[inline(never)]
pub fn fill(w: u32, h: u32, table: &mut [u32], by_square: bool) -> Result<u64, u32> {
    judged(w, h, table.len())?;
    let fill = if by_square { walk::<true> } else { walk::<false> };
    Ok(fill(table, 0, 0, 1, w as i32, w, h))
}

#[inline(never)]
pub fn check(w: u32, h: u32, table: &[u32], by_square: bool) -> Result<Option<(u32, u32)>, u32> {
    judged(w, h, table.len())?;
    let mut wrong = Wrong { place: u32::MAX, due: 0 };
    let check = if by_square { look_through::<true> } else { look_through::<false> };
    check(table, &mut wrong, 0, 0, 1, w as i32, w, h);
    Ok((wrong.place < u32::MAX).then_some((wrong.place, wrong.due)))
}
