// The same algorithms in plain, safe Rust, to measure the library against. They are not inlined into the measurement, as a call into a library is not.
use crate::common::Area;

pub fn accepted(w: u32, h: u32) -> Result<(), u32> {
    match () {
        _ if !(1..=65535).contains(&w) || !(1..=65535).contains(&h) => Err(1),
        _ if w * h > 16_777_216 => Err(13),
        _ => Ok(()),
    }
}

fn granted(w: u32, h: u32, ox: i32, oy: i32) -> Result<(), u32> {
    let in_range = |c: i32| (-1_000_000..=1_000_000).contains(&c);
    accepted(w, h)?;
    if in_range(ox) && in_range(oy) { Ok(()) } else { Err(12) }
}

fn even_half(length: u32) -> u32 {
    let half = length / 2;
    if length > 2 && half % 2 == 1 { half + 1 } else { half }
}

#[inline(never)]
pub fn number_to_square(w: u32, h: u32, ox: i32, oy: i32, number: u32) -> Result<(i32, i32, u32), u32> {
    granted(w, h, ox, oy)?;
    if number >= w * h {
        return Err(3);
    }
    let (mut x, mut y) = (ox, oy);
    let (mut run, mut side) = ((1i32, 0i32), (0i32, 1i32));
    let (mut a, mut b, mut i, mut blocks) = (w, h, number, 1u32);
    while a != 1 && b != 1 {
        if 2 * a > 3 * b {
            let e = even_half(a);
            if i < e * b {
                a = e;
            } else {
                i -= e * b;
                x += run.0 * e as i32;
                y += run.1 * e as i32;
                a -= e;
            }
        } else {
            let e = even_half(b);
            let m = a / 2;
            if i < e * m {
                (run, side) = (side, run);
                (a, b) = (e, m);
            } else if i - e * m < a * (b - e) {
                i -= e * m;
                x += side.0 * e as i32;
                y += side.1 * e as i32;
                b -= e;
            } else {
                i -= e * m + a * (b - e);
                x += run.0 * (a as i32 - 1) + side.0 * (e as i32 - 1);
                y += run.1 * (a as i32 - 1) + side.1 * (e as i32 - 1);
                (run, side) = ((-side.0, -side.1), (-run.0, -run.1));
                (a, b) = (e, a - m);
            }
        }
        blocks += 1;
    }
    if blocks > 64 {
        return Err(9);
    }
    let along = if b == 1 { run } else { side };
    Ok((x + along.0 * i as i32, y + along.1 * i as i32, blocks))
}

#[inline(never)]
pub fn square_to_number(w: u32, h: u32, ox: i32, oy: i32, x: i32, y: i32) -> Result<(u32, u32), u32> {
    granted(w, h, ox, oy)?;
    let (x, y) = (x as i64 - ox as i64, y as i64 - oy as i64);
    if !(0..w as i64).contains(&x) || !(0..h as i64).contains(&y) {
        return Err(2);
    }
    let (mut a, mut b, mut u, mut v, mut before, mut blocks) = (w, h, x as u32, y as u32, 0u32, 1u32);
    while a != 1 && b != 1 {
        if 2 * a > 3 * b {
            let e = even_half(a);
            if u < e {
                a = e;
            } else {
                before += e * b;
                u -= e;
                a -= e;
            }
        } else {
            let e = even_half(b);
            let m = a / 2;
            if v >= e {
                before += e * m;
                v -= e;
                b -= e;
            } else if u < m {
                (u, v) = (v, u);
                (a, b) = (e, m);
            } else {
                before += e * m + a * (b - e);
                (u, v) = (e - 1 - v, a - 1 - u);
                (a, b) = (e, a - m);
            }
        }
        blocks += 1;
    }
    if blocks > 64 {
        return Err(9);
    }
    Ok((before + if b == 1 { u } else { v }, blocks))
}

#[inline(never)]
pub fn finish_square(w: u32, h: u32, ox: i32, oy: i32) -> Result<(i32, i32), u32> {
    granted(w, h, ox, oy)?;
    let (x, y) = match (w, h) {
        (1, _) => (0, h - 1),
        (_, 2) => (w - 1 - w % 2, 0),
        _ => (w - 1, 0),
    };
    Ok((ox + x as i32, oy + y as i32))
}

#[derive(Clone, Copy)]
struct Block {
    start: (i32, i32),
    run: (i32, i32),
    a: i32,
    side: (i32, i32),
    b: i32,
}

fn moved(s: (i32, i32), d: (i32, i32), n: i32) -> (i32, i32) {
    (s.0 + d.0 * n, s.1 + d.1 * n)
}

fn against(d: (i32, i32)) -> (i32, i32) {
    (-d.0, -d.1)
}


// Visits the places of a straight block's squares in order.
fn straight(start: (i32, i32), along: (i32, i32), length: i32, w: i32, visit: &mut impl FnMut(u32)) {
    for i in 0..length {
        let (x, y) = moved(start, along, i);
        visit((y * w + x) as u32);
    }
}

// Visits the places of a block's squares in order, and counts the blocks of its division.
fn walk(k: Block, w: i32, visit: &mut impl FnMut(u32)) -> u64 {
    let Block { start, run, a, side, b } = k;
    if b == 1 {
        straight(start, run, a, w, visit);
        1
    } else if a == 1 {
        straight(start, side, b, w, visit);
        1
    } else if 2 * a > 3 * b {
        let e = even_half(a as u32) as i32;
        1 + walk(Block { a: e, ..k }, w, visit) + walk(Block { start: moved(start, run, e), a: a - e, ..k }, w, visit)
    } else {
        let e = even_half(b as u32) as i32;
        let m = a / 2;
        let corner = moved(moved(start, run, a - 1), side, e - 1);
        1 + walk(Block { start, run: side, a: e, side: run, b: m }, w, visit)
            + walk(Block { start: moved(start, side, e), b: b - e, ..k }, w, visit)
            + walk(Block { start: corner, run: against(side), a: e, side: against(run), b: a - m }, w, visit)
    }
}

// The whole area as a block, if a table of this length can be filled or checked for it.
fn whole(w: u32, h: u32, length: usize) -> Result<Block, u32> {
    accepted(w, h)?;
    if length != (w * h) as usize {
        return Err(4);
    }
    Ok(Block { start: (0, 0), run: (1, 0), a: w as i32, side: (0, 1), b: h as i32 })
}

#[inline(never)]
pub fn fill(w: u32, h: u32, table: &mut [u32], by_square: bool) -> Result<u64, u32> {
    let k = whole(w, h, table.len())?;
    let mut number = 0;
    Ok(if by_square {
        walk(k, w as i32, &mut |place| {
            table[place as usize] = number;
            number += 1;
        })
    } else {
        walk(k, w as i32, &mut |place| {
            table[number as usize] = place;
            number += 1;
        })
    })
}

// Right, or the first wrong place and the value due there.
#[inline(never)]
pub fn check(w: u32, h: u32, table: &[u32], by_square: bool) -> Result<Option<(u32, u32)>, u32> {
    let k = whole(w, h, table.len())?;
    let mut number = 0;
    let mut first: Option<(u32, u32)> = None;
    let mut look = |place: u32, due: u32| {
        if table[place as usize] != due && first.is_none_or(|(least, _)| place < least) {
            first = Some((place, due));
        }
    };
    if by_square {
        walk(k, w as i32, &mut |place| {
            look(place, number);
            number += 1;
        });
    } else {
        walk(k, w as i32, &mut |place| {
            look(number, place);
            number += 1;
        });
    }
    Ok(first)
}

fn number(field: &[u8]) -> Result<u32, u32> {
    if field.len() > 10 || (2..10).contains(&field.len()) && field[0] == b'0' {
        return Err(5);
    }
    let mut value = 0u64;
    for &byte in field {
        if !byte.is_ascii_digit() {
            return Err(5);
        }
        value = value * 10 + (byte - b'0') as u64;
    }
    u32::try_from(value).map_err(|_| 5)
}

// A field that may carry a minus; a minus before nothing is one before 0.
fn signed(field: &[u8]) -> Result<i32, u32> {
    let (minus, digits) = match field {
        [b'-', digits @ ..] => (true, digits),
        _ => (false, field),
    };
    let value = i32::try_from(number(digits)?).map_err(|_| 5u32)?;
    match (minus, value) {
        (true, 0) => Err(5),
        (true, _) => Ok(-value),
        _ => Ok(value),
    }
}

// The reply's kind and numbers; the area in force is altered as the line says.
#[inline(never)]
pub fn handle_line(area: &mut Option<Area>, line: &[u8]) -> Result<[i64; 4], u32> {
    let before = *area;
    if line.starts_with(b"AREA") || line.starts_with(b"ORIGIN") {
        *area = None;
    }
    if line.len() > 64 {
        return Err(8);
    }
    let mut fields = line.split(|&byte| byte == b' ');
    let taken = [fields.next(), fields.next(), fields.next(), fields.next()];
    match taken {
        [Some(b"AREA"), Some(w), Some(h), None] if !w.is_empty() && !h.is_empty() => {
            let (w, h) = (number(w)?, number(h)?);
            let (x, y) = finish_square(w, h, 0, 0)?;
            *area = Some(Area { w, h, ox: 0, oy: 0 });
            Ok([1, w as i64 * h as i64, x.into(), y.into()])
        }
        [Some(b"ORIGIN"), Some(ox), Some(oy), None] if !ox.is_empty() && !oy.is_empty() => {
            let (ox, oy) = (signed(ox)?, signed(oy)?);
            let Area { w, h, .. } = before.ok_or(7u32)?;
            granted(w, h, ox, oy)?;
            *area = Some(Area { w, h, ox, oy });
            Ok([4, ox.into(), oy.into(), 0])
        }
        [Some(b"N"), Some(i), None, _] if !i.is_empty() => {
            let i = number(i)?;
            let Area { w, h, ox, oy } = before.ok_or(7u32)?;
            number_to_square(w, h, ox, oy, i).map(|(x, y, blocks)| [2, x.into(), y.into(), blocks.into()])
        }
        [Some(b"S"), Some(x), Some(y), None] if !x.is_empty() && !y.is_empty() => {
            let (x, y) = (signed(x)?, signed(y)?);
            let Area { w, h, ox, oy } = before.ok_or(7u32)?;
            square_to_number(w, h, ox, oy, x, y).map(|(number, blocks)| [3, number.into(), blocks.into(), 0])
        }
        _ => Err(6),
    }
}
