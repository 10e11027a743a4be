// steps SEED: how far apart the squares of successive numbers are, through the C boundary, against document 02, order 5: every step of every area up to 60 by
// 60, with two origins, and in large areas, up to the limit of squares, the steps about the bend and others at random.
#[allow(dead_code)] // only areas are needed of these
mod expected;
#[allow(dead_code)] // lookups and tables are asked of the library here
mod independent;
#[allow(dead_code)] // order lines are not needed here
mod random;
#[path = "../bindings/rust/src/raw.rs"]
#[allow(dead_code)] // only lookups are called here
mod raw;

use expected::Area;
use random::{sides, Random};

// The square of a number. SAFETY, here and below: the slice is passed with its own length.
fn square(area: Area, number: u32) -> (i64, i64) {
    let mut found = [0; 3];
    let returned = unsafe { raw::uvalinda_number_to_square(area.w, area.h, area.ox, area.oy, number, found.as_mut_ptr(), found.len()) };
    assert_eq!(returned, 0, "number {number} of {area:?}");
    (found[0] as i64, found[1] as i64)
}

fn number(area: Area, x: i32, y: i32) -> u32 {
    let mut found = [0; 2];
    let returned = unsafe { raw::uvalinda_square_to_number(area.w, area.h, area.ox, area.oy, x, y, found.as_mut_ptr(), found.len()) };
    assert_eq!(returned, 0, "square ({x}, {y}) of {area:?}");
    found[0]
}

// The square of an area that lies so far from its last column and its last row.
fn from_corner(area: Area, x: i64, y: i64) -> (i64, i64) {
    (area.ox as i64 + area.w as i64 - 1 - x, area.oy as i64 + area.h as i64 - 1 - y)
}

// The step from a number to the next one, as signed differences in x and y.
fn step(area: Area, number: u32) -> (i64, i64) {
    let (here, next) = (square(area, number), square(area, number + 1));
    (next.0 - here.0, next.1 - here.1)
}

// Whether a step touches only at a corner. It shares a side if not, or the test fails.
fn corner(area: Area, number: u32) -> bool {
    let (x, y) = step(area, number);
    match (x.abs(), y.abs()) {
        (1, 0) | (0, 1) => false,
        (1, 1) => true,
        _ => panic!("the step from number {number} of {area:?} is ({x}, {y})"),
    }
}

// The walk from the first square to the last: one corner step where the area is one of those excepted, else none. It goes by (1, -1) from (w - 2, h - 2),
// counted from the origin.
fn walk(area: Area) {
    let corners: Vec<u32> = (0..area.w * area.h - 1).filter(|&number| corner(area, number)).collect();
    assert_eq!(corners.len() as i64, independent::corner_steps(area.w as i64, area.h as i64), "corner steps of {area:?}");
    for bend in corners {
        assert_eq!((square(area, bend), step(area, bend)), (from_corner(area, 1, 1), (1, -1)), "the corner step of {area:?}");
    }
}

// A large area: the steps about the square (w - 2, h - 2), of which the one from it goes across a corner where one does, and some at random.
fn large(random: &mut Random, area: Area) {
    let last = (area.w as u64 * area.h as u64 - 1) as u32;
    let (x, y) = from_corner(area, 1, 1);
    let bend = number(area, x as i32, y as i32);
    let across = independent::corner_steps(area.w as i64, area.h as i64) == 1;
    for near in bend.saturating_sub(50)..(bend + 50).min(last) {
        assert_eq!(corner(area, near), across && near == bend, "the step from number {near} of {area:?}");
    }
    if across {
        assert_eq!((square(area, bend + 1), step(area, bend)), (from_corner(area, 0, 2), (1, -1)), "the corner step of {area:?}");
    }
    for _ in 0..200 {
        let any = random.below(last as u64) as u32;
        assert_eq!(corner(area, any), across && any == bend, "the step from number {any} of {area:?}");
    }
}

fn main() {
    let seed = std::env::args().nth(1).map_or(1, |word| word.parse().expect("a seed"));
    println!("steps: seed {seed}");
    let mut random = Random::from(seed);
    let mut walked = 0;
    for (w, h) in (1..=60).flat_map(|w| (1..=60).map(move |h| (w, h))) {
        walk(Area::new(w, h));
        walk(Area::new(w, h).at(-30, 1_000_000));
        walked += w * h - 1;
    }
    println!("steps: all {walked} of every area up to 60 by 60 share a side, but for the one where there is one, whatever the origin");
    let square = [(4096, 4096), (4095, 4095), (4095, 4096), (4096, 4095), (4095, 4097), (4097, 4094), (3, 4)];
    let long = [(65535, 256), (65535, 255), (65534, 256), (256, 65535), (255, 65534), (255, 65535), (65535, 4), (3, 65534), (65533, 2), (2, 65535)];
    for (w, h) in square.into_iter().chain(long) {
        large(&mut random, Area::new(w, h));
    }
    for turn in 0..600 {
        let most = random.of(&[1000, 5000, 65535]);
        let (w, h) = sides(&mut random, most);
        let (w, h) = (w.max(61), h.max(61));
        // Two of three are excepted areas.
        let area = if turn % 3 == 0 { Area::new(w, h) } else { Area::new((w - 1) | 1, h & !1) };
        large(&mut random, area.at(-40_000, turn));
    }
    println!("steps: about the bend of 617 larger areas, up to the limit of squares, and 200 others of each, as document 02 has them");
}
