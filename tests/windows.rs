// windows SEED: the runs of a window through the C boundary against the independent program: every window of every area up to 9 by 9, with room exact, one
// pair short, odd, ample and none, and with two origins; some windows of every area up to 12 by 12 with many origins; random and hostile windows of large
// areas, some at the limit of squares; and each run's ends and the numbers beside them, by lookups, where a window is too large to list.
#[allow(dead_code)] // only areas are needed of these
mod expected;
#[allow(dead_code)] // the way down to a number is not needed here
mod independent;
#[allow(dead_code)] // nor are order lines
mod random;
#[allow(dead_code)] // nor are the other calls
#[path = "../bindings/rust/src/raw.rs"]
mod raw;

use expected::{Area, UNTOUCHED};
use independent::{granted, runs_by_numbers, runs_by_squares, window_answer, Window};
use random::{near, near_from, origin, sides, sides_at_limit, Random};

// The corners of a window as the C function takes them.
type Corners = [i32; 4];

fn window([x0, y0, x1, y1]: Corners) -> Window {
    Window { x0: x0.into(), y0: y0.into(), x1: x1.into(), y1: y1.into() }
}

// One call: what it returned, told and left. The slices have places behind them that may not be written.
// SAFETY, here and below: each slice is passed with its own length, and no two of them overlap.
fn ask(area: Area, v: Corners, places: usize) -> (u32, u32, Vec<u32>) {
    let Area { w, h, ox, oy } = area;
    let mut runs = vec![UNTOUCHED; places + 2];
    let mut told = [UNTOUCHED; 3];
    let returned =
        unsafe { raw::uvalinda_runs_for_window(w, h, ox, oy, v[0], v[1], v[2], v[3], runs.as_mut_ptr(), places, told.as_mut_ptr(), 1) };
    assert!(told[1..] == [UNTOUCHED; 2] && runs[places..] == [UNTOUCHED; 2], "{area:?}, {v:?}, {places} places: written behind a slice");
    runs.truncate(places);
    (returned, told[0], runs)
}

// The call with a slice of some length is what is due, every place of the slice included.
fn compare(area: Area, v: Corners, places: usize, runs: &[(i64, i64)]) {
    let (refusal, count, written) = window_answer(area.into(), window(v), places, || runs.to_vec());
    let mut left = vec![UNTOUCHED; places];
    for (i, run) in written.iter().enumerate() {
        (left[2 * i], left[2 * i + 1]) = (run.0 as u32, run.1 as u32);
    }
    assert_eq!(ask(area, v, places), (refusal as u32, count as u32, left), "{area:?}, {v:?}, {places} places");
}

// With room exact, one pair short, odd either way, ample, and none.
fn with_all_rooms(area: Area, v: Corners, runs: &[(i64, i64)]) -> u64 {
    let exact = 2 * runs.len();
    let rooms = [exact, exact.saturating_sub(2), exact.saturating_sub(1), exact + 1, exact + 7, 0];
    for places in rooms {
        compare(area, v, places, runs);
    }
    rooms.len() as u64
}

// The pairs of coordinates from one before a side to one behind it, crossed ones too.
fn spans(from: i32, n: u32) -> impl Iterator<Item = (i32, i32)> {
    let end = from + n as i32;
    (from - 1..=end).flat_map(move |one| (from - 1..=end).map(move |other| (one, other)))
}

// Every window of every area up to 9 by 9, crossed and outside ones too, from (0, 0) on and from another origin.
fn small() -> u64 {
    let others = [(-1, -1), (-4, 2), (5, -9), (-1_000_000, 1_000_000), (1_000_000, -1_000_000)];
    let mut calls = 0;
    for (w, h) in (1..=9).flat_map(|w| (1..=9).map(move |h| (w, h))) {
        let other = others[(w + 2 * h) as usize % others.len()];
        for (ox, oy) in [(0, 0), other] {
            let area = Area { w, h, ox, oy };
            for (x0, x1) in spans(ox, w) {
                for (y0, y1) in spans(oy, h) {
                    let v = [x0, y0, x1, y1];
                    calls += with_all_rooms(area, v, &runs_by_squares(area.into(), window(v)));
                }
            }
        }
    }
    calls
}

// The runs of a window of a small area, or none where the call is refused for the area.
fn runs_if_granted(area: Area, v: Corners) -> Vec<(i64, i64)> {
    if granted(area.into()).is_ok() { runs_by_squares(area.into(), window(v)) } else { vec![] }
}

// Some windows of every area up to 12 by 12 with many origins: all of it, a square at either end, thin ones, and ones that reach out to each side.
fn with_origins() -> u64 {
    let mut calls = 0;
    for area in (1..=12).flat_map(|w| (1..=12).flat_map(move |h| Area::new(w, h).with_origins())) {
        let (x, y) = (area.w as i32 - 1, area.h as i32 - 1);
        let inside = [[0, 0, x, y], [0, 0, 0, 0], [x, y, x, y], [0, y / 2, x, y / 2], [x / 3, 0, x / 3, y], [x / 2, y / 3, x, y]];
        let outside = [[-1, 0, x, y], [0, -1, x, y], [0, 0, x + 1, y], [0, 0, x, y + 1], [1, 0, 0, y], [0, 1, x, 0]];
        for [x0, y0, x1, y1] in inside.into_iter().chain(outside) {
            let (x, y) = (|c: i32| area.ox.saturating_add(c), |c: i32| area.oy.saturating_add(c));
            let v = [x(x0), y(y0), x(x1), y(y1)];
            calls += with_all_rooms(area, v, &runs_if_granted(area, v));
        }
    }
    calls
}

// Origins beyond the range, and areas beyond theirs: 1, 13, 12, 10, 2 in this order, whatever the corners are.
fn refused() -> u64 {
    let mut calls = 0;
    let ends = [i32::MIN, -1_000_001, -1, 0, 3, 1_000_001, i32::MAX];
    for (ox, oy) in ends.into_iter().flat_map(|ox| ends.map(|oy| (ox, oy))) {
        for (w, h) in [(3, 4), (0, 4), (3, 65536), (4096, 4097), (24929, 673), (65281, 257), (65535, 65535), (65536, 257), (0, 65536)] {
            for v in [[0, 0, 0, 0], [ox, oy, ox, oy], [1, 0, 0, 9], [0, 0, 3, 0], [i32::MIN; 4], [i32::MAX; 4], [i32::MIN, i32::MIN, i32::MAX, i32::MAX]] {
                let area = Area { w, h, ox, oy };
                compare(area, v, 5, &runs_if_granted(area, v));
                calls += 1;
            }
        }
    }
    calls
}

// Refusal 13 by hand: after 1, and before 12, 10, 2 and 11, with no run told of and nothing written. Of the largest area every window is answered.
fn too_many_squares() {
    for (w, h, refusal) in [(4096, 4097, 13), (65535, 257, 13), (65535, 65535, 13), (65536, 257, 1), (65536, 65536, 1), (0, 65536, 1)] {
        for (ox, v) in [(0, [0, 0, 1, 1]), (0, [1, 0, 0, 9]), (0, [-1, 0, 0, 0]), (1_000_001, [0, 0, 0, 0]), (i32::MIN, [1, 0, 0, 0])] {
            for places in [0, 5] {
                let area = Area::new(w, h).at(ox, 0);
                assert_eq!(ask(area, v, places), (refusal, 0, vec![UNTOUCHED; places]), "{area:?}, {v:?}, {places} places");
            }
        }
    }
    assert_eq!(ask(Area::new(4096, 4096), [0, 0, 4095, 4095], 2), (0, 1, vec![0, 16_777_215]));
    assert_eq!(ask(Area::new(4096, 4096), [0, 0, 4095, 4095], 1), (11, 1, vec![UNTOUCHED]));
}

// A random span of a side: short, at an end, or whole.
fn span(random: &mut Random, from: i32, n: u32, most: u64) -> (i32, i32) {
    let length = 1 + random.below(most.min(n as u64)) as i32;
    let room = n as i32 - length;
    let anywhere = random.below(room as u64 + 1) as i32;
    let first = from + random.of(&[0, room, anywhere, anywhere]);
    (first, first + length - 1)
}

// Random windows of large areas, thin ones and corners among them, small enough to list their numbers. Some of the areas have too many squares.
fn large(random: &mut Random, rounds: u64) -> u64 {
    let mut calls = 0;
    for _ in 0..rounds {
        let most = random.of(&[12, 5_000, 65_535, 65_535]);
        let (w, h) = if random.below(4) == 0 { sides_at_limit(random) } else { sides(random, most) };
        let area = Area { w, h, ox: random.below(2_000_001) as i32 - 1_000_000, oy: random.below(9) as i32 - 4 };
        let (wide, high) = random.of(&[(9, 9), (1, 300), (300, 1), (30, 4), (3, 30), (2, 2)]);
        let ((x0, x1), (y0, y1)) = (span(random, area.ox, w, wide), span(random, area.oy, h, high));
        let v = [x0, y0, x1, y1];
        let runs = runs_by_numbers(area.into(), window(v));
        let exact = 2 * runs.len();
        for places in [exact, exact - 1, exact + 3] {
            compare(area, v, places, &runs);
            calls += 1;
        }
    }
    calls
}

// Any numbers at all; windows that are not refused are small ones of small areas.
fn hostile(random: &mut Random, rounds: u64) -> u64 {
    let mut calls = 0;
    for _ in 0..rounds {
        let side = random.of(&[3, 12, 65_536]);
        let (w, h) = match random.below(4) {
            0 => sides_at_limit(random),
            1 => sides(random, 65_535),
            _ => (near(random, side), near(random, side)),
        };
        let area = Area { w, h, ox: origin(random), oy: origin(random) };
        let (wide, high) = (w as u64, h as u64);
        let (x0, y0) = (near_from(random, area.ox, wide), near_from(random, area.oy, high));
        let (x1, y1) = (near_from(random, area.ox, wide), near_from(random, area.oy, high));
        let v = [x0, y0, x1, y1];
        let has = |x: i32, y: i32| independent::square_to_number(area.into(), x.into(), y.into()).is_ok();
        let inside = x0 <= x1 && y0 <= y1 && has(x0, y0) && has(x1, y1);
        if inside && wide * high > 400 {
            continue;
        }
        let runs = if inside { runs_by_squares(area.into(), window(v)) } else { vec![] };
        compare(area, v, random.below(12) as usize, &runs);
        calls += 1;
    }
    calls
}

// A window too large to list, by what can be seen of its runs: they are ascending and apart, have as many numbers as the window has squares, begin and end
// in the window, and the numbers right before and behind each are not in it.
fn by_ends(area: Area, v: Corners) -> u64 {
    let (returned, count, _) = ask(area, v, 0);
    assert_eq!(returned, 11);
    let (returned, again, runs) = ask(area, v, 2 * count as usize);
    assert_eq!((returned, again), (0, count));
    let Window { x0, y0, x1, y1 } = window(v);
    let inside = |n: i64| {
        let Ok(found) = independent::number_to_square(area.into(), n) else { return false };
        (x0..=x1).contains(&found[0]) && (y0..=y1).contains(&found[1])
    };
    let (mut squares, mut least) = (0, 0);
    for pair in runs.chunks(2) {
        let (first, last) = (pair[0] as i64, pair[1] as i64);
        assert!(least <= first && first <= last, "{area:?}, {v:?}: {pair:?} out of order");
        assert!(inside(first) && inside(last) && (first == 0 || !inside(first - 1)) && !inside(last + 1), "{area:?}, {v:?}: {pair:?}");
        (squares, least) = (squares + last - first + 1, last + 2);
    }
    assert_eq!(squares, (x1 - x0 + 1) * (y1 - y0 + 1), "{area:?}, {v:?}");
    1
}

fn main() {
    let seed = std::env::args().nth(1).and_then(|s| s.parse().ok()).unwrap_or(1);
    let mut random = Random::from(seed);
    too_many_squares();
    let small = small() + with_origins();
    let large = large(&mut random, 200_000);
    let hostile = hostile(&mut random, 200_000) + refused();
    let mut wide = 0;
    for (w, h) in [(4_096, 4_096), (65_535, 256), (256, 65_535), (65_535, 3), (2, 65_535), (4_095, 4_097)] {
        for v in [[0, 0, w - 1, h - 1], [0, 0, w / 2, h - 1], [w / 3, h / 3, w - 1, h - 1], [1.min(w - 1), 0, w - 1, 0], [w - 1, 0, w - 1, h - 1]] {
            for (ox, oy) in [(0, 0), (-33_000, 1_000_000)] {
                wide += by_ends(Area::new(w as u32, h as u32).at(ox, oy), [ox + v[0], oy + v[1], ox + v[2], oy + v[3]]);
            }
        }
    }
    println!("windows: {small} calls on areas up to 12 by 12, {large} on large areas, {hostile} hostile ones and {wide} by their ends, seed {seed}");
}
