// boundary SEED: the library's C functions against the independent reading of documents 01 and 02: every area up to 40 by 40 whole, those up to 12 by 12 from
// many origins, the finish square of every area up to 300 by 300, the even half of every length, areas at the limit of squares, and random and hostile
// arguments by the hundred thousand. The seed is printed, and what was asked, where an answer differs.
mod expected;
#[allow(dead_code)] // the way down to a number is not needed here
mod independent;
mod random;
#[allow(dead_code)] // windows have a program of their own
#[path = "../bindings/rust/src/raw.rs"]
mod raw;

use expected::{due, in_force, line_due, told, untouched, Area, Told, UNTOUCHED};
use independent::Answer;
use random::{near, near_from, origin, sides, sides_at_limit, Lines, Random};

const MOST: u64 = 4294967295;

// SAFETY, here and below: each slice is passed with its own length, and no two of them overlap.
fn number_to_square(area: Area, number: u32, length: usize) -> Told {
    let mut out = untouched(length);
    let returned = unsafe { raw::uvalinda_number_to_square(area.w, area.h, area.ox, area.oy, number, out.as_mut_ptr(), length) };
    told(returned, out)
}

fn square_to_number(area: Area, x: i32, y: i32, length: usize) -> Told {
    let mut out = untouched(length);
    let returned = unsafe { raw::uvalinda_square_to_number(area.w, area.h, area.ox, area.oy, x, y, out.as_mut_ptr(), length) };
    told(returned, out)
}

fn finish_square(area: Area, length: usize) -> Told {
    let mut out = untouched(length);
    let returned = unsafe { raw::uvalinda_finish_square(area.w, area.h, area.ox, area.oy, out.as_mut_ptr(), length) };
    told(returned, out)
}

fn fill(w: u32, h: u32, by_square: bool, table: &mut [u32], length: usize) -> Told {
    let mut out = untouched(length);
    let call = if by_square { raw::uvalinda_fill_by_square } else { raw::uvalinda_fill_by_number };
    let returned = unsafe { call(w, h, table.as_mut_ptr(), table.len(), out.as_mut_ptr(), length) };
    told(returned, out)
}

// A check may not alter its table; lent as a mutable slice, a change would be seen.
fn check(w: u32, h: u32, by_square: bool, table: &mut [u32], length: usize) -> Told {
    let before = table.to_vec();
    let mut out = untouched(length);
    let call = if by_square { raw::uvalinda_check_by_square } else { raw::uvalinda_check_by_number };
    let returned = unsafe { call(w, h, table.as_mut_ptr(), table.len(), out.as_mut_ptr(), length) };
    assert!(table == before, "a check of {w} by {h}, by square: {by_square}, altered its table");
    told(returned, out)
}

fn handle_line(area: Area, line: &[u8], length: usize) -> Told {
    let mut out = untouched(length);
    let returned = unsafe {
        raw::uvalinda_handle_line(area.w, area.h, area.ox, area.oy, line.as_ptr(), line.len(), out.as_mut_ptr(), length)
    };
    told(returned, out)
}

// A line under four numbers for the area in force is answered as is due, also with a place too many.
fn compare_line(area: Area, line: &[u8]) {
    assert_eq!(handle_line(area, line, 9), line_due(area, line, 9), "line {:?} under {area:?}", String::from_utf8_lossy(line));
}

// A lookup reports at most 41 blocks; they are the last of its values.
fn few_blocks(answer: &Answer) -> bool {
    answer.as_ref().map_or(true, |values| values[values.len() - 1] <= 41)
}

fn compare_number(area: Area, number: u32, length: usize) {
    let answer = independent::number_to_square(area.into(), number.into());
    assert!(few_blocks(&answer), "number {number} of {area:?}: {answer:?}");
    assert_eq!(number_to_square(area, number, length), due(&answer, 3, length), "number {number} of {area:?} into {length} places");
}

fn compare_square(area: Area, x: i32, y: i32, length: usize) {
    let answer = independent::square_to_number(area.into(), x.into(), y.into());
    assert!(few_blocks(&answer), "square ({x}, {y}) of {area:?}: {answer:?}");
    assert_eq!(square_to_number(area, x, y, length), due(&answer, 2, length), "square ({x}, {y}) of {area:?} into {length} places");
}

fn compare_finish(area: Area, length: usize) {
    let answer = independent::finish_square(area.into());
    assert_eq!(finish_square(area, length), due(&answer, 2, length), "finish square of {area:?} into {length} places");
}

// Every number and every square of an area, those past its ends, and its finish square, against the whole list of its squares.
fn whole_area(w: u32, h: u32) {
    let area = Area::new(w, h);
    let traversal = independent::traversal(w as i64, h as i64);
    let mut numbers = vec![vec![Err(2); 42]; 42];
    for (number, (s, blocks)) in traversal.iter().enumerate() {
        numbers[s.x as usize][s.y as usize] = Ok(vec![number as i64, *blocks]);
    }
    for number in 0..=1601 {
        let answer = traversal.get(number).map_or(Err(3), |(s, blocks)| Ok(vec![s.x, s.y, *blocks]));
        assert_eq!(number_to_square(area, number as u32, 4), due(&answer, 3, 4), "number {number} of {w} by {h}");
    }
    for (x, column) in numbers.iter().enumerate() {
        for (y, answer) in column.iter().enumerate() {
            assert_eq!(square_to_number(area, x as i32, y as i32, 3), due(answer, 2, 3), "square ({x}, {y}) of {w} by {h}");
        }
    }
    let answer = traversal.last().map_or(Err(1), |(s, _)| Ok(vec![s.x, s.y]));
    assert_eq!(finish_square(area, 3), due(&answer, 2, 3), "finish square of {w} by {h}");
}

// The coordinates of a side of n squares, two beyond either end, and the ends of a signed 32-bit number's range.
fn about(from: i32, n: u32) -> Vec<i32> {
    let side = from as i64 - 2..from as i64 + n as i64 + 2;
    side.filter_map(|c| i32::try_from(c).ok()).chain([i32::MIN, i32::MAX]).collect()
}

// Every number and every square of an area with an origin, those past its ends, and its finish square, by the calls and by lines.
fn with_origin(area: Area) {
    for number in (0..=area.w * area.h).chain([MOST as u32]) {
        compare_number(area, number, 3);
        compare_line(area, format!("N {number}").as_bytes());
    }
    let columns = about(area.oy, area.h);
    for (x, y) in about(area.ox, area.w).into_iter().flat_map(|x| columns.iter().map(move |&y| (x, y))) {
        compare_square(area, x, y, 2);
        compare_line(area, format!("S {x} {y}").as_bytes());
    }
    compare_finish(area, 2);
    compare_line(Area::new(area.w, area.h), format!("ORIGIN {} {}", area.ox, area.oy).as_bytes());
    compare_line(area, format!("AREA {} {}", area.h, area.w).as_bytes());
}

// The finish square of an area, by its call and by an AREA line, is the square of the last number; and where that is, as document 02 says it.
fn finish(w: u32, h: u32) {
    let area = Area::new(w, h);
    compare_finish(area, 3);
    compare_finish(area.at(-(w as i32), 1_000_000), 3);
    compare_line(Area::new(0, 0), format!("AREA {w} {h}").as_bytes());
    let said = match (w, h) {
        (1, 2..) => vec![0, h as i64 - 1],
        (3.., 2) if w % 2 == 1 => vec![w as i64 - 2, 0],
        _ => vec![w as i64 - 1, 0],
    };
    assert_eq!(independent::finish_square(area.into()), Ok(said), "the last square of {w} by {h}");
}

// Fills and checks of a table of some length, of both kinds, with a result slice of some length, and checks of the table with one value changed.
fn tables(random: &mut Random, w: u32, h: u32, places: usize, length: usize) {
    let (wide, high) = (w as i64, h as i64);
    for by_square in [false, true] {
        let asked = format!("{w} by {h}, {places} places, by square: {by_square}, {length} places for the result");
        let mut table = vec![UNTOUCHED; places];
        let answer = independent::fill(wide, high, places);
        let after = if answer.is_ok() && length >= 1 { independent::table_due(wide, high, by_square) } else { table.clone() };
        assert_eq!(fill(w, h, by_square, &mut table, length), due(&answer, 1, length), "fill of {asked}");
        assert!(table == after, "the table after a fill of {asked}");
        for changed in [false, true] {
            if changed && places > 0 {
                let place = random.below(places as u64) as usize;
                table[place] = random.of(&[0, table[place] ^ 1, MOST as u32]);
            }
            for kind in [false, true] {
                let answer = independent::check(wide, high, kind, &table);
                assert_eq!(check(w, h, kind, &mut table, length), due(&answer, 3, length), "check of {asked}, changed: {changed}, as by square: {kind}");
            }
        }
    }
}

// Document 01's cases for areas too large to list, of which document 02 refuses the largest, and a square that most blocks hold; document 02's finish squares.
fn worked_cases() {
    assert_eq!(number_to_square(Area::new(65535, 65535), 4294836224, 3), (13, vec![0, 0, 0]));
    assert_eq!(number_to_square(Area::new(4096, 4096), 5592404, 3), (0, vec![0, 4094, 24]));
    assert_eq!(square_to_number(Area::new(4096, 4096), 0, 4094, 2), (0, vec![5592404, 24]));
    assert_eq!(number_to_square(Area::new(65536, 1), 0, 3), (1, vec![0, 0, 0]));
    assert_eq!(number_to_square(Area::new(0, 5), 0, 3), (1, vec![0, 0, 0]));
    for places in [11, 13] {
        assert_eq!(fill(3, 4, false, &mut vec![7; places], 1), (4, vec![0]));
    }
    for (w, h, x, y) in [(5, 2, 3, 0), (3, 2, 1, 0), (65535, 2, 65533, 0), (1, 7, 0, 6), (1, 1, 0, 0), (4, 2, 3, 0), (65535, 256, 65534, 0)] {
        assert_eq!(finish_square(Area::new(w, h), 2), (0, vec![x, y]));
        let line = format!("AREA {w} {h}").into_bytes();
        assert_eq!(handle_line(Area::new(0, 0), &line, 8), (0, vec![w.into(), h.into(), 0, 0, 1, w as i128 * h as i128, x, y]));
    }
}

// Document 02's site grid by hand: squares about a post, the ends of the origin's range, and 12 directly after what is refused for the area.
fn site_grid() {
    let area = Area::new(3, 4).at(-5, 7);
    assert_eq!(number_to_square(area, 8, 3), (0, vec![-3, 8, 3]));
    assert_eq!(square_to_number(area, -3, 8, 2), (0, vec![8, 3]));
    assert_eq!(square_to_number(area, 2, 1, 2), (2, vec![0, 0]));
    assert_eq!(finish_square(area, 2), (0, vec![-3, 7]));
    let far = Area::new(4096, 4096).at(1_000_000, -1_000_000);
    assert_eq!(number_to_square(far, 5592404, 3), (0, vec![1_000_000, -995_906, 24]));
    assert_eq!(square_to_number(far, 1_000_000, -995_906, 2), (0, vec![5592404, 24]));
    assert_eq!(finish_square(Area::new(65535, 256).at(1_000_000, -1_000_000), 2), (0, vec![1_065_534, -1_000_000]));
    for (ox, oy) in [(1_000_001, 0), (0, 1_000_001), (-1_000_001, 0), (0, -1_000_001), (i32::MIN, 0), (0, i32::MAX)] {
        let beyond = Area::new(3, 4).at(ox, oy);
        assert_eq!(number_to_square(beyond, 12, 3), (12, vec![0, 0, 0]), "{beyond:?}");
        assert_eq!(square_to_number(beyond, i32::MAX, i32::MIN, 2), (12, vec![0, 0]), "{beyond:?}");
        assert_eq!(finish_square(beyond, 2), (12, vec![0, 0]), "{beyond:?}");
        assert_eq!(finish_square(Area { w: 0, ..beyond }, 2), (1, vec![0, 0]), "{beyond:?}");
        assert_eq!(number_to_square(Area { h: 65536, ..beyond }, 0, 3), (1, vec![0, 0, 0]), "{beyond:?}");
        assert_eq!(square_to_number(Area { w: 65535, h: 257, ..beyond }, 0, 0, 2), (13, vec![0, 0]), "{beyond:?}");
    }
}

// Fills and checks, of either kind, of a table that is said to have so many places. Where they are refused none is looked at, so no such table is made.
fn refused_tables(w: u32, h: u32, places: usize, refusal: u32) {
    let fills = [raw::uvalinda_fill_by_number, raw::uvalinda_fill_by_square];
    let checks = [raw::uvalinda_check_by_number, raw::uvalinda_check_by_square];
    for (fill, check) in fills.into_iter().zip(checks) {
        let mut table = [UNTOUCHED; 12];
        let (mut blocks, mut judged) = ([7], [7; 3]);
        let filled = unsafe { fill(w, h, table.as_mut_ptr(), places, blocks.as_mut_ptr(), 1) };
        let checked = unsafe { check(w, h, table.as_ptr(), places, judged.as_mut_ptr(), 3) };
        let found = (filled, blocks, checked, judged, table);
        assert_eq!(found, (refusal, [0], refusal, [0; 3], [UNTOUCHED; 12]), "{w} by {h}, {places} places");
    }
}

// An area at the limit by every call but a window, which has a program of its own: with origins within the range and beyond it, the first and the last of its
// numbers and squares and those past them; tables of other lengths than its own; by an AREA line under another area; and as the area in force.
fn edge(w: u32, h: u32) {
    let (squares, places) = (w.wrapping_mul(h), w as usize * h as usize);
    for area in [(0, 0), (-1_000_000, 1_000_000), (1_000_001, 0), (i32::MIN, i32::MAX)].map(|(ox, oy)| Area::new(w, h).at(ox, oy)) {
        for number in [0, squares.wrapping_sub(1), squares, MOST as u32] {
            compare_number(area, number, 3);
        }
        for (x, y) in [(0, 0), (-1, 0), (w as i32 - 1, 0), (w as i32, 0), (0, h as i32 - 1), (0, h as i32)] {
            compare_square(area, area.ox.wrapping_add(x), area.oy.wrapping_add(y), 2);
        }
        compare_finish(area, 2);
        for line in ["N 0", "N 16777215", "N 16777216", "S 0 0", "ORIGIN -1 1", "ORIGIN 0 1000001", "AREA 3 4", "AREA", "N x"] {
            compare_line(area, line.as_bytes());
        }
    }
    compare_line(Area::new(3, 4).at(-5, 7), format!("AREA {w} {h}").as_bytes());
    let refusal = independent::accepted(w.into(), h.into()).err().unwrap_or(4);
    for wrong in [0, 12, places.saturating_sub(1), places + 1] {
        refused_tables(w, h, wrong, refusal as u32);
    }
}

// Document 02's limit of squares: areas at it, and at those of the sides, by hand and at random. 24,929 by 673 and 65,281 by 257 have just one square too many.
// No product of two sides could wrap in 32 bits and be taken for a smaller one: 65,535 by 65,535 is below 2^32.
fn edges(random: &mut Random) {
    let pass = [(4096, 4096), (8192, 2048), (2048, 8192), (4095, 4097), (24929, 672), (65281, 256), (65535, 256), (256, 65535), (65535, 1), (1, 65535)];
    let over = [(4096, 4097), (4097, 4096), (8193, 2048), (8192, 2049), (65535, 257), (257, 65535), (65535, 65535)];
    let one_over = [(24929, 673), (673, 24929), (65281, 257), (257, 65281)];
    let wrong_sides = [(65536, 256), (256, 65536), (65536, 257), (65536, 65536), (65536, 1), (0, 65536), (65536, 0), (0, 65535), (MOST as u32, MOST as u32)];
    for (refusal, areas) in [(0, &pass[..]), (13, &over), (13, &one_over), (1, &wrong_sides)] {
        for &(w, h) in areas {
            assert_eq!(finish_square(Area::new(w, h), 2).0, refusal, "{w} by {h}");
            edge(w, h);
        }
    }
    for _ in 0..2_000 {
        let (w, h) = sides_at_limit(random);
        edge(w, h);
    }
}

// Refusal 13 by hand, beside each of those that also apply: of a call 1 comes before it, and all others after it; of a line 8, 6 and 5 come before it too.
fn too_many_squares() {
    for (w, h, refusal) in [(4096, 4097, 13), (65535, 257, 13), (65535, 65535, 13), (65536, 257, 1), (65536, 65536, 1), (0, 65536, 1)] {
        let (near, far) = (Area::new(w, h), Area::new(w, h).at(-1_000_001, 0));
        for area in [near, far] {
            assert_eq!(number_to_square(area, 0, 3), (refusal, vec![0; 3]), "{area:?}");
            assert_eq!(number_to_square(area, MOST as u32, 3), (refusal, vec![0; 3]), "{area:?}");
            assert_eq!(square_to_number(area, i32::MAX, i32::MIN, 2), (refusal, vec![0; 2]), "{area:?}");
            assert_eq!(finish_square(area, 2), (refusal, vec![0; 2]), "{area:?}");
            assert_eq!(finish_square(area, 1).0, 255, "{area:?}");
        }
        refused_tables(w, h, 0, refusal);
        refused_tables(w, h, 12, refusal);
        for line in ["N 0", "S 0 0", "ORIGIN 1 1", "ORIGIN 0 1000001"] {
            assert_eq!(handle_line(near, line.as_bytes(), 8), (7, vec![0; 8]), "line {line:?} under {near:?}");
        }
        let lines = [(format!("AREA {w} {h}"), refusal), (format!("AREA {w} {h} "), 6), (format!("AREA 0{w} {h}"), 5)];
        for (line, returned) in lines.into_iter().chain([(format!("AREA {w} {h:060}"), 8)]) {
            assert_eq!(handle_line(Area::new(3, 4).at(-5, 7), line.as_bytes(), 8), (returned, vec![0; 8]), "line {line:?}");
        }
    }
    let set = vec![4096, 4096, 0, 0, 1, 16_777_216, 4095, 0];
    assert_eq!(handle_line(Area::new(3, 4).at(-5, 7), b"AREA 4096 4096", 8), (0, set));
    assert_eq!(handle_line(Area::new(4096, 4096), b"N 16777215", 8).1[4..7], [2, 4095, 0]);
    assert_eq!(handle_line(Area::new(4096, 4096), b"N 16777216", 8).0, 3);
}

// A form by hand, each line under the area that the one before it left, with all that the call tells.
fn site_form() {
    let mut area = Area::new(0, 0);
    for (line, returned, values) in [
        ("ORIGIN 1 2", 7, [0, 0, 0, 0, 0, 0, 0, 0]),
        ("AREA 3 4", 0, [3, 4, 0, 0, 1, 12, 2, 0]),
        ("ORIGIN -5 7", 0, [3, 4, -5, 7, 4, -5, 7, 0]),
        ("N 8", 0, [3, 4, -5, 7, 2, -3, 8, 3]),
        ("S -3 8", 0, [3, 4, -5, 7, 3, 8, 3, 0]),
        ("S -0000000003 0000000008", 0, [3, 4, -5, 7, 3, 8, 3, 0]),
        ("S 2 1", 2, [3, 4, -5, 7, 0, 0, 0, 0]),
        ("S -0 8", 5, [3, 4, -5, 7, 0, 0, 0, 0]),
        ("S -000000003 8", 5, [3, 4, -5, 7, 0, 0, 0, 0]),
        ("S 2147483647 -2147483647", 2, [3, 4, -5, 7, 0, 0, 0, 0]),
        ("S 2147483648 0", 5, [3, 4, -5, 7, 0, 0, 0, 0]),
        ("S 4294967295 0", 5, [3, 4, -5, 7, 0, 0, 0, 0]),
        ("N -8", 5, [3, 4, -5, 7, 0, 0, 0, 0]),
        ("N 12", 3, [3, 4, -5, 7, 0, 0, 0, 0]),
        ("origin 1 2", 6, [3, 4, -5, 7, 0, 0, 0, 0]),
        ("ORIGIN 1 1", 0, [3, 4, 1, 1, 4, 1, 1, 0]),
        ("N 8", 0, [3, 4, 1, 1, 2, 3, 2, 3]),
        ("AREA 5 2", 0, [5, 2, 0, 0, 1, 10, 3, 0]),
        ("S 3 0", 0, [5, 2, 0, 0, 3, 9, 3, 0]),
        ("ORIGIN 1000000 -1000000", 0, [5, 2, 1_000_000, -1_000_000, 4, 1_000_000, -1_000_000, 0]),
        ("N 9", 0, [5, 2, 1_000_000, -1_000_000, 2, 1_000_003, -1_000_000, 3]),
        ("ORIGIN 1000001 0", 12, [0; 8]),
        ("N 9", 7, [0; 8]),
        ("ORIGIN 1 1", 7, [0; 8]),
        ("ORIGIN 9999999 0", 7, [0; 8]),
        ("ORIGIN -0 0", 5, [0; 8]),
        ("ORIGIN 1", 6, [0; 8]),
    ] {
        let found = handle_line(area, line.as_bytes(), 8);
        assert_eq!(found, (returned, values.to_vec()), "line {line:?} under {area:?}");
        area = in_force(&found);
    }
}

// A refused line leaves no area in force if its first bytes are AREA or ORIGIN, whatever it is refused for, and leaves the area as it was if not.
fn clearing() {
    let area = Area::new(3, 4).at(-5, 7);
    let long = |start: &str, length: usize| start.to_string() + &"1".repeat(length - start.len());
    let clear = ["ORIGIN", "ORIGINX 1 2", "ORIGIN 1 2 3", "ORIGIN 1 ", "ORIGIN\t1 2", "ORIGIN 1 2\r", "ORIGIN 01 2", "ORIGIN 0 -1000001", "AREA -3 4"];
    for line in clear.map(String::from).into_iter().chain([long("ORIGIN 1 2", 65), long("ORIGIN", 65), long("AREA 3 4", 65), long("ORIGIN", 70_000)]) {
        let (returned, values) = handle_line(area, line.as_bytes(), 8);
        assert!(returned != 0 && values == [0; 8], "line {:?} leaves {values:?}", &line[..line.len().min(80)]);
    }
    let keep = ["ORIGI", "ORIGI 1 2", "origin 1 2", " ORIGIN 1 2", "Origin 1 2", "AREORIGIN", "S ORIGIN 1", "N -1", "", "S - 1"];
    for line in keep.map(String::from).into_iter().chain([long("ORIGI", 65), long(" ORIGIN", 65), long("-", 65)]) {
        let (returned, values) = handle_line(area, line.as_bytes(), 8);
        assert!(returned != 0 && values == [3, 4, -5, 7, 0, 0, 0, 0], "line {line:?} leaves {values:?}");
    }
}

// Four numbers that are no accepted area, or an origin beyond the range, count as none, whatever the line asks.
fn hostile_states() {
    let sides = [0, 1, 3, 256, 4096, 4097, 65535, 65536, MOST as u32];
    let origins = [0, -1, 1_000_000, -1_000_000, 1_000_001, -1_000_001, i32::MIN, i32::MAX];
    let lines = ["N 0", "S 0 0", "S -1 -1", "S 1000000 -1000000", "AREA 3 4", "AREA 0 4", "ORIGIN 1 -2", "ORIGIN 0 1000001", "ORIGIN", "ORIGIN x y", "", "N x"];
    for (w, h) in sides.into_iter().flat_map(|w| sides.map(|h| (w, h))) {
        for (ox, oy) in origins.into_iter().flat_map(|ox| origins.map(|oy| (ox, oy))) {
            for line in lines {
                compare_line(Area { w, h, ox, oy }, line.as_bytes());
            }
        }
    }
}

// Document 02's even half of every length above 3, as the lookups show it: an area 3 wide begins with part A, one column up to the even half of its height,
// which is straight and so lies in 2 blocks. The square above it is the first of B, which is cut again.
fn even_halves() {
    for length in 4..=65535 {
        let (area, half) = (Area::new(3, length), 2 * ((length + 2) / 4));
        let (last, first) = (number_to_square(area, half - 1, 3), number_to_square(area, half, 3));
        assert_eq!(last, (0, vec![0, half as i128 - 1, 2]), "the last square of part A of 3 by {length}");
        assert_eq!(first.1[..2], [0, half as i128], "the first square of part B of 3 by {length}");
        assert!(first.1[2] > 2, "the first square of part B of 3 by {length} lies in over 2 blocks");
        assert_eq!(square_to_number(area, 0, half as i32 - 1, 2), (0, vec![half as i128 - 1, 2]), "the number of that last square of 3 by {length}");
    }
}

// The lines that a field can stand in.
fn lines_with(field: &str) -> [String; 7] {
    let shapes = ["N #", "S # 0", "S 0 #", "AREA # 7", "AREA 7 #", "ORIGIN # 0", "ORIGIN 0 #"];
    shapes.map(|shape| shape.replace('#', field))
}

// Document 02's labels: a field of exactly ten digits may begin with zeros and asks as the plain number does, shorter and longer ones are refused as before.
// Besides the cases that it gives, every field of up to eleven zeros and ones, with a minus and without.
fn labels() {
    let asked = |field: &str| handle_line(Area::new(4096, 4096), format!("N {field}").as_bytes(), 8);
    let answered = [("0000000030", "30", 0), ("0000000000", "0", 0), ("0004294967", "4294967", 0), ("0016777215", "16777215", 0)];
    for (padded, plain, returned) in answered.into_iter().chain([("0016777216", "16777216", 3), ("0999999999", "999999999", 3)]) {
        assert_eq!(asked(padded), asked(plain), "{padded} and {plain}");
        assert_eq!(asked(padded).0, returned, "{padded}");
    }
    for none in ["07", "00", "000000030", "00000000030", "4294967296", "9999999999", "00000003E4", "-000000030", "-0000000030", "-30", "-0"] {
        assert_eq!(asked(none), (5, vec![4096, 4096, 0, 0, 0, 0, 0, 0]), "{none}");
    }
    for length in 1..=11 {
        for bits in 0..1 << length {
            let digits: String = (0..length).map(|i| if bits >> i & 1 == 1 { '1' } else { '0' }).collect();
            for line in lines_with(&digits).into_iter().chain(lines_with(&format!("-{digits}"))) {
                compare_line(Area::new(3, 4).at(-1, -1), line.as_bytes());
            }
        }
    }
}

// Every text of up to so many of these characters.
fn texts(of: &[char], most: usize) -> Vec<String> {
    let mut all = vec![String::new()];
    let mut longest = all.clone();
    for _ in 0..most {
        longest = longest.iter().flat_map(|text| of.iter().map(move |next| format!("{text}{next}"))).collect();
        all.extend(longest.clone());
    }
    all
}

// Document 02's signed fields: every field of up to five of some characters, and those about the limits, plain and padded.
fn signed_fields() {
    let mut fields = texts(&['-', '+', ' ', '0', '7'], 5);
    for limit in [1i64, 7, 999_999, 1_000_000, 1_000_001, 2_147_483_646, 2_147_483_647, 2_147_483_648, 4_294_967_295, 4_294_967_296] {
        for digits in [format!("{limit}"), format!("{limit:09}"), format!("{limit:010}"), format!("{limit:011}")] {
            fields.extend(["", "-", "--", "+", "-+"].map(|sign| format!("{sign}{digits}")));
        }
    }
    for line in fields.iter().flat_map(|field| lines_with(field)) {
        compare_line(Area::new(15, 15).at(-7, -7), line.as_bytes());
    }
}

// A side of an area: an end of the range, past it, or anything.
fn side(random: &mut Random) -> u32 {
    match random.below(4) {
        0 => random.of(&[0, 1, 2, 3, 65534, 65535, 65536, 65537, 1 << 31, MOST as u32]),
        1 => random.below(20) as u32,
        2 => random.below(MOST + 1) as u32,
        _ => random.below(65536) as u32,
    }
}

// Two sides: at the limit of squares, hostile, or those of an accepted area.
fn any_sides(random: &mut Random) -> (u32, u32) {
    match random.below(4) {
        0 => (side(random), side(random)),
        1 => sides_at_limit(random),
        _ => {
            let most = random.of(&[300, 5000, 65535]);
            sides(random, most)
        }
    }
}

fn any_area(random: &mut Random) -> Area {
    let (w, h) = any_sides(random);
    Area { w, h, ox: origin(random), oy: origin(random) }
}

fn lookup(random: &mut Random) {
    let area = any_area(random);
    let length = random.of(&[0, 1, 2, 3, 4, 5, 256]);
    let number = near(random, area.w as u64 * area.h as u64);
    compare_number(area, number, length);
    let (x, y) = (near_from(random, area.ox, area.w as u64), near_from(random, area.oy, area.h as u64));
    compare_square(area, x, y, length);
    compare_finish(area, length);
}

// Tables of hostile areas; lengths 0, 20, one short, one long and right where the table is not too large to make.
fn hostile_tables(random: &mut Random) {
    let (w, h) = match random.below(4) {
        0 => any_sides(random),
        _ => (random.below(25) as u32, random.below(25) as u32),
    };
    let squares = w as usize * h as usize;
    let places = random.of(&[0, 20, squares.saturating_sub(1), squares, squares, squares + 1]);
    let length = random.below(5) as usize;
    tables(random, w, h, if places > 5_000 { 7 } else { places }, length);
}

// A line with a newline in it, or far too long: the library takes any bytes for one line.
fn stretched(random: &mut Random, mut line: Vec<u8>) -> Vec<u8> {
    match random.below(40) {
        0 => line.insert(random.below(line.len() as u64 + 1) as usize, b'\n'),
        1 => line.resize(random.of(&[63, 64, 65, 66, 255, 256, 257, 320, 65_536, 70_000]), b'7'),
        _ => {}
    }
    line
}

// A random line under the area that the last one left, or under any numbers at all. The area in force after it is handed on.
fn line(lines: &mut Lines, area: Area) -> Area {
    let line = lines.next();
    let random = &mut lines.random;
    let line = stretched(random, line);
    let area = match random.below(40) {
        0 => any_area(random),
        1 => area.at(origin(random), origin(random)),
        _ => area,
    };
    let text = String::from_utf8_lossy(&line[..line.len().min(80)]);
    let length = if random.below(4) == 0 { random.below(11) as usize } else { 10 };
    let answer = line_due(area, &line, length);
    assert_eq!(handle_line(area, &line, length), answer, "line {text:?} under {area:?} into {length} places");
    if length < 8 { area } else { in_force(&answer) }
}

fn main() {
    let seed = std::env::args().nth(1).map_or(1, |word| word.parse().expect("a seed"));
    println!("boundary: seed {seed}");
    let mut random = Random::from(seed);
    worked_cases();
    site_grid();
    too_many_squares();
    edges(&mut random);
    println!("boundary: 30 areas at the limits of sides and squares, and 2000 at random, by every call and by lines");
    // Lengths are compared whole: a table of 2^32 + 12 places is not one of 12.
    refused_tables(3, 4, (1 << 32) + 12, 4);
    site_form();
    clearing();
    hostile_states();
    even_halves();
    labels();
    signed_fields();
    for w in 1..=40 {
        for h in 1..=40 {
            whole_area(w, h);
            let squares = w as usize * h as usize;
            for places in [0, squares - 1, squares + 1, squares] {
                tables(&mut random, w, h, places, 4);
            }
        }
    }
    println!("boundary: every area up to 40 by 40, its lookups and its tables, as the independent program has them");
    for area in (1..=12).flat_map(|w| (1..=12).flat_map(move |h| Area::new(w, h).with_origins())) {
        with_origin(area);
    }
    println!("boundary: every area up to 12 by 12 with origins about 0, at the ends of the range and beyond it, by calls and by lines");
    for w in 1..=300 {
        for h in 1..=300 {
            finish(w, h);
        }
    }
    for side in 1..=65535 {
        for other in [1, 2, 3, 255, 256] {
            finish(side, other);
            finish(other, side);
        }
    }
    println!("boundary: the finish square of every area up to 300 by 300, and of every area with a side of 1, 2, 3, 255 or 256, is its last number's");
    for (w, h) in [(65535, 1), (1, 65535), (65535, 2), (3, 65535), (300, 200), (181, 359), (512, 512)] {
        tables(&mut random, w, h, w as usize * h as usize, 4);
    }
    for (w, h, places) in [(65536, 1, 65536), (1, 65536, 65536), (200, 200, 39_999), (200, 200, 40_001), (65535, 1, 65_534), (65535, 1, 65_536)] {
        tables(&mut random, w, h, places, 4);
    }
    for _ in 0..300_000 {
        lookup(&mut random);
    }
    for _ in 0..20_000 {
        hostile_tables(&mut random);
    }
    let mut lines = Lines::from(seed);
    let mut area = Area::new(0, 0);
    for _ in 0..300_000 {
        area = line(&mut lines, area);
    }
    println!("boundary: 900000 random lookups, 200000 calls on tables and 300000 lines, as the independent program has them");
}
