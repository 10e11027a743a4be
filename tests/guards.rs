// guards: the library's C functions with every slice that they are lent laid against memory that may not be touched, once up to its end and once from
// its beginning on. What a call may not alter lies in pages that can only be read: a line, a table under a check, a writer or a refused fill or reader, a
// file under a reader or a refused writer, a slice that is too short. Where a check by number finds one of a table's first places wrong, all places behind
// them lie in forbidden memory, and where an area is refused all places do, of a file too. Each answer is held to the independent program's. A touch of
// anything else ends the program, which says what was asked.
#[allow(dead_code)] // areas with many origins are not needed here
mod expected;
#[allow(dead_code)] // whole traversals are not needed here
mod independent;
#[allow(dead_code)] // nor are random numbers
mod random;
#[path = "../bindings/rust/src/raw.rs"]
mod raw;

use expected::{due, in_force, line_due, told, untouched, Area, Told, UNTOUCHED};
use independent::Window;
use random::Lines;
use std::cell::Cell;
use std::ffi::{c_int, c_long, c_void};
use std::sync::Mutex;

extern "C" {
    fn mmap(address: *mut c_void, length: usize, protection: c_int, flags: c_int, file: c_int, offset: c_long) -> *mut c_void;
    fn mprotect(address: *mut c_void, length: usize, protection: c_int) -> c_int;
    fn sysconf(name: c_int) -> c_long;
    fn signal(number: c_int, handler: extern "C" fn(c_int)) -> usize;
}

// Linux's numbers, which are the same on x86-64 and Arm.
const PROT_NONE: c_int = 0;
const PROT_READ: c_int = 1;
const PROT_BOTH: c_int = 3;
const MAP_PRIVATE_ANONYMOUS_NORESERVE: c_int = 0x4022;
const SC_PAGESIZE: c_int = 30;
const SIGBUS: c_int = 7;
const SIGSEGV: c_int = 11;

// The bytes of a guard: no place with a 32-bit number lies behind it.
const GUARD: usize = 1 << 34;

// The guard that a slice lies against.
#[derive(Clone, Copy, Debug)]
enum Guard {
    Before,
    Behind,
}

// Pages between two guards, and what may be done with them at the moment.
struct Pages {
    start: *mut u8,
    bytes: usize,
    allowed: Cell<c_int>,
}

impl Pages {
    fn for_bytes(bytes: usize) -> Pages {
        // SAFETY: the memory is new, and the pages lie within it.
        unsafe {
            let bytes = bytes.next_multiple_of(sysconf(SC_PAGESIZE) as usize);
            let all = mmap(std::ptr::null_mut(), GUARD + bytes + GUARD, PROT_NONE, MAP_PRIVATE_ANONYMOUS_NORESERVE, -1, 0);
            assert!(all as isize != -1, "there is no room for the guards");
            Pages { start: all.cast::<u8>().add(GUARD), bytes, allowed: Cell::new(PROT_NONE) }
        }
    }

    fn allow(&self, protection: c_int) {
        if self.allowed.replace(protection) == protection {
            return;
        }
        // SAFETY: nothing but what is laid here lies in these pages.
        assert_eq!(unsafe { mprotect(self.start.cast(), self.bytes, protection) }, 0, "the pages cannot be protected");
    }

    // Lays values against a guard, for the library to read or also to write.
    fn lay<T: Copy>(&self, values: &[T], guard: Guard, protection: c_int) -> *mut T {
        let bytes = size_of_val(values);
        assert!(bytes <= self.bytes, "{bytes} bytes do not fit into {}", self.bytes);
        let offset = match guard {
            Guard::Before => 0,
            Guard::Behind => self.bytes - bytes,
        };
        self.allow(PROT_BOTH);
        // SAFETY: the values fit, and both ends of the pages are fit for a number of any type.
        let slice = unsafe { self.start.add(offset) }.cast::<T>();
        unsafe { slice.copy_from_nonoverlapping(values.as_ptr(), values.len()) };
        self.allow(protection);
        slice
    }
}

// What lies in a slice that was laid, after a call.
fn left<T: Copy>(slice: *const T, length: usize) -> Vec<T> {
    // SAFETY: it was laid with this length.
    unsafe { std::slice::from_raw_parts(slice, length) }.to_vec()
}

// What the library is asked, for the message.
static ASKED: Mutex<String> = Mutex::new(String::new());

extern "C" fn touched(_: c_int) {
    println!("guards: what may not be touched was touched: {}", ASKED.lock().unwrap());
    std::process::exit(1);
}

// Pages for something short and for something long: the fewer there are, the sooner they are protected.
struct Lending {
    short: Pages,
    long: Pages,
}

impl Lending {
    fn new() -> Lending {
        Lending { short: Pages::for_bytes(4_096), long: Pages::for_bytes(1 << 20) }
    }

    fn lay<T: Copy>(&self, values: &[T], guard: Guard, protection: c_int) -> *mut T {
        let pages = if size_of_val(values) <= self.short.bytes { &self.short } else { &self.long };
        pages.lay(values, guard, protection)
    }

    // What lies in a slice that was laid, after a call that may not have been allowed to read it.
    fn left<T: Copy>(&self, slice: *const T, length: usize) -> Vec<T> {
        let pages = if length * size_of::<T>() <= self.short.bytes { &self.short } else { &self.long };
        pages.allow(PROT_READ);
        left(slice, length)
    }
}

// Pages for the results, for a table or a line, and for a file; and how many calls were made.
struct Room {
    results: Pages,
    tables: Lending,
    files: Lending,
    calls: Cell<u64>,
}

impl Room {
    // Lays a table or a line.
    fn lay<T: Copy>(&self, values: &[T], guard: Guard, protection: c_int) -> *mut T {
        self.tables.lay(values, guard, protection)
    }

    // One question, with a result slice of every length up to two places more than enough, against either guard. What is due is given by the length.
    fn ask<T: Copy + TryFrom<u32> + Into<i128>>(
        &self,
        what: &str,
        values: usize,
        due: impl Fn(usize) -> Told,
        call: impl Fn(*mut T, usize, Guard) -> u32,
    ) {
        for length in 0..=values + 2 {
            let due = due(length);
            for guard in [Guard::Before, Guard::Behind] {
                let asked = format!("{what}, {length} places for the result, guard: {guard:?}");
                asked.clone_into(&mut ASKED.lock().unwrap());
                let result = self.results.lay(&untouched::<T>(length), guard, if length < values { PROT_READ } else { PROT_BOTH });
                let returned = call(result, length, guard);
                assert_eq!(told(returned, left(result, length)), due, "{asked}");
                self.calls.set(self.calls.get() + 1);
            }
        }
    }
}

// SAFETY, here and below: each slice is passed with its own length, and no two of them overlap.
fn number_to_square(room: &Room, area: Area, number: u32) {
    let Area { w, h, ox, oy } = area;
    let answer = independent::number_to_square(area.into(), number.into());
    let call = |result, length, _| unsafe { raw::uvalinda_number_to_square(w, h, ox, oy, number, result, length) };
    room.ask(&format!("number {number} of {area:?}"), 3, |length| due(&answer, 3, length), call);
}

fn square_to_number(room: &Room, area: Area, x: i32, y: i32) {
    let Area { w, h, ox, oy } = area;
    let answer = independent::square_to_number(area.into(), x.into(), y.into());
    let call = |result, length, _| unsafe { raw::uvalinda_square_to_number(w, h, ox, oy, x, y, result, length) };
    room.ask(&format!("square ({x}, {y}) of {area:?}"), 2, |length| due(&answer, 2, length), call);
}

fn finish_square(room: &Room, area: Area) {
    let Area { w, h, ox, oy } = area;
    let answer = independent::finish_square(area.into());
    let call = |result, length, _| unsafe { raw::uvalinda_finish_square(w, h, ox, oy, result, length) };
    room.ask(&format!("finish square of {area:?}"), 2, |length| due(&answer, 2, length), call);
}

fn fill(room: &Room, w: u32, h: u32, by_square: bool, places: usize) {
    let what = format!("fill of {w} by {h}, {places} places, by square: {by_square}");
    let answer = independent::fill(w as i64, h as i64, places);
    let before = vec![UNTOUCHED; places];
    let filled = if answer.is_ok() { independent::table_due(w as i64, h as i64, by_square) } else { vec![] };
    let function = if by_square { raw::uvalinda_fill_by_square } else { raw::uvalinda_fill_by_number };
    let call = |blocks, length, guard| {
        let (after, protection) = if answer.is_ok() && length >= 1 { (&filled, PROT_BOTH) } else { (&before, PROT_READ) };
        let table = room.lay(&before, guard, protection);
        let returned = unsafe { function(w, h, table, places, blocks, length) };
        assert!(left(table, places) == *after, "the table after a {what}, {length} places for the result, guard: {guard:?}");
        returned
    };
    room.ask::<u64>(&what, 1, |length| due(&answer, 1, length), call);
}

fn check(room: &Room, w: u32, h: u32, by_square: bool, table: &[u32]) {
    let answer = independent::check(w as i64, h as i64, by_square, table);
    let function = if by_square { raw::uvalinda_check_by_square } else { raw::uvalinda_check_by_number };
    let call = |result, length, guard| unsafe { function(w, h, room.lay(table, guard, PROT_READ), table.len(), result, length) };
    let what = format!("check of {w} by {h}, {} places, by square: {by_square}, due: {answer:?}", table.len());
    room.ask(&what, 3, |length| due(&answer, 3, length), call);
}

// The slice for runs can only be read where the call may not write it.
fn runs_for_window(room: &Room, area: Area, [x0, y0, x1, y1]: [i32; 4], places: usize) {
    let Area { w, h, ox, oy } = area;
    let window = Window { x0: x0.into(), y0: y0.into(), x1: x1.into(), y1: y1.into() };
    let runs = || independent::runs_by_squares(area.into(), window);
    let (refusal, count, written) = independent::window_answer(area.into(), window, places, runs);
    let before = vec![UNTOUCHED; places];
    let mut after = before.clone();
    for (pair, run) in after.chunks_mut(2).zip(&written) {
        pair.copy_from_slice(&[run.0 as u32, run.1 as u32]);
    }
    let what = format!("runs of {window:?} in {area:?}, {places} places");
    let call = |result, length, guard| {
        let (left_so, protection) = if refusal == 0 && length >= 1 { (&after, PROT_BOTH) } else { (&before, PROT_READ) };
        let slice = room.lay(&before, guard, protection);
        let returned = unsafe { raw::uvalinda_runs_for_window(w, h, ox, oy, x0, y0, x1, y1, slice, places, result, length) };
        assert!(left(slice, places) == *left_so, "the runs after {what}, {length} places for the result, guard: {guard:?}");
        returned
    };
    room.ask::<u32>(&what, 1, |length| expected::left(refusal as u32, &[count], length), call);
}

// Windows of an area, with room none, short, odd, exact and ample, and some that are refused.
fn windows(room: &Room, area: Area) {
    let (w, h) = (area.w as i32, area.h as i32);
    for v in [[0, 0, w / 2, h / 2], [w / 3, h / 2, w - 1, h - 1], [0, h / 2, w - 1, h / 2], [1, 0, 0, 0], [0, 0, w, 0], [-1, 0, 0, 0], [0, 0, w - 1, h - 1]] {
        let [x0, y0, x1, y1] = v;
        for places in [0, 1, 2, 3, 4, 5, 9, 16, 41] {
            runs_for_window(room, area, [area.ox + x0, area.oy + y0, area.ox + x1, area.oy + y1], places);
        }
    }
}

fn handle_line(room: &Room, area: Area, line: &[u8]) {
    let Area { w, h, ox, oy } = area;
    let text = String::from_utf8_lossy(&line[..line.len().min(80)]);
    let call = |result, length, guard| unsafe { raw::uvalinda_handle_line(w, h, ox, oy, room.lay(line, guard, PROT_READ), line.len(), result, length) };
    room.ask(&format!("line {text:?}, {} bytes, under {area:?}", line.len()), 8, |length| line_due(area, line, length), call);
}

fn card_length(room: &Room, w: u32, h: u32) {
    let answer = independent::card_length(w.into(), h.into());
    let call = |result, length, _| unsafe { raw::uvalinda_card_length(w, h, result, length) };
    room.ask::<u64>(&format!("how long a card of {w} by {h} is"), 1, |length| due(&answer, 1, length), call);
}

// The protection of what only an answered call may write, and of what none may: where the call is refused for its area or for a length, it may not even be
// read.
fn protections(refusal: i64, answered: bool) -> (c_int, c_int) {
    match refusal {
        1 | 13 | 4 => (PROT_NONE, PROT_NONE),
        _ => (if answered { PROT_BOTH } else { PROT_READ }, PROT_READ),
    }
}

// A writer told an area and a kind, with a table and a file of so many bytes.
fn write_card(room: &Room, [w, h, kind]: [u32; 3], table: &[u32], bytes: usize) {
    let refusal = independent::write_card(w.into(), h.into(), kind.into(), table, bytes).err().unwrap_or(0);
    let before = vec![7; bytes];
    let after = if refusal == 0 { independent::card(w.into(), h.into(), kind.into()) } else { before.clone() };
    for guard in [Guard::Before, Guard::Behind] {
        let asked = format!("a writer told {w} by {h}, kind {kind}, {} places, {bytes} bytes, guard: {guard:?}, due: {refusal}", table.len());
        asked.clone_into(&mut ASKED.lock().unwrap());
        let (written, kept) = protections(refusal, refusal == 0);
        let (lent, file) = (room.lay(table, guard, kept), room.files.lay(&before, guard, written));
        let returned = unsafe { raw::uvalinda_write_card(w, h, kind, lent, table.len(), file, bytes) };
        assert_eq!(returned, refusal as u32, "{asked}");
        assert!(room.files.left(file, bytes) == after, "the file after {asked}");
        room.calls.set(room.calls.get() + 1);
    }
}

// A reader told an area and a kind, with a file and a table of so many places.
fn read_card(room: &Room, [w, h, kind]: [u32; 3], file: &[u8], places: usize) {
    let verdict = independent::read_card(w.into(), h.into(), kind.into(), file, places);
    let (refusal, block) = verdict.err().unwrap_or((0, 0));
    let before = vec![UNTOUCHED; places];
    let held = if refusal == 0 { independent::table_due(w.into(), h.into(), kind == 2) } else { vec![] };
    let what = format!("a reader told {w} by {h}, kind {kind}, {} bytes, {places} places, due: {refusal} {block}", file.len());
    let call = |result, length, guard| {
        let answered = refusal == 0 && length >= 1;
        let (written, kept) = protections(refusal, answered);
        let (lent, table) = (room.files.lay(file, guard, kept), room.lay(&before, guard, written));
        let returned = unsafe { raw::uvalinda_read_card(w, h, kind, lent, file.len(), table, places, result, length) };
        let after = if answered { &held } else { &before };
        assert!(room.tables.left(table, places) == *after, "the table after {what}, {length} places for the result, guard: {guard:?}");
        returned
    };
    room.ask::<u64>(&what, 1, |length| expected::left(refusal as u32, &[block], length), call);
}

// An area's cards of both kinds, written and read: right ones, and with other lengths, a kind that there is not, a bad check in the first and the last block,
// a wrong place at either end, and blocks beyond the layout.
fn cards(room: &Room, w: u32, h: u32) {
    card_length(room, w, h);
    for told in [[w, h, 1], [w, h, 2]] {
        let (table, file) = (independent::table_due(w.into(), h.into(), told[2] == 2), independent::card(w.into(), h.into(), told[2].into()));
        let (places, bytes) = (table.len(), file.len());
        write_card(room, told, &table, bytes);
        read_card(room, told, &file, places);
        for no_kind in [[w, h, 0], [w, h, 3], [w, h, u32::MAX]] {
            write_card(room, no_kind, &table, bytes);
            read_card(room, no_kind, &file, places);
        }
        for length in [0, 1, 511, 512, 513, bytes - 513, bytes - 1, bytes + 1, bytes + 511, bytes + 512, bytes + 1_024] {
            write_card(room, told, &table, length);
            let mut other = file.clone();
            other.resize(length, 0);
            read_card(room, told, &other, places);
        }
        for length in [0, places - 1, places + 1, 2 * places] {
            let mut other = table.clone();
            other.resize(length, 0);
            write_card(room, told, &other, bytes);
            read_card(room, told, &file, length);
        }
        for byte in [0, 511, 512, bytes - 1] {
            let mut bad = file.clone();
            bad[byte] ^= 1;
            read_card(room, told, &bad, places);
        }
        for place in [0, places - 1] {
            let mut wrong = table.clone();
            wrong[place] ^= 1;
            write_card(room, told, &wrong, bytes);
            let words = independent::card_words(&[1, w, h, told[2]], &wrong);
            read_card(room, told, &independent::little_endian(&words), places);
        }
    }
}

// Writers and readers of an area that is refused, with as many places and bytes as it would have, none of which may be touched.
fn refused_cards(room: &Room, w: u32, h: u32) {
    let refusal = independent::accepted(w.into(), h.into()).expect_err("an area that is refused");
    let places = w as usize * h as usize;
    let bytes = 512 * (1 + places.div_ceil(126));
    card_length(room, w, h);
    let lent = |guard| (room.lay(&[UNTOUCHED], guard, PROT_NONE), room.files.lay(&[7], guard, PROT_NONE));
    for kind in [1, 2, 3] {
        let call = |block, length, guard| {
            let (table, file) = lent(guard);
            assert_eq!(unsafe { raw::uvalinda_write_card(w, h, kind, table, places, file, bytes) }, refusal as u32, "a writer of {w} by {h}");
            unsafe { raw::uvalinda_read_card(w, h, kind, file, bytes, table, places, block, length) }
        };
        room.ask::<u64>(&format!("cards of {w} by {h}, all of their places"), 1, |length| expected::left(refusal as u32, &[0], length), call);
    }
}

// A reader's file of 2^32 bytes more than the card that it begins with, and all of them 0: lengths are taken whole, so it has a bad block behind the card.
fn long_file(room: &Room) {
    let (file, length) = (independent::card(3, 4, 1), (1 << 32) + 1_024);
    let pages = Pages::for_bytes(length);
    let lent = pages.lay(&file, Guard::Before, PROT_READ);
    let call = |block, places, guard| {
        let table = room.lay(&[UNTOUCHED; 12], guard, PROT_READ);
        unsafe { raw::uvalinda_read_card(3, 4, 1, lent, length, table, 12, block, places) }
    };
    room.ask::<u64>("a reader of 2^32 bytes more than a card", 1, |places| expected::left(14, &[2], places), call);
}

// Fills and checks of a table of some length; where it is the right one, checks of a right table and of one that is wrong at either end or in the middle.
fn tables(room: &Room, w: u32, h: u32, places: usize) {
    for by_square in [false, true] {
        fill(room, w, h, by_square, places);
        if independent::fill(w as i64, h as i64, places).is_err() {
            check(room, w, h, by_square, &vec![0; places]);
            continue;
        }
        let mut table = independent::table_due(w as i64, h as i64, by_square);
        check(room, w, h, by_square, &table);
        for place in [places - 1, places / 2, 0] {
            table[place] ^= 1;
            check(room, w, h, by_square, &table);
        }
    }
}

// A small area: every number, every square, those past the ends, and tables of the right and of other lengths.
fn small_area(room: &Room, area: Area) {
    let squares = area.w * area.h;
    for number in 0..=squares + 1 {
        number_to_square(room, area, number);
    }
    for (x, y) in (-1..=area.w as i32).flat_map(|x| (-1..=area.h as i32).map(move |y| (x, y))) {
        square_to_number(room, area, area.ox + x, area.oy + y);
    }
    finish_square(room, area);
    for places in [0, 1, squares.saturating_sub(1), squares, squares + 1, 2 * squares] {
        tables(room, area.w, area.h, places as usize);
    }
}

// Numbers about the end of an area's, and coordinates about the ends of a side.
fn numbers_about(n: u32) -> [u32; 7] {
    [0, 1, n / 2, n.wrapping_sub(1), n, n.wrapping_add(1), u32::MAX]
}

fn coordinates_about(from: i32, n: u32) -> [i32; 8] {
    let on = |c: u32| from.wrapping_add_unsigned(c);
    [i32::MIN, from.wrapping_sub(1), from, on(n / 2), on(n.wrapping_sub(1)), on(n), on(n.wrapping_add(1)), i32::MAX]
}

// A large area, or one that is none: numbers and squares about its ends, and tables of some lengths.
fn large_area(room: &Room, area: Area, lengths: &[usize]) {
    for number in numbers_about(area.w.wrapping_mul(area.h)) {
        number_to_square(room, area, number);
    }
    for (x, y) in coordinates_about(area.ox, area.w).into_iter().flat_map(|x| coordinates_about(area.oy, area.h).map(|y| (x, y))) {
        square_to_number(room, area, x, y);
    }
    finish_square(room, area);
    for &places in lengths {
        tables(room, area.w, area.h, places);
    }
}

// Checks by number of a table of which only the first places may be read, and one of these is wrong: the check ends there, whatever would lie behind.
fn ends_where_wrong(room: &Room, w: u32, h: u32, places: usize) {
    let place = |number| {
        let square = independent::number_to_square(Area::new(w, h).into(), number as i64).expect("a number of the area");
        (square[1] * w as i64 + square[0]) as u32
    };
    let right: Vec<u32> = (0..places).map(place).collect();
    for wrong in 0..places {
        let mut table = right.clone();
        table[wrong] ^= 1;
        let answer = Ok(vec![1, wrong as i64, right[wrong] as i64]);
        let lent = |result, length, _| {
            let first = room.lay(&table, Guard::Behind, PROT_READ);
            unsafe { raw::uvalinda_check_by_number(w, h, first, w as usize * h as usize, result, length) }
        };
        room.ask(&format!("check of {w} by {h}, place {wrong} wrong, {places} places to read"), 3, |length| due(&answer, 3, length), lent);
    }
}

// Fills and checks of an area that is refused, with a table of as many places as it would have, none of which may be read.
fn refused_whole(room: &Room, w: u32, h: u32) {
    let (answer, places) = (Err(independent::accepted(w.into(), h.into()).expect_err("an area that is refused")), w as usize * h as usize);
    let table = |guard| room.lay(&[UNTOUCHED], guard, PROT_NONE);
    for fill in [raw::uvalinda_fill_by_number, raw::uvalinda_fill_by_square] {
        let call = |blocks, length, guard| unsafe { fill(w, h, table(guard), places, blocks, length) };
        room.ask::<u64>(&format!("fill of {w} by {h}, all of its places"), 1, |length| due(&answer, 1, length), call);
    }
    for check in [raw::uvalinda_check_by_number, raw::uvalinda_check_by_square] {
        let call = |result, length, guard| unsafe { check(w, h, table(guard), places, result, length) };
        room.ask(&format!("check of {w} by {h}, all of its places"), 3, |length| due(&answer, 3, length), call);
    }
}

// Lines of every length up to 70 bytes and some longer, cut from right lines and from ones that go on for ever; then random lines, each under the area that
// the one before it left.
fn lines(room: &Room) {
    let right = [("AREA 12 11", b'7'), ("AREA 12 11", b' '), ("N 4294967295", b'9'), ("N 130", b' '), ("S 11 10", b' '), ("S 3 4", b'0')];
    let signed = [("ORIGIN -7 7", b' '), ("ORIGIN -1000000 -1000000", b'0'), ("ORIGIN -", b'-'), ("S -2147483647 -0000000003", b' '), ("S -3 -", b'0')];
    for (start, goes_on) in right.into_iter().chain(signed).chain([("", b'7'), ("", 0), ("", b'-')]) {
        for length in (0..=70).chain([255, 256, 257, 4_095, 4_096, 65_536, 70_000]) {
            let mut line = start.as_bytes()[..start.len().min(length)].to_vec();
            line.resize(length, goes_on);
            handle_line(room, Area::new(12, 11).at(-5, 3), &line);
            handle_line(room, Area::new(0, 0), &line);
        }
    }
    let mut lines = Lines::from(1);
    let mut area = Area::new(0, 0);
    for line in std::iter::repeat_with(|| lines.next()).take(5_000) {
        handle_line(room, area, &line);
        area = in_force(&line_due(area, &line, 8));
    }
}

fn main() {
    for number in [SIGSEGV, SIGBUS] {
        // SAFETY: no call of the library is made while the text for the message is written.
        unsafe { signal(number, touched) };
    }
    let room = Room { results: Pages::for_bytes(4_096), tables: Lending::new(), files: Lending::new(), calls: Cell::new(0) };
    for (w, h) in (0..=12).flat_map(|w| (0..=12).map(move |h| (w, h))) {
        small_area(&room, Area::new(w, h));
        windows(&room, Area::new(w.max(1), h.max(1)));
        windows(&room, Area::new(w.max(1), h.max(1)).at(-6, 1_000_000));
    }
    for (ox, oy) in [(-6, 1_000_000), (-1_000_001, 0), (0, i32::MIN + 2), (i32::MAX - 9, 0)] {
        small_area(&room, Area::new(8, 7).at(ox, oy));
        windows(&room, Area::new(8, 7).at(ox, oy));
    }
    for (w, h) in [(65535, 1), (1, 65535), (65535, 3), (2, 65535), (300, 200)] {
        large_area(&room, Area::new(w, h).at(-100, 1), &[w as usize * h as usize, 65_535, 65_536]);
    }
    for (w, h) in [(4096, 4096), (65535, 256), (256, 65535), (4096, 4097), (65535, 257), (65535, 65535)] {
        large_area(&room, Area::new(w, h).at(1_000_000, -1_000_000), &[0, 12]);
        large_area(&room, Area::new(w, h).at(i32::MAX, i32::MIN), &[]);
    }
    for (w, h) in [(65536, 1), (1, 65536), (65536, 65536), (u32::MAX, 1), (1, u32::MAX), (u32::MAX, u32::MAX), (0, 65536)] {
        large_area(&room, Area::new(w, h), &[0, 1, 65_536]);
    }
    for (w, h) in [(4096, 4097), (4097, 4096), (24929, 673), (257, 65281), (65535, 257), (65535, 65535), (65536, 1), (65536, 65536)] {
        refused_whole(&room, w, h);
        refused_cards(&room, w, h);
        windows(&room, Area::new(w, h).at(-6, 1_000_000));
    }
    ends_where_wrong(&room, 4_096, 4_096, 64);
    ends_where_wrong(&room, 65_535, 256, 4);
    ends_where_wrong(&room, 256, 65_535, 4);
    lines(&room);
    for (w, h) in (1..=12).flat_map(|w| (1..=12).map(move |h| (w, h))).chain([(126, 1), (127, 1), (1, 253), (65535, 1), (2, 65535), (300, 200)]) {
        cards(&room, w, h);
    }
    long_file(&room);
    println!("guards: {} calls, and none touches what it was not lent", room.calls.get());
}
