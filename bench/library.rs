// The library's calls, as the benchmarks make them: over the module `raw` that stands beside this one, so that two versions of the library can be called.
use super::raw;
use crate::common::Area;

// The origin of the areas that are timed.
pub const ORIGIN: (i32, i32) = (-2000, 31);

// SAFETY, here and below: each slice is passed with its own length, and no two of them overlap.
pub fn number_to_square(w: u32, h: u32, ox: i32, oy: i32, number: u32) -> Result<(i32, i32, u32), u32> {
    let mut result = [0; 3];
    match unsafe { raw::uvalinda_number_to_square(w, h, ox, oy, number, result.as_mut_ptr(), result.len()) } {
        0 => Ok((result[0], result[1], result[2] as u32)),
        refusal => Err(refusal),
    }
}

pub fn square_to_number(w: u32, h: u32, ox: i32, oy: i32, x: i32, y: i32) -> Result<(u32, u32), u32> {
    let mut result = [0; 2];
    match unsafe { raw::uvalinda_square_to_number(w, h, ox, oy, x, y, result.as_mut_ptr(), result.len()) } {
        0 => Ok((result[0], result[1])),
        refusal => Err(refusal),
    }
}

pub fn finish_square(w: u32, h: u32, ox: i32, oy: i32) -> Result<(i32, i32), u32> {
    let mut result = [0; 2];
    match unsafe { raw::uvalinda_finish_square(w, h, ox, oy, result.as_mut_ptr(), result.len()) } {
        0 => Ok((result[0], result[1])),
        refusal => Err(refusal),
    }
}

pub fn fill(w: u32, h: u32, table: &mut [u32], by_square: bool) -> Result<u64, u32> {
    let call = if by_square { raw::uvalinda_fill_by_square } else { raw::uvalinda_fill_by_number };
    let mut blocks = [0];
    match unsafe { call(w, h, table.as_mut_ptr(), table.len(), blocks.as_mut_ptr(), blocks.len()) } {
        0 => Ok(blocks[0]),
        refusal => Err(refusal),
    }
}

pub fn check(w: u32, h: u32, table: &[u32], by_square: bool) -> Result<Option<(u32, u32)>, u32> {
    let call = if by_square { raw::uvalinda_check_by_square } else { raw::uvalinda_check_by_number };
    let mut result = [0; 3];
    match unsafe { call(w, h, table.as_ptr(), table.len(), result.as_mut_ptr(), result.len()) } {
        0 => Ok((result[0] == 1).then_some((result[1], result[2]))),
        refusal => Err(refusal),
    }
}

// The reply's kind and numbers; the area in force is altered as the line says.
pub fn handle_line(area: &mut Option<Area>, line: &[u8]) -> Result<[i64; 4], u32> {
    let Area { w, h, ox, oy } = area.unwrap_or(Area { w: 0, h: 0, ox: 0, oy: 0 });
    let mut now = [0; 8];
    let refusal = unsafe { raw::uvalinda_handle_line(w, h, ox, oy, line.as_ptr(), line.len(), now.as_mut_ptr(), now.len()) };
    let [w, h, ox, oy, reply @ ..] = now;
    *area = (w != 0).then_some(Area { w: w as u32, h: h as u32, ox: ox as i32, oy: oy as i32 });
    match refusal {
        0 => Ok(reply),
        refusal => Err(refusal),
    }
}
