// The calls of a library from before areas had an origin, for a comparison with it: they are asked as `library.rs` is, at the origin 0 0.
use super::raw;
use crate::common::Area;

// The origin of the areas that are timed.
pub const ORIGIN: (i32, i32) = (0, 0);

// SAFETY, here and below: each slice is passed with its own length, and no two of them overlap.
pub fn number_to_square(w: u32, h: u32, _: i32, _: i32, number: u32) -> Result<(i32, i32, u32), u32> {
    let mut result = [0; 3];
    match unsafe { raw::uvalinda_number_to_square(w, h, number, result.as_mut_ptr(), result.len()) } {
        0 => Ok((result[0] as i32, result[1] as i32, result[2])),
        refusal => Err(refusal),
    }
}

pub fn square_to_number(w: u32, h: u32, _: i32, _: i32, x: i32, y: i32) -> Result<(u32, u32), u32> {
    let mut result = [0; 2];
    match unsafe { raw::uvalinda_square_to_number(w, h, x as u32, y as u32, result.as_mut_ptr(), result.len()) } {
        0 => Ok((result[0], result[1])),
        refusal => Err(refusal),
    }
}

pub fn finish_square(w: u32, h: u32, _: i32, _: i32) -> Result<(i32, i32), u32> {
    let mut result = [0; 2];
    match unsafe { raw::uvalinda_finish_square(w, h, result.as_mut_ptr(), result.len()) } {
        0 => Ok((result[0] as i32, result[1] as i32)),
        refusal => Err(refusal),
    }
}

pub fn fill(w: u32, h: u32, table: &mut [u32], by_square: bool) -> Result<u64, u32> {
    let call = if by_square { raw::uvalinda_fill_by_square } else { raw::uvalinda_fill_by_number };
    let mut blocks = [0];
    match unsafe { call(w, h, table.as_mut_ptr(), table.len(), blocks.as_mut_ptr(), blocks.len()) } {
        0 => Ok(blocks[0]),
        refusal => Err(refusal),
    }
}

pub fn check(w: u32, h: u32, table: &[u32], by_square: bool) -> Result<Option<(u32, u32)>, u32> {
    let call = if by_square { raw::uvalinda_check_by_square } else { raw::uvalinda_check_by_number };
    let mut result = [0; 3];
    match unsafe { call(w, h, table.as_ptr(), table.len(), result.as_mut_ptr(), result.len()) } {
        0 => Ok((result[0] == 1).then_some((result[1], result[2]))),
        refusal => Err(refusal),
    }
}

pub fn handle_line(area: &mut Option<Area>, line: &[u8]) -> Result<[i64; 4], u32> {
    let (w, h) = area.map_or((0, 0), |area| (area.w, area.h));
    let mut now = [0; 6];
    let refusal = unsafe { raw::uvalinda_handle_line(w, h, line.as_ptr(), line.len(), now.as_mut_ptr(), now.len()) };
    let [w, h, reply @ ..] = now;
    *area = (w != 0).then_some(Area { w, h, ox: 0, oy: 0 });
    match refusal {
        0 => Ok(reply.map(i64::from)),
        refusal => Err(refusal),
    }
}
