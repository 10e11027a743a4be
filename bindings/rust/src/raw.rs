//! The library's C functions, declared as `include/uvalinda.h` declares them: a slice is a pointer and a length.
//!
//! # Safety
//!
//! Each pointer has as many places as its length says (it may dangle where the length is 0), and what is written to overlaps nothing else that
//! the same call is lent. Nothing else is asked.

extern "C" {
    pub fn uvalinda_number_to_square(w: u32, h: u32, ox: i32, oy: i32, number: u32, result: *mut i32, result_length: usize) -> u32;
    pub fn uvalinda_square_to_number(w: u32, h: u32, ox: i32, oy: i32, x: i32, y: i32, result: *mut u32, result_length: usize) -> u32;
    pub fn uvalinda_finish_square(w: u32, h: u32, ox: i32, oy: i32, result: *mut i32, result_length: usize) -> u32;
    pub fn uvalinda_fill_by_number(w: u32, h: u32, table: *mut u32, table_length: usize, blocks: *mut u64, blocks_length: usize) -> u32;
    pub fn uvalinda_fill_by_square(w: u32, h: u32, table: *mut u32, table_length: usize, blocks: *mut u64, blocks_length: usize) -> u32;
    pub fn uvalinda_check_by_number(w: u32, h: u32, table: *const u32, table_length: usize, result: *mut u32, result_length: usize) -> u32;
    pub fn uvalinda_check_by_square(w: u32, h: u32, table: *const u32, table_length: usize, result: *mut u32, result_length: usize) -> u32;
    pub fn uvalinda_card_length(w: u32, h: u32, bytes: *mut u64, bytes_length: usize) -> u32;
    pub fn uvalinda_write_card(w: u32, h: u32, kind: u32, table: *const u32, table_length: usize, file: *mut u8, file_length: usize) -> u32;
    pub fn uvalinda_read_card(
        w: u32,
        h: u32,
        kind: u32,
        file: *const u8,
        file_length: usize,
        table: *mut u32,
        table_length: usize,
        block: *mut u64,
        block_length: usize,
    ) -> u32;
    pub fn uvalinda_runs_for_window(
        w: u32,
        h: u32,
        ox: i32,
        oy: i32,
        x0: i32,
        y0: i32,
        x1: i32,
        y1: i32,
        runs: *mut u32,
        runs_length: usize,
        result: *mut u32,
        result_length: usize,
    ) -> u32;
    pub fn uvalinda_handle_line(
        w: u32,
        h: u32,
        ox: i32,
        oy: i32,
        line: *const u8,
        line_length: usize,
        result: *mut i64,
        result_length: usize,
    ) -> u32;
}
