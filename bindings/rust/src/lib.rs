//! Numbers the squares of a rectangle along the Gilbert curve.
//!
//! The library underneath is proved: for any numbers, tables and lines there is an answer, and it is the one that its documents define. These
//! bindings add no decision of their own; they hand slices over with their lengths and give each refusal its name. They need neither `std` nor an
//! allocator.
//!
//! ```
//! use uvalinda::{Area, Cell, Refusal};
//!
//! let area = Area::new(3, 4);
//! assert_eq!(area.number_to_square(8), Ok(Cell { x: 2, y: 1, blocks: 3 }));
//! assert_eq!(area.number_to_square(12), Err(Refusal::NumberOutside));
//! assert_eq!(area.at(-5, 7).number_to_square(8), Ok(Cell { x: -3, y: 8, blocks: 3 }));
//! ```
#![no_std]
#![warn(missing_docs)]

// The page's Rust example runs as a test too.
#[cfg(doctest)]
#[doc = include_str!("../../../README.md")]
struct Readme;

mod card;
mod clerk;
mod raw;
mod refusal;
mod squares;

pub use card::Kind;
pub use clerk::{Clerk, Reply};
pub use refusal::Refusal;
pub use squares::Squares;

/// An area, `w` squares wide and `h` high, on the site grid: its squares are those from (`ox`, `oy`), its origin, to (ox + w - 1, oy + h - 1). It has at
/// most 16,777,216 squares, so that a number takes 24 bits at most. Any numbers can stand here: every call refuses an area that is not accepted, for a side and
/// then for too many squares, and every call that asks or answers squares an origin beyond its range. Fills, checks and cards do not depend on the origin.
///
/// ```
/// # use uvalinda::{Area, Refusal, Square};
/// assert_eq!(Area::new(3, 4), Area { w: 3, h: 4, ox: 0, oy: 0 });
/// assert_eq!(Area::new(3, 4).at(-5, 7), Area { w: 3, h: 4, ox: -5, oy: 7 });
/// assert_eq!(Area::new(4096, 4096).finish_square(), Ok(Square { x: 4095, y: 0 }));
/// assert_eq!(Area::new(4096, 4097).finish_square(), Err(Refusal::TooManySquares));
/// ```
#[derive(Clone, Copy, Debug, PartialEq, Eq, Hash)]
pub struct Area {
    /// The width, from 1 to 65,535.
    pub w: u32,
    /// The height, from 1 to 65,535.
    pub h: u32,
    /// The least x of its squares, from -1,000,000 to 1,000,000.
    pub ox: i32,
    /// The least y of its squares, from -1,000,000 to 1,000,000.
    pub oy: i32,
}

/// A square of the site grid.
#[derive(Clone, Copy, Debug, PartialEq, Eq, PartialOrd, Ord, Hash)]
pub struct Square {
    /// From ox to ox + w - 1.
    pub x: i32,
    /// From oy to oy + h - 1.
    pub y: i32,
}

/// The square of a number.
#[derive(Clone, Copy, Debug, PartialEq, Eq, Hash)]
pub struct Cell {
    /// From ox to ox + w - 1.
    pub x: i32,
    /// From oy to oy + h - 1.
    pub y: i32,
    /// How many blocks of the division hold the square, at most 41.
    pub blocks: u32,
}

/// The number of a square.
#[derive(Clone, Copy, Debug, PartialEq, Eq, Hash)]
pub struct Number {
    /// From 0 to w·h - 1, at most 16,777,215.
    pub number: u32,
    /// How many blocks of the division hold the square, at most 41.
    pub blocks: u32,
}

/// The squares with x from `x0` to `x1` and y from `y0` to `y1`, ends included.
#[derive(Clone, Copy, Debug, PartialEq, Eq, Hash)]
pub struct Window {
    /// The least x.
    pub x0: i32,
    /// The least y.
    pub y0: i32,
    /// The greatest x.
    pub x1: i32,
    /// The greatest y.
    pub y1: i32,
}

/// What a check found.
#[must_use]
#[derive(Clone, Copy, Debug, PartialEq, Eq, Hash)]
pub enum Check {
    /// Every place holds what it should.
    Right,
    /// The first place that does not, and the value due there.
    Wrong {
        /// The first wrong place.
        place: u32,
        /// The value due there.
        due: u32,
    },
}

impl Area {
    /// An area whose origin is (0, 0).
    pub const fn new(w: u32, h: u32) -> Area {
        Area { w, h, ox: 0, oy: 0 }
    }

    /// The same area with this origin, whatever it had before.
    #[must_use]
    pub const fn at(self, ox: i32, oy: i32) -> Area {
        Area { ox, oy, ..self }
    }

    /// The square of a number. Refused: [`Refusal::AreaLimit`], [`Refusal::TooManySquares`], [`Refusal::OriginLimit`], then [`Refusal::NumberOutside`].
    ///
    /// ```
    /// # use uvalinda::{Area, Cell, Refusal};
    /// assert_eq!(Area::new(7, 4).number_to_square(16), Ok(Cell { x: 4, y: 0, blocks: 3 }));
    /// assert_eq!(Area::new(7, 4).at(-9, 2).number_to_square(16), Ok(Cell { x: -5, y: 2, blocks: 3 }));
    /// assert_eq!(Area::new(0, 5).number_to_square(0), Err(Refusal::AreaLimit));
    /// assert_eq!(Area::new(4096, 4097).number_to_square(0), Err(Refusal::TooManySquares));
    /// assert_eq!(Area::new(7, 4).at(0, 1_000_001).number_to_square(16), Err(Refusal::OriginLimit));
    /// ```
    pub fn number_to_square(self, number: u32) -> Result<Cell, Refusal> {
        let mut found = [0; 3];
        // SAFETY: the array is passed with its own length.
        let returned = unsafe { raw::uvalinda_number_to_square(self.w, self.h, self.ox, self.oy, number, found.as_mut_ptr(), found.len()) };
        refusal::unless_refused(returned, found, |[x, y, blocks]| Cell { x, y, blocks: blocks as u32 })
    }

    /// The number of a square. Refused: [`Refusal::AreaLimit`], [`Refusal::TooManySquares`], [`Refusal::OriginLimit`], then [`Refusal::SquareOutside`].
    ///
    /// ```
    /// # use uvalinda::{Area, Number, Refusal};
    /// assert_eq!(Area::new(4, 3).square_to_number(2, 1), Ok(Number { number: 9, blocks: 3 }));
    /// assert_eq!(Area::new(4, 3).square_to_number(0, 3), Err(Refusal::SquareOutside));
    /// assert_eq!(Area::new(4, 3).at(-2, 0).square_to_number(0, 1), Ok(Number { number: 9, blocks: 3 }));
    /// ```
    pub fn square_to_number(self, x: i32, y: i32) -> Result<Number, Refusal> {
        let mut found = [0; 2];
        // SAFETY: the array is passed with its own length.
        let returned = unsafe { raw::uvalinda_square_to_number(self.w, self.h, self.ox, self.oy, x, y, found.as_mut_ptr(), found.len()) };
        refusal::unless_refused(returned, found, |[number, blocks]| Number { number, blocks })
    }

    /// The finish square, where a crew stands at the end: the square of number w·h - 1. From the origin it lies (w - 1, 0) off, except for width 1 with height
    /// above 1, where that is (0, h - 1), and for odd width of 3 or more with height 2, where it is (w - 2, 0). Refused: [`Refusal::AreaLimit`],
    /// [`Refusal::TooManySquares`], then [`Refusal::OriginLimit`].
    ///
    /// ```
    /// # use uvalinda::{Area, Square};
    /// assert_eq!(Area::new(3, 4).finish_square(), Ok(Square { x: 2, y: 0 }));
    /// assert_eq!(Area::new(1, 7).finish_square(), Ok(Square { x: 0, y: 6 }));
    /// assert_eq!(Area::new(5, 2).finish_square(), Ok(Square { x: 3, y: 0 }));
    /// assert_eq!(Area::new(5, 2).at(-3, 8).finish_square(), Ok(Square { x: 0, y: 8 }));
    /// ```
    pub fn finish_square(self) -> Result<Square, Refusal> {
        let mut found = [0; 2];
        // SAFETY: the array is passed with its own length.
        let returned = unsafe { raw::uvalinda_finish_square(self.w, self.h, self.ox, self.oy, found.as_mut_ptr(), found.len()) };
        refusal::unless_refused(returned, found, |[x, y]| Square { x, y })
    }

    /// Place i gets y·w + x of square number i, whose x and y count from the area's own corner here. Says how many blocks the division has, at most 33,554,431.
    /// Refused, with the table as it was: [`Refusal::AreaLimit`], [`Refusal::TooManySquares`], then [`Refusal::TableLength`] for a table that has not exactly
    /// w·h places.
    ///
    /// ```
    /// # use uvalinda::{Area, Refusal};
    /// let mut table = [7; 4];
    /// assert_eq!(Area::new(2, 3).fill_by_number(&mut table), Err(Refusal::TableLength));
    /// assert_eq!(table, [7; 4]);
    /// assert_eq!(Area::new(2, 2).fill_by_number(&mut table), Ok(4));
    /// assert_eq!(table, [0, 2, 3, 1]);
    /// ```
    pub fn fill_by_number(self, table: &mut [u32]) -> Result<u64, Refusal> {
        let mut blocks = [0];
        // SAFETY: the slice and the array are passed with their own lengths.
        let returned = unsafe { raw::uvalinda_fill_by_number(self.w, self.h, table.as_mut_ptr(), table.len(), blocks.as_mut_ptr(), blocks.len()) };
        refusal::unless_refused(returned, blocks, |[blocks]| blocks)
    }

    /// Place y·w + x gets the square's number; x and y count from the area's own corner here. Says how many blocks the division has, at most 33,554,431.
    /// Refused, with the table as it was: [`Refusal::AreaLimit`], [`Refusal::TooManySquares`], then [`Refusal::TableLength`] for a table that has not exactly
    /// w·h places.
    ///
    /// ```
    /// # use uvalinda::Area;
    /// let mut table = [0; 4];
    /// assert_eq!(Area::new(2, 2).fill_by_square(&mut table), Ok(4));
    /// assert_eq!(table, [0, 3, 1, 2]);
    /// ```
    pub fn fill_by_square(self, table: &mut [u32]) -> Result<u64, Refusal> {
        let mut blocks = [0];
        // SAFETY: the slice and the array are passed with their own lengths.
        let returned = unsafe { raw::uvalinda_fill_by_square(self.w, self.h, table.as_mut_ptr(), table.len(), blocks.as_mut_ptr(), blocks.len()) };
        refusal::unless_refused(returned, blocks, |[blocks]| blocks)
    }

    /// Whether a table holds what [`Area::fill_by_number`] writes. Refused: [`Refusal::AreaLimit`], [`Refusal::TooManySquares`], then [`Refusal::TableLength`].
    ///
    /// ```
    /// # use uvalinda::{Area, Check};
    /// assert_eq!(Area::new(2, 2).check_by_number(&[0, 2, 3, 1]), Ok(Check::Right));
    /// assert_eq!(Area::new(2, 2).check_by_number(&[0, 2, 9, 9]), Ok(Check::Wrong { place: 2, due: 3 }));
    /// ```
    pub fn check_by_number(self, table: &[u32]) -> Result<Check, Refusal> {
        let mut judged = [0; 3];
        // SAFETY: the slice and the array are passed with their own lengths.
        let returned = unsafe { raw::uvalinda_check_by_number(self.w, self.h, table.as_ptr(), table.len(), judged.as_mut_ptr(), judged.len()) };
        refusal::unless_refused(returned, judged, Check::found)
    }

    /// Whether a table holds what [`Area::fill_by_square`] writes. Refused: [`Refusal::AreaLimit`], [`Refusal::TooManySquares`], then [`Refusal::TableLength`].
    ///
    /// ```
    /// # use uvalinda::{Area, Check, Refusal};
    /// assert_eq!(Area::new(2, 2).check_by_square(&[0, 3, 1, 2]), Ok(Check::Right));
    /// assert_eq!(Area::new(2, 2).check_by_square(&[]), Err(Refusal::TableLength));
    /// ```
    pub fn check_by_square(self, table: &[u32]) -> Result<Check, Refusal> {
        let mut judged = [0; 3];
        // SAFETY: the slice and the array are passed with their own lengths.
        let returned = unsafe { raw::uvalinda_check_by_square(self.w, self.h, table.as_ptr(), table.len(), judged.as_mut_ptr(), judged.len()) };
        refusal::unless_refused(returned, judged, Check::found)
    }

    // One call for a window: how many runs it has.
    fn ask_window(self, window: Window, room: &mut [u32]) -> Result<u32, Refusal> {
        let (Area { w, h, ox, oy }, Window { x0, y0, x1, y1 }) = (self, window);
        let mut count = [0];
        // SAFETY: the slice and the array are passed with their own lengths.
        let returned = unsafe {
            raw::uvalinda_runs_for_window(w, h, ox, oy, x0, y0, x1, y1, room.as_mut_ptr(), room.len(), count.as_mut_ptr(), count.len())
        };
        refusal::unless_refused(returned, count, |[count]| count)
    }

    /// How many runs of numbers a window has: how many pairs of room [`Area::runs_for_window`] takes. Refused: [`Refusal::AreaLimit`],
    /// [`Refusal::TooManySquares`], [`Refusal::OriginLimit`], [`Refusal::CornersCrossed`], then [`Refusal::SquareOutside`] for a corner outside the area.
    pub fn count_runs(self, window: Window) -> Result<u32, Refusal> {
        match self.ask_window(window, &mut []) {
            // A window has a run at least, so that no room is never enough: the refusal tells how many there are, a count of 32 bits.
            Err(Refusal::NoRoom { count }) => Ok(count as u32),
            answer => answer,
        }
    }

    /// The numbers of a window's squares as runs, each a pair of its first and its last number: ascending, no two touching or overlapping. They are written
    /// to the front of `room`, and the rest of it stays as it was. Refused, with `room` as it was: as [`Area::count_runs`], then [`Refusal::NoRoom`], with how
    /// many runs there are, if they are more than the pairs of room.
    ///
    /// ```
    /// # use uvalinda::{Area, Refusal, Window};
    /// let area = Area::new(3, 4);
    /// let window = Window { x0: 0, y0: 0, x1: 1, y1: 1 };
    /// assert_eq!(area.count_runs(window), Ok(2));
    /// let mut room = vec![[0; 2]; 2];
    /// assert_eq!(area.runs_for_window(window, &mut room), Ok(&[[0, 1], [9, 10]][..]));
    /// assert_eq!(area.runs_for_window(window, &mut room[..1]), Err(Refusal::NoRoom { count: 2 }));
    /// assert_eq!(area.count_runs(Window { x0: 1, y0: 0, x1: 0, y1: 0 }), Err(Refusal::CornersCrossed));
    /// assert_eq!(area.at(-1, -1).runs_for_window(Window { x0: -1, y0: -1, x1: 0, y1: 0 }, &mut room), Ok(&[[0, 1], [9, 10]][..]));
    /// ```
    pub fn runs_for_window(self, window: Window, room: &mut [[u32; 2]]) -> Result<&[[u32; 2]], Refusal> {
        let count = self.ask_window(window, room.as_flattened_mut())?;
        Ok(&room[..count as usize])
    }

    /// The area's squares in the order of their numbers. Refused: [`Refusal::AreaLimit`], [`Refusal::TooManySquares`], then [`Refusal::OriginLimit`].
    ///
    /// ```
    /// # use uvalinda::{Area, Square};
    /// let mut squares = Area::new(2, 2).squares().unwrap();
    /// assert_eq!(squares.len(), 4);
    /// assert_eq!(squares.nth(1), Some(Square { x: 0, y: 1 }));
    /// assert_eq!(squares.next_back(), Some(Square { x: 1, y: 0 }));
    /// assert_eq!(Area::new(2, 2).at(-1, -1).squares().unwrap().next(), Some(Square { x: -1, y: -1 }));
    /// ```
    pub fn squares(self) -> Result<Squares, Refusal> {
        Squares::of(self)
    }
}

impl Check {
    // The library's three values: 0 where the table is right, else 1, the place and the value due.
    fn found(judged: [u32; 3]) -> Check {
        match judged {
            [0, _, _] => Check::Right,
            [_, place, due] => Check::Wrong { place, due },
        }
    }
}
