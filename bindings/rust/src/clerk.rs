//! The order clerk: a line in, a reply out.
use crate::{raw, refusal, Area, Cell, Number, Refusal, Square};

/// What a line is answered, if it is not refused.
#[derive(Clone, Copy, Debug, PartialEq, Eq, Hash)]
pub enum Reply {
    /// An `AREA` line: the area now in force.
    Area {
        /// The area, whose origin is (0, 0).
        area: Area,
        /// How many squares it has.
        squares: u32,
        /// Its finish square.
        finish: Square,
    },
    /// An `ORIGIN` line: the origin that the area in force now has.
    Origin {
        /// The least x of its squares.
        ox: i32,
        /// The least y of its squares.
        oy: i32,
    },
    /// An `N` line: the square of the number.
    Cell(Cell),
    /// An `S` line: the number of the square.
    Number(Number),
}

/// The order clerk, who knows the area in force and its origin. There is none at the start.
///
/// ```
/// use uvalinda::{Area, Cell, Clerk, Refusal, Reply};
///
/// let mut clerk = Clerk::new();
/// assert_eq!(clerk.handle(b"N 8"), Err(Refusal::NoArea));
/// assert!(clerk.handle(b"AREA 3 4").is_ok());
/// assert_eq!(clerk.handle(b"N 8"), Ok(Reply::Cell(Cell { x: 2, y: 1, blocks: 3 })));
/// assert_eq!(clerk.handle(b"N 0000000008"), clerk.handle(b"N 8"));
/// assert_eq!(clerk.handle(b"N 08"), Err(Refusal::NotANumber));
/// assert_eq!(clerk.handle(b"N 3E4"), Err(Refusal::NotANumber));
/// assert_eq!(clerk.handle(b"ORIGIN -5 7"), Ok(Reply::Origin { ox: -5, oy: 7 }));
/// assert_eq!(clerk.handle(b"N 8"), Ok(Reply::Cell(Cell { x: -3, y: 8, blocks: 3 })));
/// assert_eq!(clerk.area(), Some(Area::new(3, 4).at(-5, 7)));
/// assert_eq!(clerk.handle(b"AREA 0 4"), Err(Refusal::AreaLimit));
/// assert_eq!(clerk.area(), None);
/// assert_eq!(clerk.handle(b"AREA 4096 4097"), Err(Refusal::TooManySquares));
/// ```
#[derive(Clone, Copy, Debug, PartialEq, Eq, Hash, Default)]
pub struct Clerk {
    area: Option<Area>,
}

impl Clerk {
    /// A clerk with no area in force.
    pub const fn new() -> Clerk {
        Clerk { area: None }
    }

    /// A clerk with this area in force, or with none where the area is not accepted, as one of too many squares is not, or its origin is beyond the range.
    ///
    /// ```
    /// # use uvalinda::{Area, Clerk};
    /// assert_eq!(Clerk::under(Area::new(3, 4).at(-5, 7)).area(), Some(Area::new(3, 4).at(-5, 7)));
    /// assert_eq!(Clerk::under(Area::new(3, 0)).area(), None);
    /// assert_eq!(Clerk::under(Area::new(4096, 4097)).area(), None);
    /// assert_eq!(Clerk::under(Area::new(3, 4).at(0, 1_000_001)).area(), None);
    /// ```
    pub fn under(area: Area) -> Clerk {
        // An area that has a finish square is one that can be in force.
        Clerk { area: area.finish_square().ok().map(|_| area) }
    }

    /// The area in force.
    pub fn area(&self) -> Option<Area> {
        self.area
    }

    /// Answers a line: `AREA w h`, `ORIGIN ox oy`, `N i` or `S x y`, any bytes, without the newline. An accepted `AREA` line sets the area in force, with the
    /// origin (0, 0), and an accepted `ORIGIN` line its origin; a refused line whose first bytes are `AREA` or `ORIGIN` leaves no area, and no other line
    /// alters it. A number is plain, as `30`, or padded with zeros to exactly ten digits, as `0000000030`; those of `ORIGIN` and `S` may carry a minus.
    pub fn handle(&mut self, line: &[u8]) -> Result<Reply, Refusal> {
        // As the library keeps it: 0 each for none.
        let Area { w, h, ox, oy } = self.area.unwrap_or(Area::new(0, 0));
        let mut now = [0; 8];
        // SAFETY: the slice and the array are passed with their own lengths.
        let returned = unsafe { raw::uvalinda_handle_line(w, h, ox, oy, line.as_ptr(), line.len(), now.as_mut_ptr(), now.len()) };
        // By the library's promise each value is one of the 32-bit type that it is taken for here.
        let [w, h, ox, oy, kind, values @ ..] = now;
        let area = Area { w: w as u32, h: h as u32, ox: ox as i32, oy: oy as i32 };
        self.area = (w != 0).then_some(area);
        refusal::unless_refused(returned, values, |[first, second, third]| match kind {
            1 => Reply::Area { area, squares: first as u32, finish: Square { x: second as i32, y: third as i32 } },
            2 => Reply::Cell(Cell { x: first as i32, y: second as i32, blocks: third as u32 }),
            3 => Reply::Number(Number { number: first as u32, blocks: second as u32 }),
            4 => Reply::Origin { ox: first as i32, oy: second as i32 },
            // The library's promise has no other kind.
            _ => unreachable!("the library answered with a reply of kind {kind}"),
        })
    }
}
