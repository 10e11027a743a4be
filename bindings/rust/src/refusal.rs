//! The refusals by name and number.

// Made of one list of them: number, name, when it is given, and what it says of itself. A refusal that tells something besides its number has a name for
// that value too, with what it is, and has it in what it says.
macro_rules! refusals {
    ($($number:literal $name:ident $({ $value:ident: u64, $told:literal })?: $when:literal, $says:literal;)*) => {
        /// Why a call or a line is refused. `u32::from` gives its number, which for a line is the one that `orders` prints.
        #[derive(Clone, Copy, Debug, PartialEq, Eq, Hash)]
        #[non_exhaustive]
        #[repr(u32)]
        pub enum Refusal {
            $(#[doc = $when] $name $({ #[doc = $told] $value: u64 })? = $number,)*
        }

        impl From<Refusal> for u32 {
            fn from(refusal: Refusal) -> u32 {
                match refusal {
                    $(Refusal::$name { .. } => $number,)*
                }
            }
        }

        impl core::fmt::Display for Refusal {
            fn fmt(&self, f: &mut core::fmt::Formatter<'_>) -> core::fmt::Result {
                match self {
                    $(Refusal::$name { $($value)? } => write!(f, $says),)*
                }
            }
        }

        // What `answer` makes of the values that a call wrote, unless it returned a refusal's number. What a refusal tells is the first of the values.
        pub(crate) fn unless_refused<V, const N: usize, T>(returned: u32, values: [V; N], answer: impl FnOnce([V; N]) -> T) -> Result<T, Refusal>
        where
            V: Copy + Into<i128>,
        {
            match returned {
                0 => Ok(answer(values)),
                $($number => Err(Refusal::$name { $($value: Into::<i128>::into(values[0]) as u64)? }),)*
                // No result slice of these bindings is too short, and the library's promise has no other number.
                _ => unreachable!("the library returned {returned}"),
            }
        }
    };
}

refusals! {
    1 AreaLimit: "w or h is 0 or over 65,535.", "the width or the height is 0 or over 65,535";
    2 SquareOutside: "x - ox or y - oy is negative, x - ox >= w or y - oy >= h, of a square or of a window's corner.", "the square is outside the area";
    3 NumberOutside: "number >= w·h.", "the area has no such number";
    4 TableLength: "The table has not exactly w·h places, or the file to be written not exactly as many bytes as its card.",
        "the table has not as many places as the area has squares, or the file to be written not as many bytes as its card";
    5 NotANumber: "A field of a line is not a number.", "a field of the line is not a number";
    6 WrongShape: "A line has the wrong shape.", "the line has the wrong shape";
    7 NoArea: "An N, S or ORIGIN line with no area in force.", "no area is in force";
    8 LongLine: "A line has over 64 bytes.", "the line has over 64 bytes";
    9 TooDeep: "Over 64 blocks of the division hold a square. It is proved that this never arises.", "over 64 blocks of the division hold the square";
    10 CornersCrossed: "x0 > x1 or y0 > y1.", "the window's corners are crossed";
    11 NoRoom { count: u64, "How many runs there are." }: "There are more runs than whole pairs of room.",
        "there are {count} runs, more than there is room for";
    12 OriginLimit: "ox or oy is beyond 1,000,000 either way.", "the origin is beyond 1,000,000 either way";
    13 TooManySquares: "The area has more than 16,777,216 squares.", "the area has more than 16,777,216 squares";
    14 BadCheck { block: u64, "The first whole block whose check is bad, counted from 0." }: "The check of a block of the file is bad.",
        "the check of block {block} is bad";
    15 Departure: "The file is otherwise not the card of this area and kind, or the table to be written is wrong.",
        "the file is not the card of this area and kind, or the table not the right one";
}

impl core::error::Error for Refusal {}

#[cfg(test)]
mod tests;
