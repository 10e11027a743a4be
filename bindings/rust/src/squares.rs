//! The squares of an area in the order of their numbers.
use crate::{Area, Refusal, Square};
use core::iter::FusedIterator;
use core::ops::Range;

/// An iterator over the squares of an area in the order of their numbers, made by [`Area::squares`]. Each square is one lookup, so that skipping
/// with `nth` or going backwards costs no more than going on.
#[must_use = "an iterator does nothing unless it is asked"]
#[derive(Clone, Debug)]
pub struct Squares {
    area: Area,
    numbers: Range<u32>,
}

impl Squares {
    pub(crate) fn of(area: Area) -> Result<Squares, Refusal> {
        // An area that has a finish square is accepted, and its squares can be counted in 32 bits.
        area.finish_square()?;
        Ok(Squares { area, numbers: 0..area.w * area.h })
    }

    fn square(&self, number: u32) -> Square {
        let cell = self.area.number_to_square(number).expect("every number of an accepted area has its square");
        Square { x: cell.x, y: cell.y }
    }
}

impl Iterator for Squares {
    type Item = Square;

    fn next(&mut self) -> Option<Square> {
        self.numbers.next().map(|number| self.square(number))
    }

    fn nth(&mut self, n: usize) -> Option<Square> {
        self.numbers.nth(n).map(|number| self.square(number))
    }

    fn count(self) -> usize {
        self.len()
    }

    fn last(mut self) -> Option<Square> {
        self.next_back()
    }

    fn size_hint(&self) -> (usize, Option<usize>) {
        self.numbers.size_hint()
    }
}

impl DoubleEndedIterator for Squares {
    fn next_back(&mut self) -> Option<Square> {
        self.numbers.next_back().map(|number| self.square(number))
    }

    fn nth_back(&mut self, n: usize) -> Option<Square> {
        self.numbers.nth_back(n).map(|number| self.square(number))
    }
}

impl ExactSizeIterator for Squares {}
impl FusedIterator for Squares {}
