"""An area, and the calls on it."""

import array
import dataclasses
import enum
import operator
import sys
from ctypes import addressof, alignment, c_char, c_int32, c_uint32, c_uint64, sizeof
from typing import NamedTuple

from . import raw, refusal


class Square(NamedTuple):
    """A square of the site grid."""

    x: int
    y: int


class Cell(NamedTuple):
    """The square of a number, and how many blocks of the division hold it."""

    x: int
    y: int
    blocks: int


class Number(NamedTuple):
    """The number of a square, and how many blocks of the division hold it."""

    number: int
    blocks: int


class Window(NamedTuple):
    """The squares with x from x0 to x1 and y from y0 to y1, ends included."""

    x0: int
    y0: int
    x1: int
    y1: int


class Kind(enum.IntEnum):
    """Which of its area's two tables a card holds: the one that `fill_by_number` fills, or the one that `fill_by_square` does."""

    BY_NUMBER = 1
    BY_SQUARE = 2


@dataclasses.dataclass(frozen=True)
class Right:
    """Every place of a table holds what it should."""


@dataclasses.dataclass(frozen=True)
class Wrong:
    """The first place of a table that does not hold what it should, and the value due there. It is false, as `Right` is true."""

    place: int
    due: int

    def __bool__(self):
        return False


def whole_number(value):
    """A whole number of any size, as Python has it. A float, a text, True and False are none: what they would stand for is a guess."""
    if isinstance(value, bool):
        raise TypeError("a truth value is not a number")
    return operator.index(value)


# The library's numbers have 32 bits, and ctypes would cut off what is beyond. What does not fit becomes one that is refused wherever it stands: no area is as
# wide, has that number, lies or reaches that far.
def narrowed(number):
    return number if 0 <= number < 2**32 else 2**32 - 1


def narrowed_signed(number):
    return max(-(2**31), min(number, 2**31 - 1))


# Two corners: those that are crossed stay so where both are too far off.
def _narrowed_span(start, end):
    return (1, 0) if start > end else (narrowed_signed(start), narrowed_signed(end))


class _Lendable(NamedTuple):
    """What the library is lent: its name, which buffers it can be, what a place of it is in C, and how a buffer says that its places are such ones."""

    name: str
    buffers: str
    place: type
    formats: tuple


# The numbers of a table are below 2 to the 24th, so that a signed place holds them too.
_TABLE = _Lendable("table", "a buffer of 32-bit whole numbers", c_uint32, ("I", "i", "L", "l"))
_FILE = _Lendable("file", "a buffer of bytes", c_char, ("B", "b", "c"))


# A table or a file as the library is lent it. One that cannot be written is copied, if it is only to be read.
def _lent(buffer, what, to_write):
    view = memoryview(buffer)
    native = "@=<" if sys.byteorder == "little" else "@=>"
    if view.itemsize != sizeof(what.place) or view.format.lstrip(native) not in what.formats:
        raise TypeError(f"a {what.name} is {what.buffers}")
    if not view.c_contiguous:
        raise TypeError(f"the places of a {what.name} stand one behind the other")
    if to_write and view.readonly:
        raise TypeError(f"the {what.name} cannot be written")
    places = what.place * (view.nbytes // sizeof(what.place))
    lent = places.from_buffer_copy(view) if view.readonly else places.from_buffer(view)
    if len(lent) > 0 and addressof(lent) % alignment(what.place) != 0:
        raise TypeError(f"the {what.name} starts where no 32-bit number can stand")
    return lent


# A table and a file for one call, one of them to be written. C asks that it overlaps nothing else.
def _lent_both(table, file, write_file):
    table, file = _lent(table, _TABLE, not write_file), _lent(file, _FILE, write_file)
    if addressof(table) < addressof(file) + sizeof(file) and addressof(file) < addressof(table) + sizeof(table):
        raise TypeError("the table and the file overlap")
    return table, file


@dataclasses.dataclass(frozen=True)
class Area:
    """An area, w squares wide and h high, on the site grid: its squares are those from its origin (ox, oy) to (ox + w - 1, oy + h - 1).

    Any whole numbers can stand here: every call refuses an area that is not accepted, and every call that asks or answers squares an origin beyond its range.
    Fills, checks and cards do not depend on the origin. A refusal is raised, by its name.
    """

    w: int
    h: int
    origin: Square = Square(0, 0)
    # As the library is given it: w, h, ox and oy.
    _grid: tuple = dataclasses.field(init=False, repr=False)

    def __post_init__(self):
        w, h, (ox, oy) = whole_number(self.w), whole_number(self.h), map(whole_number, self.origin)
        grid = narrowed(w), narrowed(h), narrowed_signed(ox), narrowed_signed(oy)
        for name, value in (("w", w), ("h", h), ("origin", Square(ox, oy)), ("_grid", grid)):
            object.__setattr__(self, name, value)

    def at(self, ox, oy):
        """The same area with this origin, whatever it had before."""
        return dataclasses.replace(self, origin=(ox, oy))

    def number_to_square(self, number):
        """The square of a number, a `Cell`. Refused: `AreaLimit`, `TooManySquares`, `OriginLimit`, then `NumberOutside`."""
        found = (c_int32 * 3)()
        refusal.unless_refused(raw.number_to_square(*self._grid, narrowed(whole_number(number)), found, len(found)))
        return Cell(*found)

    def square_to_number(self, x, y):
        """The number of a square, a `Number`. Refused: `AreaLimit`, `TooManySquares`, `OriginLimit`, then `SquareOutside`."""
        found = (c_uint32 * 2)()
        square = narrowed_signed(whole_number(x)), narrowed_signed(whole_number(y))
        refusal.unless_refused(raw.square_to_number(*self._grid, *square, found, len(found)))
        return Number(*found)

    def finish_square(self):
        """The finish square, where a crew stands at the end: the square of number w·h - 1. Refused: `AreaLimit`, `TooManySquares`, then `OriginLimit`."""
        found = (c_int32 * 2)()
        refusal.unless_refused(raw.finish_square(*self._grid, found, len(found)))
        return Square(*found)

    def runs_for_window(self, window):
        """The numbers of a window's squares as runs: a list of `range`, ascending, no two touching or overlapping. A window is a `Window`, or x0, y0, x1, y1.

        Refused: `AreaLimit`, `TooManySquares`, `OriginLimit`, `CornersCrossed`, then `SquareOutside` for a corner outside the area.
        """
        x0, y0, x1, y1 = map(whole_number, window)
        (x0, x1), (y0, y1) = _narrowed_span(x0, x1), _narrowed_span(y0, y1)
        count = (c_uint32 * 1)()
        # Lent no room, the call refuses and tells how many runs there are: none, where it refuses whatever room there is.
        raw.runs_for_window(*self._grid, x0, y0, x1, y1, None, 0, count, len(count))
        runs = (c_uint32 * (2 * count[0]))()
        refusal.unless_refused(raw.runs_for_window(*self._grid, x0, y0, x1, y1, runs, len(runs), count, len(count)))
        return [range(first, last + 1) for first, last in zip(runs[::2], runs[1::2])]

    def _fill(self, call, table):
        lent = _lent(table, _TABLE, True)
        blocks = (c_uint64 * 1)()
        told = call(*self._grid[:2], lent, len(lent), blocks, len(blocks))
        del lent  # A refusal that is kept would keep the table lent.
        refusal.unless_refused(told)
        return blocks[0]

    def fill_by_number(self, table):
        """Place i gets y·w + x of square number i, whose x and y count from the origin here. Says how many blocks the division has.

        A table is any buffer of 32-bit whole numbers. Refused, with the table as it was: `AreaLimit`, `TooManySquares`, then `TableLength`.
        """
        return self._fill(raw.fill_by_number, table)

    def fill_by_square(self, table):
        """Place y·w + x gets the square's number; otherwise as `fill_by_number`."""
        return self._fill(raw.fill_by_square, table)

    def _check(self, call, table):
        lent = _lent(table, _TABLE, False)
        judged = (c_uint32 * 3)()
        told = call(*self._grid[:2], lent, len(lent), judged, len(judged))
        del lent
        refusal.unless_refused(told)
        wrong, place, due = judged
        return Wrong(place, due) if wrong else Right()

    def check_by_number(self, table):
        """Whether a table holds what `fill_by_number` writes: `Right`, or `Wrong` with the first wrong place and the value due there.

        Refused: `AreaLimit`, `TooManySquares`, then `TableLength`.
        """
        return self._check(raw.check_by_number, table)

    def check_by_square(self, table):
        """Whether a table holds what `fill_by_square` writes; otherwise as `check_by_number`."""
        return self._check(raw.check_by_square, table)

    def card_length(self):
        """How many bytes a card of the area has. Refused: `AreaLimit`, then `TooManySquares`."""
        length = (c_uint64 * 1)()
        refusal.unless_refused(raw.card_length(*self._grid[:2], length, len(length)))
        return length[0]

    def write_card(self, kind, table, file=None):
        """The card of a right table of this kind, as bytes; or, where a file is lent, written to it: any buffer of `card_length` bytes.

        A card is made of blocks of 512 bytes, which are not those of the division. A block is 128 words of 32 bits, each with its lowest byte first: 126 of
        content, one that counts those in use, and a check, which is 1 plus the sum of the other 127, modulo 2 to the 32nd. Words that are not in use are 0.
        Block 0 uses four: the version, which is 1, then w, h and the kind. The table stands from block 1 on. The origin is not on a card.

        Refused, with the file as it was: `AreaLimit`, `TooManySquares`, `TableLength` for the table or the file, then `Departure` for a wrong table or for a
        kind that is no `Kind`.
        """
        if file is None:
            file = bytearray(self.card_length())
            self.write_card(kind, table, file)
            return bytes(file)
        kind = narrowed(whole_number(kind))
        table, file = _lent_both(table, file, True)
        told = raw.write_card(*self._grid[:2], kind, table, len(table), file, len(file))
        del table, file
        refusal.unless_refused(told)

    def read_card(self, kind, file, table=None):
        """The table of a card, a new `array.array("I")`; or, where a table is lent, read into that. A file is any buffer of bytes.

        The one file that is taken is what `write_card` writes for this area and this kind. Refused, with the table as it was: `AreaLimit`, `TooManySquares`,
        `TableLength` for the table, `BadCheck` with the first whole `block` whose check is bad, then `Departure` for every other file that is not the card,
        as one of another length, and for a kind that is no `Kind`.
        """
        if table is None:
            self.card_length()  # An area that is refused has no table.
            table = array.array("I", [0]) * (self.w * self.h)
            self.read_card(kind, file, table)
            return table
        kind = narrowed(whole_number(kind))
        table, file = _lent_both(table, file, False)
        block = (c_uint64 * 1)()
        told = raw.read_card(*self._grid[:2], kind, file, len(file), table, len(table), block, len(block))
        del table, file
        refusal.unless_refused(told, block[0])
