"""The order clerk: a line in, a reply out; and a single field of a line."""

from ctypes import c_int64
from typing import NamedTuple

from . import raw, refusal
from .area import Area, Cell, Number, Square


class AreaReply(NamedTuple):
    """The reply to an AREA line: the area now in force, how many squares it has, and its finish square."""

    area: Area
    squares: int
    finish: Square


class OriginReply(NamedTuple):
    """The reply to an ORIGIN line: the origin that the area in force now has."""

    ox: int
    oy: int


# No area, as the library keeps it.
_NONE = Area(0, 0)


class Clerk:
    """The order clerk, who knows the area in force and its origin. There is none at the start."""

    def __init__(self):
        self._area = None

    @classmethod
    def under(cls, area):
        """A clerk with this area in force, or with none where the area is not accepted or its origin is beyond the range."""
        clerk = cls()
        try:
            area.finish_square()
            clerk._area = area
        except refusal.Refusal:
            pass
        return clerk

    @property
    def area(self):
        """The area in force, or None."""
        return self._area

    def handle(self, line):
        """Answers a line: `AREA w h`, `ORIGIN ox oy`, `N i` or `S x y`, any bytes, without the newline.

        An accepted AREA line sets the area in force, with the origin (0, 0), and an accepted ORIGIN line its origin; a refused line whose first bytes are AREA
        or ORIGIN leaves no area, and no other line alters it. A number is plain, as 30, or padded with zeros to exactly ten digits, as 0000000030; those of
        ORIGIN and S may carry a minus.
        """
        line = bytes(memoryview(line))
        before = self._area or _NONE
        now = (c_int64 * 8)()
        returned = raw.handle_line(before.w, before.h, *before.origin, line, len(line), now, len(now))
        w, h, ox, oy, kind, first, second, third = now
        self._area = Area(w, h, (ox, oy)) if w else None
        refusal.unless_refused(returned)
        return _replied(self._area, kind, first, second, third)


# The kinds of reply by their numbers in the C header.
def _replied(area, kind, first, second, third):
    match kind:
        case 1:
            return AreaReply(area, first, Square(second, third))
        case 2:
            return Cell(first, second, third)
        case 3:
            return Number(first, second)
        case 4:
            return OriginReply(first, second)


def field_number(field, minus):
    """The number that a field of a line is, by the library's reader: of an N line, or, where a minus is allowed, of an S line. Raises `NotANumber`.

    With no area in force a line of numbers is refused for that, and any other sooner: a space, nothing or too much makes a line of another shape.
    """
    try:
        Clerk().handle(b"S %b 0" % field if minus else b"N " + field)
    except refusal.NoArea:
        return int(field)
    except refusal.Refusal:
        raise refusal.NotANumber from None
