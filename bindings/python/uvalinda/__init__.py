"""Numbers the squares of a rectangle along the Gilbert curve.

The library underneath is proved: for any numbers, tables and lines there is an answer, and it is the one that its documents define. These bindings add no
decision of their own; they hand buffers over with their lengths and give each refusal its name.

>>> from uvalinda import Area
>>> Area(3, 4).number_to_square(8)
Cell(x=2, y=1, blocks=3)
>>> Area(3, 4, (-5, 7)).square_to_number(-3, 8)
Number(number=8, blocks=3)
>>> Area(3, 4).runs_for_window((0, 0, 1, 1))
[range(0, 2), range(9, 11)]
>>> Area(3, 4).number_to_square(12)
Traceback (most recent call last):
uvalinda.refusal.NumberOutside: the area has no such number
>>> from array import array
>>> from uvalinda import Kind
>>> card = Area(2, 2).write_card(Kind.BY_NUMBER, array("I", [0, 2, 3, 1]))
>>> len(card)
1024
>>> Area(2, 2).read_card(Kind.BY_NUMBER, card)
array('I', [0, 2, 3, 1])
>>> Area(2, 2).read_card(Kind.BY_NUMBER, card[:600] + b"?" + card[601:])
Traceback (most recent call last):
uvalinda.refusal.BadCheck: the check of block 1 is bad
"""

from . import refusal
from .area import Area, Cell, Kind, Number, Right, Square, Window, Wrong
from .clerk import AreaReply, Clerk, OriginReply
from .refusal import *  # noqa: F403, the refusals by name

__version__ = "2.0.0"
__all__ = ["Area", "AreaReply", "Cell", "Clerk", "Kind", "Number", "OriginReply", "Right", "Square", "Window", "Wrong", *refusal.__all__]
