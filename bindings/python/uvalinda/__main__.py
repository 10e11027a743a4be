"""python3 -m uvalinda W H [OX OY] <IN.csv >OUT.csv: adds to each row of a table the number of its square.

The table's first row names its columns. Those named x and y hold the square, and the columns number and refused are added: the number, or the refusal's. Every
field is read by the library's reader of order lines, as W, H, OX and OY are: 3E4 and 07 are not numbers. A table that cannot be worked with to its end gives
nothing on standard output.

python3 -m uvalinda card write [--replace] W H KIND FILE: fills a table of an area and writes its card. KIND is 1 for the table by number and 2 for the one by
square. A file that exists is left as it is, unless --replace is said, and FILE is never half a card.

python3 -m uvalinda card check W H KIND FILE: whether a file is the area's card of this kind. It prints right, or the refusal.

The status is 0 where all went well, and 1 where a file that was checked is not the card. Where the arguments, a table or a file cannot be worked with, a line
on standard error says why, and the status is 1, or 2 for a card. --help prints this.
"""

import csv
import os
import sys

from . import card
from .area import Area, Kind
from .clerk import field_number
from .refusal import Refusal

_USAGE = "usage: python3 -m uvalinda W H [OX OY] <IN.csv >OUT.csv, or python3 -m uvalinda card (write [--replace] | check) W H KIND FILE"


class Unusable(Exception):
    """The arguments or the table of squares cannot be worked with."""


# The bytes of a field as they stand in the input.
def _bytes(field):
    return field.encode("utf-8", "surrogateescape")


def _area(arguments):
    if len(arguments) not in (2, 4):
        raise Unusable(_USAGE)
    try:
        w, h, *origin = [field_number(_bytes(argument), i > 1) for i, argument in enumerate(arguments)]
        area = Area(w, h, origin or (0, 0))
        area.finish_square()
    except Refusal as refused:
        raise Unusable(f"{' '.join(arguments)}: refused {refused.number}: {refused}") from None
    return area


# The number of the square in a row's two fields, and the refusal's number: one of them is empty.
def _looked_up(area, x, y):
    try:
        return area.square_to_number(field_number(_bytes(x), True), field_number(_bytes(y), True)).number, ""
    except Refusal as refused:
        return "", refused.number


def _places(names):
    if names.count("x") != 1 or names.count("y") != 1 or "number" in names or "refused" in names:
        raise Unusable("the first row has to name one column x and one y, and none number or refused")
    return names.index("x"), names.index("y")


def extended(area, rows):
    """The rows of a table with the two columns that are added. Lines that are empty are left out."""
    rows = filter(None, rows)
    names = next(rows, [])
    x, y = _places(names)
    yield [*names, "number", "refused"]
    for count, row in enumerate(rows, 2):
        if len(row) != len(names):
            raise Unusable(f"row {count} has {len(row)} fields and the first row {len(names)}")
        yield [*row, *_looked_up(area, row[x], row[y])]


# The writer quotes the bytes of its line ends, so that a field may hold a carriage return; the lines written end as lines do here.
class _Lines:
    def __init__(self, stream):
        self._stream = stream

    def write(self, line):
        return self._stream.write(line.removesuffix("\r\n") + "\n")


def _number_rows(arguments):
    """Reads standard input, all of it, and then writes standard output."""
    if sys.stdin is None or sys.stdout is None:
        raise Unusable("standard input and output have to be open")
    # A mark of the byte order, as spreadsheets write it, belongs to no column. The bytes of each field come out as they came in.
    sys.stdin.reconfigure(encoding="utf-8-sig", errors="surrogateescape", newline="")
    sys.stdout.reconfigure(encoding="utf-8", errors="surrogateescape")
    csv.field_size_limit(sys.maxsize)
    rows = list(extended(_area(arguments), csv.reader(sys.stdin, strict=True)))
    csv.writer(_Lines(sys.stdout), lineterminator="\r\n").writerows(rows)
    sys.stdout.flush()
    return 0


def _kind(argument):
    try:
        return Kind(field_number(_bytes(argument), False))
    except ValueError:
        raise Unusable(f"{argument}: a kind is 1, by number, or 2, by square") from None


def _handle_card(arguments):
    """Writes a card, or checks one and says what it found. The status is 1 exactly if the file could be read and is not the card."""
    match arguments:
        case ["write", "--replace", w, h, kind, path]:
            card.write(_area([w, h]), _kind(kind), path, True)
        case ["write", w, h, kind, path]:
            card.write(_area([w, h]), _kind(kind), path, False)
        case ["check", w, h, kind, path]:
            try:
                card.check(_area([w, h]), _kind(kind), path)
                print("right", flush=True)
            except Refusal as refused:
                print(f"refused {refused.number}: {refused}", flush=True)
                return 1
        case _:
            raise Unusable(_USAGE)
    return 0


def main(arguments):
    """What cannot be worked with is told on standard error, and the status is then 1, or 2 for a card."""
    if arguments in (["--help"], ["-h"], ["card", "--help"], ["card", "-h"]):
        print(__doc__, end="")
        return 0
    of_card = arguments[:1] == ["card"]
    try:
        return _handle_card(arguments[1:]) if of_card else _number_rows(arguments)
    except (Unusable, csv.Error) as problem:
        print(f"uvalinda: {problem}", file=sys.stderr)
    except OSError as problem:
        print(f"uvalinda: {problem}", file=sys.stderr)
        if sys.stdout is not None:
            # What could not be written is not tried once more at the end.
            os.dup2(os.open(os.devnull, os.O_WRONLY), sys.stdout.fileno())
    return 2 if of_card else 1


if __name__ == "__main__":
    sys.exit(main(sys.argv[1:]))
