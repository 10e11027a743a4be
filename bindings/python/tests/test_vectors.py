"""The test vectors that C, Rust, Python and SQL are all held to: tests/vectors.txt, whose first lines say how a vector is read."""

import array
import pathlib
import re
import struct
import unittest

from uvalinda import Area, AreaReply, BadCheck, Cell, Clerk, Number, OriginReply, Refusal
from uvalinda.clerk import field_number

VECTORS = pathlib.Path(__file__).parents[3] / "tests/vectors.txt"


def unescaped(word):
    """A word as the bytes that it stands for."""
    return b"" if word == r"\e" else re.sub(rb"\\_|\\x(..)", lambda m: bytes.fromhex(m[1].decode()) if m[1] else b" ", word.encode())


def joined(values):
    return " ".join(map(str, values))


def called(call, w, h, ox, oy, *rest):
    area = Area(w, h, (ox, oy))
    if call == "runs_for_window":
        return joined(end for run in area.runs_for_window(rest) for end in (run[0], run[-1]))
    return joined(getattr(area, call)(*rest))


def called_in_text(call, words):
    minus = [False, False, True, True, *[call != "number_to_square"] * 4]
    return called(call, *map(field_number, map(unescaped, words), minus))


def filled(call, w, h, places):
    table = array.array("I", bytes(4 * places))
    blocks = getattr(Area(w, h), call)(table)
    return joined([blocks, *table])


def checked(call, w, h, *table):
    check = getattr(Area(w, h), call)(array.array("I", table))
    return "right" if check else f"wrong {check.place} {check.due}"


def file_bytes(word):
    """The bytes of a file that a word of it stands for."""
    if word.startswith("0*"):
        return bytes(4 * int(word[2:]))
    return bytes.fromhex(word[1:]) if word.startswith("x") else struct.pack("<I", int(word))


def file_words(file):
    """A file of whole words as the vectors have it."""
    words = joined(word for (word,) in struct.iter_unpack("<I", file))
    return re.sub(r"\b0( 0)+\b", lambda zeros: f"0*{len(zeros[0].split())}", words)


# What is lent to be written, here and below, holds no word that is due, so that each has to be written.
def written(w, h, kind, length, *table):
    file = bytearray(b"\7" * length)
    Area(w, h).write_card(kind, array.array("I", table), file)
    return file_words(file)


def read(w, h, kind, places, *file):
    table = array.array("I", [2**32 - 1]) * int(places)
    Area(int(w), int(h)).read_card(int(kind), b"".join(map(file_bytes, file)), table)
    return joined(table)


def replied(clerk, line):
    match clerk.handle(line):
        case AreaReply(_, squares, finish):
            return joined(["area", squares, *finish])
        case OriginReply(ox, oy):
            return joined(["origin", ox, oy])
        case Cell() as cell:
            return joined(["cell", *cell])
        case Number() as number:
            return joined(["number", *number])


def refused(answer, *arguments):
    """What is answered, or the refusal's number and what it tells besides."""
    try:
        return answer(*arguments)
    except BadCheck as refusal:
        return f"refused {refusal.number} {refusal.block}"
    except Refusal as refusal:
        return f"refused {refusal.number}"


def handled(w, h, ox, oy, line):
    clerk = Clerk.under(Area(int(w), int(h), (int(ox), int(oy))))
    reply = refused(replied, clerk, unescaped(line))
    area = clerk.area or Area(0, 0)
    return joined([area.w, area.h, *area.origin, reply])


def answered(kind, *words):
    match kind.split("_")[0]:
        case "text":
            return refused(called_in_text, words[0], words[1:])
        case "wide":
            return answered(*words)
        case "fill":
            return refused(filled, kind, *map(int, words))
        case "check":
            return refused(checked, kind, *map(int, words))
        case "card":
            return refused(lambda w, h: str(Area(w, h).card_length()), *map(int, words))
        case "write":
            return refused(written, *map(int, words))
        case "read":
            return refused(read, *words)
        case "handle":
            return handled(*words)
        case _:
            return refused(called, kind, *map(int, words))


class Vectors(unittest.TestCase):
    def test_vectors_are_answered_as_is_due(self):
        # A slice for runs is never lent from Python, so that none is too short.
        asked = [line for line in VECTORS.read_text().splitlines() if not line.startswith(("#", "room "))]
        self.assertGreater(len(asked), 1000)
        for vector in asked:
            question, due = vector.split(" = ")
            self.assertEqual(answered(*question.split(" ")), due, question)


if __name__ == "__main__":
    unittest.main()
