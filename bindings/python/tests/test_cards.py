"""Cards as a caller uses them: what is written is laid out as told and read back, which buffers are files, and cards on disk."""

import array
import ctypes
import mmap
import os
import pathlib
import resource
import struct
import subprocess
import sys
import tempfile
import unittest

import uvalinda
from uvalinda import Area, Kind


def block(words):
    """A block by the words in use."""
    counted = [*words, *[0] * (126 - len(words)), len(words)]
    return struct.pack("<128I", *counted, (1 + sum(counted)) % 2**32)


def card_of(area, kind, table):
    return block([1, area.w, area.h, kind]) + b"".join(block(table[start : start + 126]) for start in range(0, len(table), 126))


def filled(area, kind):
    table = array.array("I", bytes(4 * area.w * area.h))
    (area.fill_by_number if kind == Kind.BY_NUMBER else area.fill_by_square)(table)
    return table


def bumped(file, at):
    """A file whose word at this byte is one more than it should be, and the check of its block too."""
    changed = bytearray(file)
    for place in (at, at // 512 * 512 + 508):
        struct.pack_into("<I", changed, place, (struct.unpack_from("<I", file, place)[0] + 1) % 2**32)
    return changed


class Cards(unittest.TestCase):
    AREA = Area(13, 20)

    def refused(self, area, kind, file):
        """The refusal of a card that is read. It leaves the table as it was."""
        table = array.array("I", [7]) * (area.w * area.h)
        with self.assertRaises(uvalinda.Refusal) as caught:
            area.read_card(kind, file, table)
        self.assertEqual(set(table), {7})
        return caught.exception

    def test_a_card_is_laid_out_as_told_and_read_back(self):
        for w, h in ((1, 1), (3, 4), (125, 1), (9, 14), (1, 127), (12, 21), (23, 11), (300, 217)):
            area = Area(w, h)
            for kind in Kind:
                with self.subTest((area, kind)):
                    table = filled(area, kind)
                    card = area.write_card(kind, table)
                    self.assertIs(type(card), bytes)
                    self.assertTrue(card == card_of(area, kind, table))
                    self.assertEqual(len(card), area.card_length())
                    self.assertEqual(area.at(10**9, -(10**30)).read_card(kind, card), table)

    def test_a_changed_byte_is_told_by_its_block(self):
        card = bytearray(self.AREA.write_card(Kind.BY_SQUARE, filled(self.AREA, Kind.BY_SQUARE)))
        for at in range(0, len(card), 7):
            card[at] ^= 1
            refusal = self.refused(self.AREA, Kind.BY_SQUARE, card)
            self.assertEqual((type(refusal), refusal.block), (uvalinda.BadCheck, at // 512))
            self.assertEqual(str(refusal), f"the check of block {at // 512} is bad")
            card[at] ^= 1

    def test_every_other_file_is_a_departure(self):
        for kind in Kind:
            card = self.AREA.write_card(kind, filled(self.AREA, kind))
            others = [bumped(card, at) for at in range(0, len(card), 12) if at % 512 < 508]
            for file in (*others, b"", card[:511], card[:512], card[:-1], card + b"?", card + block([])):
                self.assertIs(type(self.refused(self.AREA, kind, file)), uvalinda.Departure)
            self.assertEqual(self.refused(self.AREA, kind, card + bytes(512)).block, 4)
            self.assertIs(type(self.refused(self.AREA, 3 - kind, card)), uvalinda.Departure)
            self.assertIs(type(self.refused(Area(20, 13), kind, card)), uvalinda.Departure)

    def test_only_a_right_table_of_the_kind_is_written(self):
        for kind in Kind:
            table = filled(self.AREA, kind)
            file = bytearray(b"?" * self.AREA.card_length())
            for other in (3 - kind, 0, 3, -1, 2**32 + kind, 2**64 + kind):
                with self.assertRaises(uvalinda.Departure):
                    self.AREA.write_card(other, table, file)
            for place in range(len(table)):
                table[place] ^= 1
                with self.assertRaises(uvalinda.Departure):
                    self.AREA.write_card(kind, table, file)
                table[place] ^= 1
            self.assertEqual(set(file), set(b"?"))
            self.assertIsNone(self.AREA.write_card(int(kind), table, file))
            self.assertEqual(file, card_of(self.AREA, kind, table))
            for other in (0, 3, -1, 2**32 + kind, 2**64 + kind):
                self.assertIs(type(self.refused(self.AREA, other, file)), uvalinda.Departure)

    def test_a_kind_is_a_whole_number(self):
        table = filled(Area(3, 4), Kind.BY_NUMBER)
        card = Area(3, 4).write_card(1, table)
        for other in (1.0, "1", b"1", True, None, [1]):
            with self.subTest(other), self.assertRaises(TypeError):
                Area(3, 4).write_card(other, table)
            with self.subTest(other), self.assertRaises(TypeError):
                Area(3, 4).read_card(other, card)

    def test_a_refused_area_has_no_card(self):
        for area, refusal in ((Area(0, 4), uvalinda.AreaLimit), (Area(2**64 + 3, 4), uvalinda.AreaLimit), (Area(4096, 4097), uvalinda.TooManySquares)):
            table, file = array.array("I", [7]), bytearray(b"?")
            for call in (
                area.card_length,
                lambda: area.write_card(9, table),
                lambda: area.write_card(9, table, file),
                lambda: area.read_card(9, file),
                lambda: area.read_card(9, file, table),
            ):
                with self.assertRaises(refusal):
                    call()
            self.assertEqual((list(table), file), ([7], b"?"))
        self.assertEqual(Area(4096, 4096).card_length(), 68_174_848)

    def test_lengths_come_first(self):
        area, wrong = Area(3, 4), array.array("I", [9] * 13)
        table = filled(area, Kind.BY_NUMBER)
        for lent, length in ((wrong, 1024), (wrong[:11], 1024), (wrong[:0], 1024), (table, 0), (table, 1023), (table, 1536), (wrong[:12], 1025)):
            file = bytearray(b"?" * length)
            with self.assertRaises(uvalinda.TableLength):
                area.write_card(Kind.BY_NUMBER, lent, file)
            self.assertEqual(file, b"?" * length)
        for places in (0, 11, 13):
            with self.assertRaises(uvalinda.TableLength):
                area.read_card(Kind.BY_NUMBER, bytes(512), wrong[:places])


class Buffers(unittest.TestCase):
    AREA = Area(3, 4)
    TABLE = filled(AREA, Kind.BY_NUMBER)
    CARD = AREA.write_card(Kind.BY_NUMBER, TABLE)

    def test_any_buffer_of_bytes_is_a_file(self):
        signed, characters, mapped = array.array("b", bytes(1024)), (ctypes.c_char * 1024)(), mmap.mmap(-1, 1024)
        inside = memoryview(bytearray(1100))[3:1027]
        for file in (bytearray(1024), array.array("B", bytes(1024)), signed, characters, (ctypes.c_uint8 * 1024)(), mapped, inside):
            with self.subTest(file):
                self.AREA.write_card(Kind.BY_NUMBER, self.TABLE, file)
                self.assertEqual(bytes(memoryview(file)), self.CARD)
                self.assertEqual(self.AREA.read_card(Kind.BY_NUMBER, file), self.TABLE)
                self.assertEqual(self.AREA.read_card(Kind.BY_NUMBER, memoryview(file).toreadonly()), self.TABLE)

    def test_any_other_is_none(self):
        spread = memoryview(bytearray(2048))[::2]
        for file in ("?" * 1024, [0] * 1024, array.array("H", bytes(1024)), array.array("I", bytes(1024)), array.array("f", bytes(1024)), spread):
            with self.subTest(file), self.assertRaises(TypeError):
                self.AREA.write_card(Kind.BY_NUMBER, self.TABLE, file)
            with self.subTest(file), self.assertRaises(TypeError):
                self.AREA.read_card(Kind.BY_NUMBER, file)
        for file in (bytes(1024), memoryview(bytearray(1024)).toreadonly()):
            with self.subTest(file), self.assertRaises(TypeError):
                self.AREA.write_card(Kind.BY_NUMBER, self.TABLE, file)
        for file in (None, 1024):
            with self.subTest(file), self.assertRaises(TypeError):
                self.AREA.read_card(Kind.BY_NUMBER, file)

    def test_any_buffer_of_32_bits_is_a_table(self):
        for table in (array.array("i", bytes(48)), (ctypes.c_uint32 * 12)(), memoryview(bytearray(48)).cast("I", [4, 3])):
            with self.subTest(table):
                self.assertIsNone(self.AREA.read_card(Kind.BY_NUMBER, self.CARD, table))
                self.assertEqual(bytes(memoryview(table)), self.TABLE.tobytes())
                self.assertEqual(self.AREA.write_card(Kind.BY_NUMBER, table), self.CARD)
                self.assertEqual(self.AREA.write_card(Kind.BY_NUMBER, memoryview(table).toreadonly()), self.CARD)
        for table in (bytearray(48), array.array("H", bytes(24)), [0] * 12, memoryview(bytes(48)).cast("I")):
            with self.subTest(table), self.assertRaises(TypeError):
                self.AREA.read_card(Kind.BY_NUMBER, self.CARD, table)

    def test_what_is_written_overlaps_nothing(self):
        whole = bytearray(2048)
        file = memoryview(whole)[512:1536]
        for at, apart in ((464, True), (468, False), (512, False), (1488, False), (1532, False), (1536, True)):
            table = memoryview(whole)[at : at + 48].cast("I")
            table[:] = memoryview(self.TABLE)
            before = bytes(whole)
            for call in (lambda: self.AREA.write_card(Kind.BY_NUMBER, table, file), lambda: self.AREA.read_card(Kind.BY_NUMBER, file, table)):
                if apart:
                    call()
                    self.assertEqual((table.tobytes(), bytes(file)), (self.TABLE.tobytes(), self.CARD))
                else:
                    with self.assertRaises(TypeError):
                        call()
                    self.assertEqual(whole, before)


class Command(unittest.TestCase):
    def setUp(self):
        folder = tempfile.TemporaryDirectory()
        self.addCleanup(folder.cleanup)
        self.folder = pathlib.Path(folder.name)
        self.path = self.folder / "3 by 4.card"

    def ran(self, *arguments, **more):
        command = [sys.executable, "-m", "uvalinda", "card", *map(str, arguments)]
        run = subprocess.run(command, stdin=subprocess.DEVNULL, stderr=subprocess.PIPE, check=False, **{"stdout": subprocess.PIPE, **more})
        return run.stdout, run.stderr.decode(), run.returncode

    def troubled(self, *arguments, **more):
        """What is told, in one line, where nothing could be written or checked."""
        out, said, status = self.ran(*arguments, **more)
        self.assertEqual((out or b"", said[:10], said.count("\n"), status), (b"", "uvalinda: ", 1, 2))
        return said

    def left(self):
        return {path.name: path.read_bytes() for path in self.folder.iterdir()}

    def test_what_is_written_is_right(self):
        for kind in Kind:
            path = self.folder / kind.name
            self.assertEqual(self.ran("write", 13, "0000000020", kind.value, path), (b"", "", 0))
            self.assertEqual(self.ran("check", "0000000013", 20, kind.value, path), (b"right\n", "", 0))
        area = Area(13, 20)
        self.assertEqual(self.left(), {kind.name: area.write_card(kind, filled(area, kind)) for kind in Kind})
        umask = os.umask(0)
        os.umask(umask)
        self.assertEqual(path.stat().st_mode & 0o777, 0o666 & ~umask)

    def test_a_wrong_card_is_told(self):
        card = Area(13, 20).write_card(Kind.BY_NUMBER, filled(Area(13, 20), Kind.BY_NUMBER))
        departs = b"refused 15: the file is not the card of this area and kind, or the table not the right one\n"
        for file, told in (
            (card[:1300] + b"?" + card[1301:], b"refused 14: the check of block 2 is bad\n"),
            (bytes(512), b"refused 14: the check of block 0 is bad\n"),
            (bumped(card, 1300), departs),
            (card[:-1], departs),
            (b"", departs),
        ):
            self.path.write_bytes(file)
            self.assertEqual(self.ran("check", 13, 20, 1, self.path), (told, "", 1))
        self.path.write_bytes(card)
        self.assertEqual(self.ran("check", 13, 20, 2, self.path), (departs, "", 1))
        self.assertEqual(self.ran("check", 20, 13, 1, self.path), (departs, "", 1))

    def test_what_is_there_is_left(self):
        self.path.write_bytes(b"?")
        self.assertIn("File exists", self.troubled("write", 3, 4, 1, self.path))
        self.assertEqual(self.left(), {self.path.name: b"?"})
        self.assertEqual(self.ran("write", "--replace", 3, 4, 1, self.path), (b"", "", 0))
        self.assertEqual(self.left(), {self.path.name: Buffers.CARD})
        (self.folder / "empty").mkdir()
        self.assertIn("File exists", self.troubled("write", "--replace", 3, 4, 1, self.folder / "empty"))
        self.assertTrue((self.folder / "empty").is_dir())

    def test_a_link_stays_one(self):
        (self.folder / "link").symlink_to(self.path)
        self.assertIn("File exists", self.troubled("write", "--replace", 3, 4, 1, self.folder / "link"))
        self.path.write_bytes(b"?")
        self.assertIn("File exists", self.troubled("write", 3, 4, 1, self.folder / "link"))
        self.assertEqual(self.path.read_bytes(), b"?")
        self.assertEqual(self.ran("write", "--replace", 3, 4, 1, self.folder / "link"), (b"", "", 0))
        self.assertTrue((self.folder / "link").is_symlink())
        self.assertEqual(self.path.read_bytes(), Buffers.CARD)

    def test_a_write_that_fails_leaves_what_was(self):
        full = {"preexec_fn": lambda: resource.setrlimit(resource.RLIMIT_FSIZE, (600, 600))}
        self.assertIn("File too large", self.troubled("write", 3, 4, 1, self.path, **full))
        self.assertEqual(self.left(), {})
        self.path.write_bytes(b"?")
        self.assertIn("File too large", self.troubled("write", "--replace", 3, 4, 1, self.path, **full))
        self.assertEqual(self.left(), {self.path.name: b"?"})

    def test_a_write_that_breaks_off_leaves_no_half_card(self):
        # Killed at the sync of the card, with all of it written or less.
        code = "import os, signal, sys; os.fsync = lambda _: os.kill(os.getpid(), signal.SIGKILL); from uvalinda.__main__ import main; main(sys.argv[1:])"
        run = subprocess.run([sys.executable, "-c", code, "card", "write", "3", "4", "1", self.path], check=False)
        self.assertEqual((run.returncode, self.path.exists(), len(self.left())), (-9, False, 1))
        self.assertEqual(self.ran("write", 3, 4, 1, self.path), (b"", "", 0))

    def test_what_cannot_be_read_or_written_is_told(self):
        self.assertIn("No such file", self.troubled("check", 3, 4, 1, self.path))
        self.assertIn("Is a directory", self.troubled("check", 3, 4, 1, self.folder))
        self.assertIn("No such file", self.troubled("write", 3, 4, 1, self.folder / "none" / "card"))
        self.path.write_bytes(Buffers.CARD)
        # What is not kept for later cannot be tried again at the end.
        environment = {name: value for name, value in os.environ.items() if name != "PYTHONUNBUFFERED"}
        with open("/dev/full", "wb") as full:
            self.assertIn("No space left", self.troubled("check", 3, 4, 1, self.path, stdout=full, env=environment))

    def test_arguments_are_read_as_fields_are(self):
        for arguments, refusal in (("3 4E0", 5), ("03 4", 5), ("-3 4", 5), ("0 4", 1), ("4096 4097", 13)):
            for command in ("write", "check"):
                self.assertIn(f"uvalinda: {arguments}: refused {refusal}: ", self.troubled(command, *arguments.split(), 1, self.path))
        for kind in ("0", "3", "01", "+1", "1.0", "number", ""):
            for command in ("write", "check"):
                self.assertIn(f"uvalinda: {kind}: a kind is ", self.troubled(command, 3, 4, kind, self.path))
        for arguments in ((), ("write",), ("check", 3, 4, 1), ("write", 3, 4, 1, "a", "b"), ("check", "--replace", 3, 4, 1, "a"), ("read", 3, 4, 1, "a")):
            self.assertIn("uvalinda: usage: python3 -m uvalinda ", self.troubled(*arguments))
        self.assertEqual(self.left(), {})


if __name__ == "__main__":
    unittest.main()
