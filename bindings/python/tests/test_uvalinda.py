"""The bindings as a caller uses them: what is a number and what is not, which buffers are tables, lines, and the table of squares on standard input."""

import array
import ctypes
import doctest
import mmap
import os
import pathlib
import pickle
import re
import subprocess
import sys
import unittest

import uvalinda
from uvalinda import Area, AreaReply, Cell, Clerk, Kind, Number, OriginReply, Right, Square, Window, Wrong, raw

HEADER = (pathlib.Path(__file__).parents[3] / "include/uvalinda.h").read_text()


class Declarations(unittest.TestCase):
    """Nothing else compares them: a wrong declaration would be called all the same."""

    TYPES = {
        "uint32_t": ctypes.c_uint32,
        "int32_t": ctypes.c_int32,
        "size_t": ctypes.c_size_t,
        "uint32_t*": ctypes.POINTER(ctypes.c_uint32),
        "int32_t*": ctypes.POINTER(ctypes.c_int32),
        "int64_t*": ctypes.POINTER(ctypes.c_int64),
        "uint64_t*": ctypes.POINTER(ctypes.c_uint64),
        "uint8_t*": ctypes.c_char_p,
    }

    def test_every_function_is_declared_as_in_the_header(self):
        declared = re.findall(r"^uint32_t uvalinda_(\w+)\(([^)]*)\);", HEADER, re.M)
        self.assertGreater(len(declared), 5)
        for name, parameters in declared:
            kinds = [re.sub(r"const |\w+$| ", "", parameter.strip()) for parameter in parameters.split(",")]
            self.assertEqual(list(getattr(raw, name).argtypes), [self.TYPES[kind] for kind in kinds], name)
            self.assertIs(getattr(raw, name).restype, ctypes.c_uint32, name)

    def test_every_refusal_and_kind_has_its_name_and_number(self):
        numbered = {name: int(number) for name, number in re.findall(r"^#define UVALINDA_(\w+) (\d+)u", HEADER, re.M)}
        for other in [name for name in numbered if name.endswith("_PLACES")] + ["ANSWERED", "SHORT_RESULT"]:
            del numbered[other]
        for kind in Kind:
            self.assertEqual(numbered.pop(kind.name), kind)
        in_c = {re.sub(r"(?<!^)(?=[A-Z])", "_", name).upper(): getattr(uvalinda, name).number for name in uvalinda.refusal.__all__ if name != "Refusal"}
        self.assertEqual(in_c, numbered)

    def test_the_version_is_the_headers(self):
        self.assertEqual(uvalinda.__version__, re.search(r'UVALINDA_VERSION "(.*)"', HEADER)[1])


class Numbers(unittest.TestCase):
    class Eight:
        def __index__(self):
            return 8

    def test_whatever_is_a_whole_number_is_taken(self):
        self.assertEqual(Area(3, 4).number_to_square(self.Eight()), Cell(2, 1, 3))

    def test_whatever_is_not_is_no_argument(self):
        for other in (8.0, "8", b"8", True, False, None, [8], 8j):
            with self.subTest(other), self.assertRaises(TypeError):
                Area(3, 4).number_to_square(other)
            for arguments in ((other, 4), (3, other), (3, 4, (other, 0)), (3, 4, (0, other))):
                with self.subTest(arguments), self.assertRaises(TypeError):
                    Area(*arguments)
            for corners in ((other, 0, 1, 1), (0, 0, 1, other)):
                with self.subTest(corners), self.assertRaises(TypeError):
                    Area(3, 4).runs_for_window(corners)
            with self.subTest(other), self.assertRaises(TypeError):
                Area(3, 4).square_to_number(0, other)

    def test_no_number_is_too_large_to_be_refused(self):
        far = 2**64 + 2
        for call, refusal in (
            (lambda: Area(3, 4).number_to_square(far), uvalinda.NumberOutside),
            (lambda: Area(3, 4).square_to_number(far, 1), uvalinda.SquareOutside),
            (lambda: Area(3, 4).square_to_number(2, -far), uvalinda.SquareOutside),
            (lambda: Area(far, 4).finish_square(), uvalinda.AreaLimit),
            (lambda: Area(3, 4, (0, far)).finish_square(), uvalinda.OriginLimit),
            (lambda: Area(3, 4).runs_for_window((far, 0, far - 1, 0)), uvalinda.CornersCrossed),
            (lambda: Area(3, 4).runs_for_window((far, 0, far + 1, 0)), uvalinda.SquareOutside),
            (lambda: Area(far, 4).fill_by_number(array.array("I", bytes(8))), uvalinda.AreaLimit),
        ):
            with self.assertRaises(refusal):
                call()

    def test_an_area_is_what_it_was_made_of(self):
        self.assertEqual(Area(3, 4), Area(3, 4, (0, 0)))
        self.assertEqual(Area(3, 4, [-5, 7]), Area(w=3, h=4).at(-5, 7))
        self.assertEqual(Area(3, 4).at(-5, 7).origin, Square(-5, 7))
        self.assertEqual(len({Area(3, 4), Area(3, 4).at(0, 0), Area(4, 3)}), 2)

    def test_runs_are_ranges(self):
        self.assertEqual(Area(3, 4).runs_for_window(Window(x0=0, y0=0, x1=1, y1=1)), [range(0, 2), range(9, 11)])


class Refusals(unittest.TestCase):
    def test_a_refusal_is_a_value_error_with_its_number(self):
        with self.assertRaises(ValueError) as caught:
            Area(3, 4).number_to_square(12)
        self.assertIs(type(caught.exception), uvalinda.NumberOutside)
        self.assertEqual((caught.exception.number, str(caught.exception)), (3, "the area has no such number"))

    def test_a_refusal_can_be_handed_to_another_process(self):
        again = pickle.loads(pickle.dumps(uvalinda.OriginLimit()))
        self.assertIs(type(again), uvalinda.OriginLimit)
        again = pickle.loads(pickle.dumps(uvalinda.BadCheck(7)))
        self.assertEqual((again.block, str(again)), (7, "the check of block 7 is bad"))


class Tables(unittest.TestCase):
    DUE = [0, 3, 6, 9, 10, 11, 8, 7, 5, 4, 1, 2]

    def test_any_buffer_of_32_bits_is_a_table(self):
        for table in (array.array("I", bytes(48)), array.array("i", bytes(48)), (ctypes.c_uint32 * 12)(), memoryview(bytearray(48)).cast("I"), mmap_of(48)):
            with self.subTest(table):
                self.assertEqual(Area(3, 4).fill_by_number(table), 10)
                self.assertEqual(list(table), self.DUE)
                self.assertEqual(Area(3, 4).check_by_number(table), Right())
                table[5] = 3
                self.assertEqual(Area(3, 4).check_by_number(table), Wrong(place=5, due=11))

    def test_a_table_of_rows_is_filled_by_square(self):
        table = memoryview(bytearray(48)).cast("I", [4, 3])
        Area(3, 4).fill_by_square(table)
        self.assertEqual(table[1, 2], 8)
        self.assertTrue(Area(3, 4).check_by_square(table))

    def test_a_table_that_cannot_be_written_is_checked_and_not_filled(self):
        table = memoryview(bytes(array.array("I", self.DUE))).cast("I")
        self.assertTrue(Area(3, 4).check_by_number(table))
        self.assertFalse(Area(3, 4).check_by_square(table))
        with self.assertRaises(TypeError):
            Area(3, 4).fill_by_square(table)

    def test_any_other_buffer_is_none(self):
        spread = memoryview(array.array("I", bytes(96)))[::2]
        aside = memoryview(bytearray(49))[1:].cast("I")
        swapped = (ctypes.c_uint32.__ctype_be__ if sys.byteorder == "little" else ctypes.c_uint32.__ctype_le__) * 12
        for table in (bytearray(48), array.array("H", bytes(24)), array.array("L", bytes(96)), array.array("f", bytes(48)), spread, spread.toreadonly(), aside,
                      swapped(), [0] * 12, None):
            for call in (Area(3, 4).fill_by_number, Area(3, 4).check_by_square):
                with self.subTest(table), self.assertRaises(TypeError):
                    call(table)

    def test_a_refused_table_is_as_it_was(self):
        for places in (0, 11, 13):
            table = array.array("I", [7] * places)
            with self.assertRaises(uvalinda.TableLength):
                Area(3, 4).fill_by_number(table)
            self.assertEqual(list(table), [7] * places)
        with self.assertRaises(uvalinda.AreaLimit):
            Area(0, 4).fill_by_square(array.array("I"))

    def test_a_refusal_that_is_kept_keeps_no_buffer(self):
        area = Area(3, 4)
        for call in (
            lambda table, _: area.fill_by_number(table),
            lambda table, _: area.check_by_number(table),
            lambda table, file: area.write_card(Kind.BY_NUMBER, table, file),
            lambda table, file: area.read_card(Kind.BY_NUMBER, file, table),
        ):
            table, file, kept = array.array("I"), bytearray(512), None
            # Not by assertRaises, which lets go of what a refusal keeps.
            try:
                call(table, file)
            except uvalinda.TableLength as refusal:
                kept = refusal
            table.append(7)
            file.append(7)
            self.assertEqual(kept.number, 4)


def mmap_of(size):
    return memoryview(mmap.mmap(-1, size)).cast("I")


class Lines(unittest.TestCase):
    def test_the_clerk_keeps_the_area_in_force(self):
        clerk = Clerk()
        with self.assertRaises(uvalinda.NoArea):
            clerk.handle(b"N 8")
        self.assertEqual(clerk.handle(b"AREA 3 4"), AreaReply(Area(3, 4), 12, Square(2, 0)))
        self.assertEqual(clerk.handle(bytearray(b"ORIGIN -5 0000000007")), OriginReply(-5, 7))
        self.assertEqual(clerk.handle(memoryview(b"N 8")), Cell(-3, 8, 3))
        self.assertEqual(clerk.handle(b"S -3 8"), Number(8, 3))
        self.assertEqual(clerk.area, Area(3, 4, (-5, 7)))
        with self.assertRaises(uvalinda.NotANumber):
            clerk.handle(b"AREA 3 4E0")
        self.assertIsNone(clerk.area)
        self.assertIsNone(Clerk.under(Area(0, 4)).area)
        self.assertIsNone(Clerk.under(Area(3, 4, (1_000_001, 0))).area)

    def test_a_line_is_bytes(self):
        for other in ("N 8", 8, None, [78]):
            with self.subTest(other), self.assertRaises(TypeError):
                Clerk().handle(other)


class Command(unittest.TestCase):
    def ran(self, table, *arguments):
        run = subprocess.run([sys.executable, "-m", "uvalinda", *arguments], input=table, capture_output=True, check=False)
        return run.stdout, run.stderr.decode(), run.returncode

    def test_each_row_gets_its_number_or_its_refusal(self):
        table = b'crew,x,y\na,2,1\nb,3E4,1\nc,2,07\n"d, e",0000000002,1\nf,3,0\ng,,1\nh, 2,1\ni,2\0,1\nj,\xff,1\nk,-1,0\n'
        due = (
            b'crew,x,y,number,refused\na,2,1,8,\nb,3E4,1,,5\nc,2,07,,5\n"d, e",0000000002,1,8,\nf,3,0,,2\ng,,1,,5\nh, 2,1,,5\n'
            b"i,2\0,1,,5\nj,\xff,1,,5\nk,-1,0,,2\n"
        )
        self.assertEqual(self.ran(table, "3", "4"), (due, "", 0))

    def test_a_table_as_a_spreadsheet_writes_it(self):
        table = "\ufeffy,x,crew\r\n8,-3,a\r\n\r\n8,-3,\"b\r\nc\"\r\n".encode()
        due = b'y,x,crew,number,refused\n8,-3,a,8,\n8,-3,"b\r\nc",8,\n'
        self.assertEqual(self.ran(table, "3", "4", "-5", "7"), (due, "", 0))
        self.assertEqual(self.ran(b"x,y\r2,1\r", "3", "4"), (b"x,y,number,refused\n2,1,8,\n", "", 0))
        self.assertEqual(self.ran(b'x,y,crew\n2,1,"a\rb"\n', "3", "4"), (b'x,y,crew,number,refused\n2,1,"a\rb",8,\n', "", 0))

    def test_arguments_are_read_as_fields_are(self):
        for arguments, refusal in (("3 4E0", 5), ("03 4", 5), ("-3 4", 5), ("0 4", 1), ("4096 4097", 13), ("3 4 0 1000001", 12)):
            out, said, status = self.ran(b"x,y\n", *arguments.split())
            self.assertEqual((out, status), (b"", 1))
            self.assertIn(f"{arguments}: refused {refusal}: ", said)
        for arguments in ((), ("3",), ("3", "4", "5"), ("3", "4", "5", "6", "7")):
            out, said, status = self.ran(b"x,y\n", *arguments)
            self.assertEqual((out, said.count("\n"), status), (b"", 1, 1))
            self.assertIn("uvalinda: usage: python3 -m uvalinda W H [OX OY] <IN.csv >OUT.csv, or ", said)

    def test_help_is_the_programs_own_text(self):
        for arguments in (("--help",), ("-h",), ("card", "--help"), ("card", "-h")):
            out, said, status = self.ran(b"", *arguments)
            self.assertEqual((said, status), ("", 0))
            self.assertTrue(out.startswith(b"python3 -m uvalinda W H [OX OY] <IN.csv >OUT.csv: "))
            self.assertIn(b"KIND is 1 for the table by number and 2 for the one by\nsquare.", out)

    def test_a_table_that_cannot_be_worked_with(self):
        names = "uvalinda: the first row has to name one column x and one y, and none number or refused\n"
        for table in (b"", b"x\n1\n", b"x,y,x\n", b"x,y,number\n", b"refused,x,y\n", b"X,Y\n"):
            self.assertEqual(self.ran(table, "3", "4"), (b"", names, 1))
        self.assertEqual(
            self.ran(b"x,y\n2,1\n2\n", "3", "4"), (b"", "uvalinda: row 3 has 1 fields and the first row 2\n", 1)
        )
        for table in (b'x,y\n2,1\n"2"1,1\n', b'x,y\n2,1\n"2,1\n'):
            out, said, status = self.ran(table, "3", "4")
            self.assertEqual((out, said.count("\n"), status), (b"", 1, 1))

    def test_what_is_not_open_is_told(self):
        for closed in ("<&-", ">&-"):
            run = subprocess.run(f'"{sys.executable}" -m uvalinda 3 4 {closed}', shell=True, stdin=subprocess.DEVNULL, capture_output=True, check=False)
            self.assertEqual((run.stderr, run.returncode), (b"uvalinda: standard input and output have to be open\n", 1))

    def test_what_cannot_be_written_is_told_once(self):
        # What is not kept for later cannot be tried again at the end.
        environment = {name: value for name, value in os.environ.items() if name != "PYTHONUNBUFFERED"}
        command = [sys.executable, "-m", "uvalinda", "3", "4"]
        with open("/dev/full", "wb") as full:
            run = subprocess.run(command, input=b"x,y\n2,1\n", stdout=full, stderr=subprocess.PIPE, env=environment, check=False)
        self.assertEqual((run.returncode, run.stderr.count(b"\n")), (1, 1))


def load_tests(loader, tests, pattern):
    del loader, pattern
    tests.addTests(doctest.DocTestSuite(uvalinda))
    return tests


if __name__ == "__main__":
    unittest.main()
