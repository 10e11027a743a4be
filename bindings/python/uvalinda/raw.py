"""The library's C functions, declared as include/uvalinda.h declares them: a slice is a pointer and a length."""

import ctypes
import pathlib
from ctypes import POINTER, c_char_p, c_int32, c_int64, c_size_t, c_uint32, c_uint64

_PATH = pathlib.Path(__file__).with_name("libuvalinda.so")
if not _PATH.exists():
    raise ImportError(f"{_PATH} is not built: bash bindings/python/build")
_LIBRARY = ctypes.CDLL(str(_PATH))


def _declared(name, *parameters):
    function = getattr(_LIBRARY, "uvalinda_" + name)
    function.argtypes = parameters
    function.restype = c_uint32
    return function


_AREA = (c_uint32, c_uint32)
_GRID = (*_AREA, c_int32, c_int32)
_U32S = (POINTER(c_uint32), c_size_t)
_I32S = (POINTER(c_int32), c_size_t)
_I64S = (POINTER(c_int64), c_size_t)
_U64S = (POINTER(c_uint64), c_size_t)
_BYTES = (c_char_p, c_size_t)

number_to_square = _declared("number_to_square", *_GRID, c_uint32, *_I32S)
square_to_number = _declared("square_to_number", *_GRID, c_int32, c_int32, *_U32S)
finish_square = _declared("finish_square", *_GRID, *_I32S)
fill_by_number = _declared("fill_by_number", *_AREA, *_U32S, *_U64S)
fill_by_square = _declared("fill_by_square", *_AREA, *_U32S, *_U64S)
check_by_number = _declared("check_by_number", *_AREA, *_U32S, *_U32S)
check_by_square = _declared("check_by_square", *_AREA, *_U32S, *_U32S)
card_length = _declared("card_length", *_AREA, *_U64S)
write_card = _declared("write_card", *_AREA, c_uint32, *_U32S, *_BYTES)
read_card = _declared("read_card", *_AREA, c_uint32, *_BYTES, *_U32S, *_U64S)
runs_for_window = _declared("runs_for_window", *_GRID, c_int32, c_int32, c_int32, c_int32, *_U32S, *_U32S)
handle_line = _declared("handle_line", *_GRID, *_BYTES, *_I64S)
