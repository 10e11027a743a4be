"""Cards as files on disk: what python3 -m uvalinda card writes and checks."""

import array
import errno
import os
import pathlib

from .area import Kind


# A write that breaks off leaves the file as it was: the card goes to a name of its own first, down to the disk, and is then renamed.
def _put(card, path):
    part = f"{path}.{os.getpid()}.part"
    with open(part, "xb") as file:
        try:
            file.write(card)
            file.flush()
            os.fsync(file.fileno())
            os.rename(part, path)
        except BaseException:
            os.unlink(part)
            raise


def write(area, kind, path, replace):
    """Fills the area's table of this kind and writes its card. What has the name already is left, unless it is a file and is to be replaced."""
    if os.path.lexists(path) and not (replace and os.path.isfile(path)):
        raise FileExistsError(errno.EEXIST, os.strerror(errno.EEXIST), path)
    table = array.array("I", [0]) * (area.w * area.h)
    fill = area.fill_by_number if kind == Kind.BY_NUMBER else area.fill_by_square
    fill(table)
    # Where the name is a link, the file that it leads to is replaced, and not the link.
    _put(area.write_card(kind, table), os.path.realpath(path))


def check(area, kind, path):
    """Raises `BadCheck` or `Departure` where the file is not the area's card of this kind."""
    area.read_card(kind, pathlib.Path(path).read_bytes())
