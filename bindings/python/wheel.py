"""wheel.py FOLDER: packs FOLDER/uvalinda into a wheel in FOLDER, with nothing but Python's own library: no network, no tool for building."""

import base64
import hashlib
import pathlib
import platform
import re
import sys
import zipfile

# Of every file in the wheel, so that the same package makes the same wheel.
_DATE = (2020, 1, 1, 0, 0, 0)


def _files(folder):
    return {f"uvalinda/{path.name}": path.read_bytes() for path in sorted(folder.iterdir()) if path.suffix in (".py", ".so")}


def _described(version, tag):
    return {
        "METADATA": f"""\
Metadata-Version: 2.1
Name: uvalinda
Version: {version}
Summary: Numbers the squares of a rectangle along the Gilbert curve: bindings to the proved library
Requires-Python: >=3.11
""",
        "WHEEL": f"""\
Wheel-Version: 1.0
Generator: uvalinda
Root-Is-Purelib: false
Tag: {tag}
""",
    }


# A line for each file with its digest and its length, as the wheel's format has it.
def _record(files, path):
    def line(name, content):
        digest = base64.urlsafe_b64encode(hashlib.sha256(content).digest()).rstrip(b"=").decode()
        return f"{name},sha256={digest},{len(content)}\n"

    return "".join(line(name, content) for name, content in files.items()) + f"{path},,\n"


def main(folder):
    files = _files(folder / "uvalinda")
    version = re.search(rb'^__version__ = "(.*)"$', files["uvalinda/__init__.py"], re.M)[1].decode()
    # For any Python 3 of this machine: what is compiled knows nothing of Python.
    tag = f"py3-none-linux_{platform.machine()}"
    information = f"uvalinda-{version}.dist-info"
    files |= {f"{information}/{name}": text.encode() for name, text in _described(version, tag).items()}
    files[f"{information}/RECORD"] = _record(files, f"{information}/RECORD").encode()
    with zipfile.ZipFile(folder / f"uvalinda-{version}-{tag}.whl", "w", zipfile.ZIP_DEFLATED) as wheel:
        for name, content in files.items():
            entry = zipfile.ZipInfo(name, _DATE)
            entry.external_attr = 0o644 << 16
            wheel.writestr(entry, content, zipfile.ZIP_DEFLATED)


main(pathlib.Path(sys.argv[1]))
