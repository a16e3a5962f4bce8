# SPDX-License-Identifier: MIT OR Apache-2.0
"""Builds the wheel of the package tfmset, with the library that scripts/library left in crates/tfmset_c/out.

`pip install ./bindings/python` calls `build_wheel` (PEP 517). Nothing is compiled or fetched.
"""
import base64
import glob
import hashlib
import os
import re
import sys
import zipfile

HERE = os.path.dirname(os.path.abspath(__file__))
ROOT = os.path.dirname(os.path.dirname(HERE))
LIBRARY = os.path.join(ROOT, "crates", "tfmset_c", "out", "libtfmset.so")
TAG = "py3-none-linux_x86_64"
METADATA = """Metadata-Version: 2.1
Name: tfmset
Version: {version}
Summary: Sets lines of text with TeX font metrics
License: MIT OR Apache-2.0
Requires-Python: >=3.8
Platform: Linux x86-64
"""


def contents():
    """Returns the version, and the contents of each file of the wheel, by its path there."""
    found = {}
    for path in [*sorted(glob.glob(HERE + "/tfmset/*.py")), HERE + "/tfmset/py.typed", LIBRARY]:
        with open(path, "rb") as file:
            found["tfmset/" + os.path.basename(path)] = file.read()
    version = re.search(rb'(?m)^__version__ = "(.*)"$', found["tfmset/_binding.py"])[1].decode()
    about = f"tfmset-{version}.dist-info/"
    found[about + "METADATA"] = METADATA.format(version=version).encode()
    found[about + "WHEEL"] = f"Wheel-Version: 1.0\nRoot-Is-Purelib: false\nTag: {TAG}\n".encode()
    for name in ("LICENSE-APACHE", "LICENSE-MIT"):
        with open(os.path.join(ROOT, name), "rb") as file:
            found[about + name] = file.read()
    record = "".join(f"{path},sha256={digest(content)},{len(content)}\n" for path, content in found.items())
    found[about + "RECORD"] = f"{record}{about}RECORD,,\n".encode()
    return version, found


def digest(content):
    """Returns the hash of a file, as the format of wheels writes it."""
    return base64.urlsafe_b64encode(hashlib.sha256(content).digest()).decode().rstrip("=")


def build_wheel(wheel_directory, config_settings=None, metadata_directory=None):
    """Writes the wheel, and returns its file name. Ends with a message if there is no library."""
    del config_settings, metadata_directory
    if not os.path.exists(LIBRARY):
        sys.exit(f"tfmset: there is no {LIBRARY}: run scripts/library first, which builds it")
    version, files = contents()
    name = f"tfmset-{version}-{TAG}.whl"
    with zipfile.ZipFile(os.path.join(wheel_directory, name), "w", zipfile.ZIP_DEFLATED) as wheel:
        for path, content in files.items():
            entry = zipfile.ZipInfo(path)  # with a fixed time
            entry.external_attr, entry.compress_type = 0o100644 << 16, zipfile.ZIP_DEFLATED
            wheel.writestr(entry, content)
    return name
