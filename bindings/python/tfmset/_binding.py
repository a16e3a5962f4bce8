# SPDX-License-Identifier: MIT OR Apache-2.0
"""The C library libtfmset: finds and loads it, and declares its structs and functions."""
from __future__ import annotations

import ctypes
import os
from typing import Tuple

__version__ = "0.2.0"

_DONE, _FONT_REFUSED, _OUT_OF_MEMORY, _NO_ROOM, _OUT_OF_RANGE, _NOT_UTF8 = range(6)
_u8, _u32, _i32, _u64, _size_t = (ctypes.c_uint8, ctypes.c_uint32, ctypes.c_int32, ctypes.c_uint64,
                                  ctypes.c_size_t)


class _Uncoded(ctypes.Structure):
    _fields_ = [("offset", _size_t), ("character", _u32)]


class _Encoded(ctypes.Structure):
    _fields_ = [("count", _size_t), ("uncoded", _size_t), ("offset", _size_t)]


class _Fault(ctypes.Structure):
    _fields_ = [("place", _size_t), ("number", _u32), ("named", _u32)]


class _About(ctypes.Structure):
    _fields_ = [("parameters", _size_t), ("kerns", _size_t), ("instructions", _size_t), ("design_size", _u32),
                ("size", _u32), ("check_sum", _u32), ("right_boundary", _u32), ("left_boundary", _u32)]


class _Character(ctypes.Structure):
    _fields_ = [("exists", _u32), ("width", _i32), ("height", _i32), ("depth", _i32), ("italic", _i32),
                ("tag", _u32), ("remainder", _u32), ("top", _u8), ("middle", _u8), ("bottom", _u8),
                ("repeated", _u8)]


class _Pair(ctypes.Structure):
    _fields_ = [("left", _u32), ("right", _u32), ("action", _u32), ("kern", _i32), ("code", _u32),
                ("keep_left", _u32), ("keep_right", _u32), ("passed", _u32)]


class _Options(ctypes.Structure):
    _fields_ = [("call_limit", _u64), ("size", _u32), ("limit", _u32), ("policy", _u32), ("crlf", _u32)]


class _Form(ctypes.Structure):
    _fields_ = [("source", _u64), ("first", _u64), ("version", _u32)]


class _Line(ctypes.Structure):
    _fields_ = [("width", ctypes.c_int64), ("first", _size_t), ("count", _size_t), ("place", _size_t),
                ("steps", _u32), ("refusal", _u32), ("code", _u32)]


class _Counts(ctypes.Structure):
    _fields_ = [("lines", _size_t), ("items", _size_t)]


class _Span(ctypes.Structure):
    _fields_ = [("offset", _size_t), ("length", _size_t), ("edges", _u32), ("hyphen", _u32)]


class _Placed(ctypes.Structure):
    _fields_ = [("offset", _size_t), ("length", _size_t), ("kind", _u32), ("code", _u32), ("width", _i32)]


# The number in this name changes when the layout of a struct or the arguments of a function change.
_SONAME = "libtfmset.so.0"


def _path() -> str:
    """Returns the path of the library, or its bare name, for which the dynamic linker searches."""
    if os.environ.get("TFMSET_LIBRARY"):
        return os.environ["TFMSET_LIBRARY"]
    directory = os.path.dirname(os.path.abspath(__file__))
    candidates = [os.path.join(directory, "libtfmset.so")]
    modules = os.path.dirname(directory)
    if os.path.basename(modules) in ("site-packages", "dist-packages"):
        # The modules are in PREFIX/lib/pythonX.Y/site-packages.
        prefix = os.path.dirname(os.path.dirname(os.path.dirname(modules)))
        candidates.append(os.path.join(prefix, "lib", _SONAME))
    return next((path for path in candidates if os.path.exists(path)), _SONAME)


def _load() -> ctypes.CDLL:
    """Loads the library and declares the types of its functions."""
    text, out, array = [ctypes.c_char_p, _size_t], [ctypes.c_void_p], [ctypes.c_void_p, _size_t]
    sized, call = text + [_u32], text + out
    functions = {
        "version": [],
        "size": text + out,
        "encode": text + text + array + array + array + out,
        "check": text + out,
        "fault_text": text + array + out,
        "font": sized + out,
        "characters": sized + array + out,
        "parameters": sized + array + out,
        "pairs": sized + array + out,
        "header_text": sized + array + out,
        "set": call + text + array + array + out,
        "widths": call + text + array + out,
        "records": call + text + text + out + array + out,
        "refusal_text": out + array + out,
        "prepare": sized + array + out,
        "spans": call + text + array + array + out,
        "span_items": call + text + array + array + array + out,
    }
    path = _path()
    try:
        library = ctypes.CDLL(path)
    except OSError as error:
        if path == _SONAME:
            raise ImportError("libtfmset.so was not found: install it with scripts/library, copy it to the "
                              "directory of the module, or set the environment variable TFMSET_LIBRARY to "
                              f"its path ({error})") from error
        raise ImportError(f"{path} can't be loaded: {error}") from error
    try:
        for name, types in functions.items():
            function = getattr(library, "tfmset_" + name)
            function.argtypes, function.restype = types, _u32
    except AttributeError as error:
        raise ImportError(f"{path} isn't libtfmset, or is an older version of it: {error}") from error
    found = _version(library)
    if found[:2] != tuple(map(int, __version__.split(".")))[:2]:
        raise ImportError(f"{path} has version {'.'.join(map(str, found))}, but the module has {__version__}")
    return library


def _version(library: ctypes.CDLL) -> Tuple[int, int, int]:
    number = library.tfmset_version()
    return number // 1_000_000, number // 1000 % 1000, number % 1000


_library = _load()
