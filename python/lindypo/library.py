"""The shared library: where it is looked for, and its calls.

It is loaded when it is first needed, from the first of these that is there:

- the file that the environment variable LINDYPO_LIB names, and then no other;
- `liblindypo.so.0` in the folder of this module, or two folders above it, which is
  where `./install` puts it;
- `liblindypo.so.0` where the system looks for libraries.
"""

import ctypes
import os
from functools import lru_cache
from pathlib import Path

from .constants import VERSION

SONAME = "liblindypo.so." + VERSION.split(".")[0]


class LibraryError(ImportError):
    """There is no library, or none that this module can use."""


class Reply(ctypes.Structure):
    """What a call answers: `lindypo_reply`."""

    _fields_ = [(name, ctypes.c_uint64) for name in ("refusal", "place", "count", "order")]


class Part(ctypes.Structure):
    """A part of a text: `lindypo_part`."""

    _fields_ = [(name, ctypes.c_uint64) for name in ("start", "length")]


class Printed(ctypes.Structure):
    """What the print answers: `lindypo_printed`."""

    _fields_ = [(name, ctypes.c_uint64) for name in ("refusal", "place", "length")]


_TEXT = [ctypes.c_char_p, ctypes.c_size_t]
_CELLS = [ctypes.POINTER(ctypes.c_int64), ctypes.c_size_t]

# what each call gives, and what it takes
_CALLS = {
    "lindypo_read": (Reply, _TEXT + _CELLS),
    "lindypo_name": (Part, _TEXT + _CELLS + [ctypes.c_int64]),
    "lindypo_plan": (Reply, _TEXT + _CELLS + _CELLS),
    "lindypo_run": (Reply, _TEXT + _CELLS + _CELLS + _CELLS),
    "lindypo_follow": (Reply, _TEXT + _CELLS + _CELLS + _CELLS),
    "lindypo_retouch": (Reply, _TEXT + _CELLS + _CELLS + _CELLS + _CELLS + _CELLS),
    "lindypo_print": (Printed, _TEXT + [ctypes.c_char_p, ctypes.c_size_t]),
    "lindypo_tie_rule": (ctypes.c_int64, _TEXT),
    "lindypo_find": (ctypes.c_int64, _TEXT + _CELLS + [ctypes.c_char_p]),
    "lindypo_refusal_words": (ctypes.c_char_p, [ctypes.c_uint64]),
    "lindypo_state_words": (ctypes.c_char_p, [ctypes.c_int64]),
    "lindypo_version": (ctypes.c_char_p, []),
}


def cells(numbers):
    """The two arguments that lend cells: so many zeros, or these numbers."""
    if isinstance(numbers, int):
        return (ctypes.c_int64 * max(numbers, 1))(), numbers
    numbers = list(numbers)
    return (ctypes.c_int64 * max(len(numbers), 1))(*numbers), len(numbers)


@lru_cache(maxsize=None)
def library():
    """The library, loaded once."""
    loaded = _load()
    for name, (result, arguments) in _CALLS.items():
        call = _call(loaded, name)
        call.restype, call.argtypes = result, arguments
    version = loaded.lindypo_version().decode()
    if _series(version) != _series(VERSION):
        raise LibraryError(
            f"{loaded._name} is version {version}, and this module is for {_series(VERSION)}; "
            "./install PREFIX installs both together"
        )
    return loaded


def _load():
    named = os.environ.get("LINDYPO_LIB")
    if named:
        return _open(named, f"LINDYPO_LIB names {named}, which cannot be loaded")
    folder = Path(__file__).resolve().parent
    beside = [folder / SONAME, folder.parent.parent / SONAME]
    for file in beside:
        if file.exists():
            return _open(str(file), f"{file} cannot be loaded")
    places = " nor ".join(str(file) for file in beside)
    return _open(
        SONAME,
        f"{SONAME} was not found: LINDYPO_LIB is not set, there is neither {places}, and the "
        "system knows of none. ./install PREFIX puts it under PREFIX/lib and this module under "
        "PREFIX/lib/python3; or set LINDYPO_LIB to the file",
    )


def _open(name, trouble):
    try:
        return ctypes.CDLL(name)
    except OSError as error:
        raise LibraryError(f"{trouble} ({error})") from error


def _call(loaded, name):
    try:
        return getattr(loaded, name)
    except AttributeError:
        raise LibraryError(
            f"{loaded._name} has no {name}, so it is not the library that this module is for; "
            "./install PREFIX installs both together"
        ) from None


def _series(version):
    return ".".join(version.split(".")[:2])
