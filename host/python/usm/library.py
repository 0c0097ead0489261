"""The shared library, and how its calls are made."""

from __future__ import annotations

import ctypes
import functools
import os
import pathlib
from typing import Any, List, Tuple

from .refusal import Refusal

NAME = "libusm.so.0"
_BYTES, _LENGTH = ctypes.c_char_p, ctypes.c_size_t


def _places() -> List[str]:
    """Where the library may stand: where USM_LIBRARY says, or beside the installed package, or on the system."""
    named = os.environ.get("USM_LIBRARY")
    if named:
        return [named]
    # PREFIX/lib/python3/dist-packages/usm/library.py
    above = list(pathlib.Path(__file__).resolve().parents)
    return [str(folder / NAME) for folder in above[3:4]] + [NAME]


@functools.lru_cache(maxsize=None)
def library() -> ctypes.CDLL:
    """The library, loaded once."""
    reasons = []
    for place in _places():
        try:
            return ctypes.CDLL(place)
        except OSError as error:
            reasons.append(str(error))
    raise ImportError(
        f"{NAME} was not found: host/install puts it below a prefix, and USM_LIBRARY names another place "
        f"({'; '.join(reasons)})"
    )


class Lent:
    """A buffer that is lent for writing, of so many entries of a type of C."""

    def __init__(self, kind: Any, entries: int) -> None:
        self.entries = (kind * entries)()

    def first(self, count: int) -> list:
        return self.entries[:count]

    def bytes(self, count: int) -> bytes:
        return ctypes.string_at(self.entries, count)


def words(*parts: Any) -> List[Any]:
    """The words of a call: a slice passes as pointer and length, a number as 64 bits."""
    passed: List[Any] = []
    for part in parts:
        if isinstance(part, bytes):
            passed += [_BYTES(part), _LENGTH(len(part))]
        elif isinstance(part, Lent):
            passed += [part.entries, _LENGTH(len(part.entries))]
        else:
            passed.append(ctypes.c_uint64(_number(part)))
    return passed


def _number(value: int) -> int:
    # ctypes would cut off what 64 bits do not hold.
    if not 0 <= value < 1 << 64:
        raise ValueError(f"{value} is not a number from 0 to 2^64 - 1")
    return value


def call(name: str, *parts: Any, behind: Tuple[Any, ...] = ()) -> Tuple[int, int, int]:
    """Makes a call that answers in four words, and gives the three behind the 0; a refusal is raised.

    `behind` is passed as it is, between the slices and the answer.
    """
    answer = (ctypes.c_uint64 * 4)()
    function = getattr(library(), name)
    function.restype = ctypes.c_uint64
    number = function(*words(*parts), *behind, answer)
    _, first, second, third = answer
    if number:
        raise Refusal(number, first, second)
    return first, second, third


def printed(name: str, file: bytes, most: int) -> str:
    """What one of the two calls prints that answer a text."""
    text = (ctypes.c_uint8 * most)()
    function = getattr(library(), name)
    function.restype = ctypes.c_size_t
    length = function(*words(file), text)
    return ctypes.string_at(text, length).decode("ascii")
