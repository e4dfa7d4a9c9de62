"""Checks of arguments. ctypes would keep the lowest bits of a number that is out of its range."""

import operator
from typing import SupportsIndex

NARROW = 1 << 32  # the bound of fields of 32 bits
WIDE = 1 << 64
WIDEST = 1 << 128


def checked(number: SupportsIndex, end: int, name: str) -> int:
    """Returns the number, if it is 0 or more and below the end.

    It converts integers of other types, such as numpy's. Raises `TypeError` for a bool or a value that is no integer,
    and `OverflowError` for a number out of the range.

    >>> checked(5, NARROW, "ticks")
    5
    >>> checked(-1, NARROW, "ticks")
    Traceback (most recent call last):
    OverflowError: ticks is 0 to 4294967295, and -1 was given
    >>> checked(True, NARROW, "ticks")
    Traceback (most recent call last):
    TypeError: ticks is an int, and True was given
    """
    if isinstance(number, bool) or not hasattr(number, "__index__"):
        raise TypeError(f"{name} is an int, and {number!r} was given")
    plain = operator.index(number)
    if not 0 <= plain < end:
        raise OverflowError(f"{name} is 0 to {end - 1}, and {plain} was given")
    return plain


def checked_text(text: str, name: str) -> str:
    """Returns the text. Raises `TypeError` for a value that is no `str`."""
    if not isinstance(text, str):
        raise TypeError(f"{name} is a str, and {text!r} was given")
    return text
