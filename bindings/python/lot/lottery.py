"""The lottery by itself, without a kernel."""

import threading
from ctypes import byref, c_uint32, c_uint64
from typing import Iterator, Optional, Sequence, Tuple, Type

from .library import Generator, RawDrawn, Wide, calls, must
from .numbers import Status
from .ranges import NARROW, WIDE, WIDEST, checked
from .records import Drawn


class ParkMiller:
    """The generator of Park and Miller, which is also an endless iterator over its numbers.

    Its values are 1 to 2147483646. Each is 16807 times the one before, modulo 2147483647. Threads may share a
    generator. A copy of a generator goes on by itself, from the same value; so does an unpickled one.

    Raises `LotError` with `Status.BAD_SEED` for a seed that is 0 or above 2147483646.

    >>> numbers = ParkMiller(1)
    >>> next(numbers)
    36090892629924
    >>> ParkMiller(1).next_value()
    16807
    """

    def __init__(self, seed: int) -> None:
        self._lock = threading.Lock()
        self._generator = Generator()
        must(calls.lot_generator_new(checked(seed, NARROW, "seed"), byref(self._generator)))

    def __iter__(self) -> Iterator[int]:
        return self

    def __next__(self) -> int:
        return self.number()

    def __repr__(self) -> str:
        return f"ParkMiller({self._generator.value})"

    def __reduce__(self) -> "Tuple[Type[ParkMiller], Tuple[int]]":
        with self._lock:
            return type(self), (self._generator.value,)

    def next_value(self) -> int:
        """The next value, 1 to 2147483646."""
        value = c_uint32()
        with self._lock:
            must(calls.lot_generator_next(byref(self._generator), byref(value)))
        return value.value

    def number(self) -> int:
        """The number drawn from the next two values, 0 to 4611686009837453315."""
        number = c_uint64()
        with self._lock:
            must(calls.lot_generator_number(byref(self._generator), byref(number)))
        return number.value

    def wide_number(self) -> int:
        """The wide number drawn from the next four values, below 2 ** 124."""
        number = Wide()
        with self._lock:
            must(calls.lot_generator_wide_number(byref(self._generator), byref(number)))
        return number.plain()


def weight(value: int, compensation: int, quantum: int) -> int:
    """The weight of a thread with this value, below 2 ** 64, in a draw.

    The compensation is the ticks of its quantum that the thread had used when it yielded, blocked or went to sleep
    before the quantum's end, or the sum of the quantum and the ticks by which it ended late, or 0 for none. With one
    the weight is value * quantum / compensation, rounded down, but at least 1 if the value is; otherwise it is the
    value.

    >>> weight(400, 20, 100), weight(400, 0, 100), weight(400, 160, 100), weight(1, 200, 100)
    (2000, 400, 250, 1)
    """
    answer = Wide()
    value = checked(value, WIDE, "value")
    compensation, quantum = checked(compensation, NARROW, "compensation"), checked(quantum, NARROW, "quantum")
    calls.lot_weight(value, compensation, quantum, byref(answer))
    return answer.plain()


def winner(weights: Sequence[int], number: int) -> Optional[Drawn]:
    """Holds a lottery over the weights with this number, any 128 bits. Returns `None` if the weights sum to 0.

    The winner is the first whose running sum is greater than the number modulo the total. Raises `LotError` with
    `Status.TOO_LARGE` if the weights sum to 2 ** 128 or more.

    >>> winner([10, 2, 5, 1, 2], 35)
    Drawn(place=2, number=15, total=20)
    """
    number_given, drawn = Wide(), RawDrawn()
    number_given.set(checked(number, WIDEST, "number"))
    raw = (Wide * len(weights))()
    for one, given in zip(raw, weights):
        one.set(checked(given, WIDEST, "weight"))
    status = calls.lot_winner(raw, len(raw), byref(number_given), byref(drawn))
    if status == Status.NO_WINNER:
        return None
    must(status)
    return drawn.plain()
