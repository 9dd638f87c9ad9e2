"""The shared library, its functions' types, and calls with answers in lent bytes."""

import ctypes
import os
from typing import Any, Dict, List, Sequence, Tuple, Union

from ._words import REFUSALS

__version__ = "1.0.0"

#: Lent bytes that are only read.
Lent = Union[bytes, bytearray, memoryview]

_IN = (ctypes.c_char_p, ctypes.c_size_t)
_U32 = (ctypes.c_uint32,)
_HALL = (ctypes.c_uint8,)
_LENT_RUN = _IN * 3

_ARGUMENTS: Dict[str, Tuple[Any, ...]] = {
    "version": (),
    "question": _IN,
    "filter": _IN * 4,
    "run": _IN + _U32 + _IN * 2,
    "question_lent": _LENT_RUN,
    "run_lent": _LENT_RUN + _U32 + _IN * 2,
    "run_part": _LENT_RUN + _IN * 2 + _U32 + _IN * 2,
    "join": _IN * 2,
    "at_least": _LENT_RUN + _U32 * 2 + _IN,
    "families": _LENT_RUN + _U32 + _IN,
    "closed": _LENT_RUN + _IN,
    "report": _IN * 3,
    "columns": _U32 + _IN * 3,
    "rows": _IN * 3,
    "merge": _U32 + _IN * 5,
    "store_put": _IN + _U32 + _HALL + _IN * 2,
    "store_fetch": _IN + _U32 + _HALL + _IN * 2,
    "store_drop": _IN + _U32 + _HALL + _IN,
    "desk_sit": _IN * 2 + _U32 + _IN,
    "desk_turn": _IN * 2,
    "desk_rounds": _IN + _U32 + _IN,
    "desk_look": _IN + _U32 + _IN,
    "desk_leave": _IN + _U32 + _IN * 2,
    "small_sheet": _U32 + _IN * 2,
}


class Refusal(Exception):
    """The first question answered "no", and the window, rule, exchange or entry that it speaks of."""

    __module__ = "planner"

    def __init__(self, number: int, item: int) -> None:
        super().__init__(number, item)
        self.number = number
        self.item = item

    @property
    def words(self) -> str:
        """What was asked and isn't so."""
        return REFUSALS[self.number][1]

    def __str__(self) -> str:
        return f"refused {self.number} {self.item}: {self.words}"


def _load() -> ctypes.CDLL:
    """The library that PLANNER_SO names, else the one that the system's loader finds."""
    major = __version__.split(".")[0]
    library = ctypes.CDLL(os.environ.get("PLANNER_SO", f"libplanner.so.{major}"))
    for name, arguments in _ARGUMENTS.items():
        function = getattr(library, "planner_" + name)
        function.argtypes = arguments
        function.restype = ctypes.c_uint32
    return library


_library = _load()


def room_for(size: int) -> "ctypes.Array[ctypes.c_char]":
    """A buffer to be written to."""
    return ctypes.create_string_buffer(size) if size else (ctypes.c_char * 0)()


def _word(value: int, kind: Any) -> int:
    """A number that a parameter of this kind holds."""
    most = 2 ** (8 * ctypes.sizeof(kind)) - 1
    if not 0 <= value <= most:
        raise ValueError(f"{value} isn't from 0 to {most}")
    return value


def call(name: str, *given: Any) -> int:
    """Calls a function on numbers and buffers, each of which is lent with its length."""
    kinds = iter(_ARGUMENTS[name])
    arguments: List[Any] = []
    for value in given:
        kind = next(kinds)
        if kind is ctypes.c_char_p:
            next(kinds)
            lent = value if isinstance(value, ctypes.Array) else bytes(value)
            arguments += [lent, len(lent)]
        else:
            arguments.append(_word(value, kind))
    result: int = getattr(_library, "planner_" + name)(*arguments)
    return result


def ask(name: str, *given: Any, numbers: int = 3) -> Sequence[int]:
    """The same for a function whose last buffer is an answer of 32-bit numbers: these, or the refusal."""
    answer = room_for(4 * numbers)
    refuse(call(name, *given, answer))
    return [int.from_bytes(answer.raw[4 * i : 4 * i + 4], "little") for i in range(numbers)]


def written(name: str, *given: Any, room: int) -> bytes:
    """The same for a function that writes to the front of a room, lent before the answer: what it wrote."""
    out = room_for(room)
    length = ask(name, *given, out)[1]
    return out.raw[:length]


def refuse(code: int) -> None:
    """Raises a refusal, given as number * 256 + item."""
    if code != 0:
        raise Refusal(code >> 8, code & 255)
