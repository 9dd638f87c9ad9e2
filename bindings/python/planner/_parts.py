"""A run in parts: the trials of one tree between two paths, run apart and joined. A path is any bytes: the values of
windows in the settling order; START is before the first trial, END after the last."""

from typing import List, NamedTuple, Sequence, Union

from ._calls import NODE_LIMIT, ROOM, Ending, Plan, plans_of, windows
from ._library import Lent, call, refuse, room_for

#: The paths before the first trial and after the last.
START = b""
END = b"\xff"
#: The bytes of a head, and of what `join` answers.
PART_BYTES = 115
JOIN_BYTES = 152


class Part(NamedTuple):
    """A part of a run: how it ended, its plans, its trials, those that settle each of twelve windows, the last trial made
    (a spent part is gone on with from there), and its head, as `join` takes it."""

    ending: Ending
    plans: List[Plan]
    nodes: int
    counts: List[int]
    last: bytes
    head: bytes


class Joined(NamedTuple):
    """The figures of the whole run."""

    plans: int
    nodes: int
    counts: List[int]


class Missing(NamedTuple):
    """The first range that no head covers: to be run, and joined with the others."""

    start: bytes
    upto: bytes


def _numbers(answer: bytes, size: int, start: int, many: int) -> List[int]:
    return [int.from_bytes(answer[at : at + size], "little") for at in range(start, start + size * many, size)]


def _path(thirteen: bytes) -> bytes:
    return thirteen[1 : 1 + thirteen[0]]


def run_part(
    sheet: Lent,
    start: Lent,
    upto: Lent,
    pairs: Lent = b"",
    block: Lent = b"",
    node_limit: int = NODE_LIMIT,
    room: int = ROOM,
) -> Part:
    """As `run_lent`, for exactly the trials that come after the path `start` and not after `upto`."""
    n = windows(sheet)
    rows, answer = room_for(n * room), room_for(PART_BYTES)
    refuse(call("run_part", sheet, pairs, block, start, upto, node_limit, rows, answer))
    head = answer.raw
    kind, plans, nodes, *counts = _numbers(head, 4, 0, 15)
    return Part(Ending(kind), plans_of(rows.raw[: n * plans], n), nodes, counts, _path(head[102:]), head)


def join(heads: Sequence[Lent]) -> Union[Joined, Missing]:
    """The figures of the run whose parts have these heads, in any order, or the first range that is missing."""
    answer = room_for(JOIN_BYTES)
    refuse(call("join", b"".join(bytes(head) for head in heads), answer))
    whole = answer.raw
    if whole[0] != 1:
        return Missing(_path(whole[120:]), _path(whole[133:]))
    plans, nodes, *counts = _numbers(whole, 8, 8, 14)
    return Joined(plans, nodes, counts)
