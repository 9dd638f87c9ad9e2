"""Calls about sheets, runs and lists, in the words of planner.h."""

from enum import Enum
from typing import Iterator, List, NamedTuple, Optional, Sequence, Tuple

from ._library import Lent, Refusal, ask, call, refuse, room_for, written
from ._words import REFUSALS

#: A stack that is enough for every call; `threading.stack_size` sets that of threads, if the system gives less.
STACK_BYTES = 393_216
#: In the filter's lists: no value here.
ABSENT = 255
#: The trials that a run may make, and the plans that it has room for, where nothing else is said.
NODE_LIMIT = 1_000_000
ROOM = 4_096

_REPORT_ROOM = 217_160
_MOST_WINDOWS = 12
_SMALL_SHEET_BYTES = 52

#: A plan: the number of each window's duty.
Plan = Tuple[int, ...]


class Ending(Enum):
    """How a run ended."""

    FINISHED = 1
    """Nothing is left to try: the list is complete."""
    SPENT = 2
    """A further trial is due, and the node limit is reached."""
    FULL = 3
    """The last trial found a plan that the list has no room for."""


class FilterEnding(Enum):
    """How the filter ended."""

    CONSISTENT = 0
    """Some assignments from the sets left obey the nogoods, and some don't."""
    ENTAILED = 1
    """Every assignment from the sets left obeys them all, and there is one."""
    FAILED = 2
    """No assignment from the lent sets obeys them: every set is empty now."""


class Said(Enum):
    """The answer to whether there are so many plans."""

    YES = 1
    NO = 2
    SPENT = 3


class Run(NamedTuple):
    """What a run answers: its ending, the plans listed and the trials made."""

    ending: Ending
    plans: List[Plan]
    nodes: int


class LentRun(NamedTuple):
    """The same, with the trials that settle each window, by its number."""

    ending: Ending
    plans: List[Plan]
    nodes: int
    counts: Sequence[int]


class Enough(NamedTuple):
    """Whether there are as many plans as asked for, with the plans found and the trials made."""

    said: Said
    plans: int
    nodes: int


class Closed(NamedTuple):
    """Whether exchanges are closed; else the first two that one after the other make one that is missing."""

    missing: Optional[Tuple[int, int]]

    def __bool__(self) -> bool:
        return self.missing is None


def version() -> Tuple[int, int, int]:
    """The library's version: major, minor, patch."""
    number = call("version")
    return number >> 16, number >> 8 & 255, number & 255


def words(number: int) -> str:
    """What the question with a number asks: a refusal with that number says that it isn't so."""
    return REFUSALS[number][1]


def item_words(number: int) -> str:
    """What the item of a refusal with a number is: a window, a rule, an exchange, an entry, or "" where it is 0."""
    return REFUSALS[number][0]


def plans_of(rows: Lent, places: int) -> List[Plan]:
    """The rows of some bytes."""
    return [tuple(rows[at : at + places]) for at in range(0, len(rows), places)]


def question(sheet: Lent) -> None:
    """Puts questions 1 to 16 to a sheet; raises its refusal."""
    refuse(call("question", sheet))


def filter(
    sets: Sequence[int], index: Lent, equal: Lent, not_equal: Lent
) -> Tuple[FilterEnding, List[int]]:
    """Filters sets of values (bit v for value v) by nogoods in three lists of one length, as planner.h has it: how it
    ended, and the sets left."""
    room = room_for(2 * len(sets))
    room[:] = b"".join(value.to_bytes(2, "little") for value in sets)
    code = call("filter", room, index, equal, not_equal)
    if code > 2:
        refuse(code)
    left = room.raw
    return FilterEnding(code), [int.from_bytes(left[at : at + 2], "little") for at in range(0, len(left), 2)]


def windows(sheet: Lent) -> int:
    """The windows that a sheet states, if it can be accepted."""
    return max(1, min(int.from_bytes(bytes(sheet[:2]), "little"), _MOST_WINDOWS))


def run(sheet: Lent, node_limit: int = NODE_LIMIT, room: int = ROOM) -> Run:
    """Lists the sheet's plans, with at most `node_limit` trials and room for so many plans."""
    n = windows(sheet)
    rows = room_for(n * room)
    kind, plans, nodes = ask("run", sheet, node_limit, rows)
    return Run(Ending(kind), plans_of(rows.raw[: n * plans], n), nodes)


def question_lent(sheet: Lent, pairs: Lent = b"", block: Lent = b"") -> None:
    """Puts all questions of a run that is lent pairs, "this window before that window", two bytes each, and a block of
    alike windows, the first and how many; raises the refusal."""
    refuse(call("question_lent", sheet, pairs, block))


def run_lent(
    sheet: Lent, pairs: Lent = b"", block: Lent = b"", node_limit: int = NODE_LIMIT, room: int = ROOM
) -> LentRun:
    """As `run`, with the windows settled, and the plans read, in the order of the pairs."""
    n = windows(sheet)
    rows = room_for(n * room)
    kind, plans, nodes, *counts = ask("run_lent", sheet, pairs, block, node_limit, rows, numbers=15)
    return LentRun(Ending(kind), plans_of(rows.raw[: n * plans], n), nodes, counts)


def at_least(
    sheet: Lent, plans: int, pairs: Lent = b"", block: Lent = b"", node_limit: int = NODE_LIMIT
) -> Enough:
    """Are there at least so many plans? It stops at the plan that answers it."""
    kind, found, nodes = ask("at_least", sheet, pairs, block, plans, node_limit)
    return Enough(Said(kind), found, nodes)


def families(
    sheet: Lent, pairs: Lent = b"", block: Lent = b"", node_limit: int = NODE_LIMIT
) -> Optional[int]:
    """The number of families of solutions, or None where one of its two runs isn't finished."""
    kind, count, _ = ask("families", sheet, pairs, block, node_limit)
    return count if kind == 1 else None


def closed(sheet: Lent, pairs: Lent = b"", block: Lent = b"") -> Closed:
    """Are the exchanges closed?"""
    kind, first, second = ask("closed", sheet, pairs, block)
    return Closed(None if kind == 1 else (first, second))


def report(sheet: Lent) -> str:
    """What the lister prints for this standard input."""
    return written("report", sheet, room=_REPORT_ROOM).decode("ascii")


def columns(places: int, rows: Lent, room: Optional[int] = None) -> bytes:
    """Rows of `places` values as columns behind a header of 8 bytes."""
    return written("columns", places, rows, room=8 + len(rows) if room is None else room)


def rows(store: Lent, room: Optional[int] = None) -> bytes:
    """Such columns back as rows."""
    return written("rows", store, room=len(store) if room is None else room)


def merge(places: int, first: Lent, second: Lent, pairs: Lent = b"", room: Optional[int] = None) -> bytes:
    """The rows of either list, ascending in the settling order of the pairs, each once."""
    both = len(first) + len(second)
    return written("merge", places, pairs, first, second, room=both if room is None else room)


def small_sheet(position: int, room: int = _SMALL_SHEET_BYTES) -> bytes:
    """The small sheet at a position, from 0."""
    return written("small_sheet", position, room=room)


def small_sheets() -> Iterator[bytes]:
    """All small sheets, in the order of their positions."""
    position = 0
    while True:
        try:
            sheet = small_sheet(position)
        except Refusal:
            return
        yield sheet
        position += 1
