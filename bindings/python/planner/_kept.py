"""What is kept in lent bytes from call to call: a store of exchange tables, a desk for eight halls. Each is used by one
thread at a time."""

from typing import List, NamedTuple, Optional, Sequence

from ._calls import NODE_LIMIT, Ending
from ._library import Lent, ask, room_for, written

#: A store's size, and that of a table, which is never longer.
STORE_BYTES = 32_832
TABLE_BYTES = 2_048
#: A desk's size, its seats, numbered from 0, and the plans that a seat's list has room for.
DESK_BYTES = 839_065
SEATS = 8
SEAT_PLANS = 4_096

#: The kinds of a turn that served nobody, and of a seat whose run goes on; else a seat's kind is its ending.
_NONE = 0
_RUNNING = 4


class _Kept:
    """So many lent bytes, at first 0; any bytes will do."""

    def __init__(self, size: int, start: Optional[Lent]) -> None:
        self._bytes = room_for(size)
        if start is not None:
            if len(start) != size:
                raise ValueError(f"{len(start)} bytes, not {size}")
            self._bytes[:] = bytes(start)

    def __bytes__(self) -> bytes:
        return self._bytes.raw


class Store(_Kept):
    """Tables of exchanges by course (0 to 3) and hall (0 to 255), four halls a course. What a course gets back depends
    only on its own calls. A refusal changes nothing."""

    def __init__(self, start: Optional[Lent] = None) -> None:
        super().__init__(STORE_BYTES, start)

    def put(self, course: int, hall: int, table: Lent) -> None:
        """Puts a table in place of the one there."""
        ask("store_put", self._bytes, course, hall, table)

    def fetch(self, course: int, hall: int, room: int = TABLE_BYTES) -> bytes:
        """A table."""
        return written("store_fetch", self._bytes, course, hall, room=room)

    def drop(self, course: int, hall: int) -> None:
        """Drops a table; its room is used again."""
        ask("store_drop", self._bytes, course, hall)


class Standing(NamedTuple):
    """How a seat stands: its run's ending, if it has ended, its plans and its trials so far."""

    seat: int
    ending: Optional[Ending]
    plans: int
    nodes: int


class Look(NamedTuple):
    """How a seat stands, and its trials by the window that each settles."""

    standing: Standing
    counts: List[int]


class Rounds(NamedTuple):
    """What rounds of turns did: the seats whose run ended in them, and those whose run goes on."""

    ended: List[int]
    going_on: List[int]


def _standing(answer: Sequence[int]) -> Standing:
    """What four numbers say of a seat."""
    kind, seat, plans, nodes = answer
    return Standing(seat, None if kind == _RUNNING else Ending(kind), plans, nodes)


class Desk(_Kept):
    """Eight seats. Each holds a copy of a hall's sheet, its node limit, a list with room for SEAT_PLANS plans and the run
    so far. When a run ends, its list, ending, figures and counts are those of `run_lent` with the same node limit and that
    room. A refusal changes nothing."""

    def __init__(self, start: Optional[Lent] = None) -> None:
        super().__init__(DESK_BYTES, start)

    def sit(self, sheet: Lent, node_limit: int = NODE_LIMIT) -> int:
        """Seats a newcomer at the lowest free seat: its number."""
        return ask("desk_sit", self._bytes, sheet, node_limit)[1]

    def turn(self) -> Optional[Standing]:
        """A turn of 64 trials for the next seat whose run hasn't ended: how it stands then, or None if there is none."""
        answer = ask("desk_turn", self._bytes, numbers=4)
        return None if answer[0] == _NONE else _standing(answer)

    def rounds(self, rounds: int) -> Rounds:
        """Gives each seat whose run hasn't ended up to so many turns."""
        _, ended, going_on = ask("desk_rounds", self._bytes, rounds)
        return Rounds(*([seat for seat in range(SEATS) if bits >> seat & 1] for bits in (ended, going_on)))

    def look(self, seat: int) -> Look:
        """How a seat stands, with its trials by window."""
        answer = ask("desk_look", self._bytes, seat, numbers=16)
        return Look(_standing(answer[:4]), list(answer[4:]))

    def leave(self, seat: int, room: int = 12 * SEAT_PLANS) -> bytes:
        """Frees a seat: the rows of the plans listed so far; `plans_of` parts them."""
        return written("desk_leave", self._bytes, seat, room=room)
