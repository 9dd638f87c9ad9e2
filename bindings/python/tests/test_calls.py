"""Every call on sheets whose answers are known, its refusals, and what Python alone can get wrong."""

import pathlib
import re
import struct
import threading
import unittest

import planner
from planner import Ending, FilterEnding, Refusal, Said, _kept, _library

HEADER = pathlib.Path(__file__).resolve().parents[2] / "c" / "planner.h"


def sheet_of(*words: int) -> bytes:
    return struct.pack(f"<{len(words)}H", *words)


RULE = (2, 6, 0, 1, 0, 1, 0, 2, 1, 0, 1, 2, 2, 0, 2, 1)
SHEET_A = sheet_of(2, 3, 1, 1, 16, 20, 52, 64, 7, 7, *RULE, 3, 4, 5, 0, 1, 2)
BARE_A = sheet_of(2, 3, 1, 0, 16, 20, 52, 52, 7, 7, *RULE)
ROTATION = sheet_of(3, 2, 0, 1, 16, 22, 22, 34, 3, 3, 3, 2, 3, 4, 5, 0, 1)
PLANS_A = [(0, 1), (0, 2), (1, 2)]


class Interface(unittest.TestCase):
    """What planner.h has is here, with the same numbers."""

    def setUp(self) -> None:
        self.header = HEADER.read_text()
        lines = re.findall(r"^#define PLANNER_(\w+) (\d+)\b", self.header, re.MULTILINE)
        self.numbers = {name: int(number) for name, number in lines}

    def test_functions(self) -> None:
        declared = re.findall(r"^(?:uint32_t|size_t) planner_(\w+)\(", self.header, re.MULTILINE)
        self.assertEqual(set(declared), set(_library._ARGUMENTS))

    def test_constants(self) -> None:
        for name in "ABSENT DESK_BYTES JOIN_BYTES PART_BYTES SEATS SEAT_PLANS STACK_BYTES STORE_BYTES TABLE_BYTES".split():
            self.assertEqual(getattr(planner, name), self.numbers[name], name)

    def test_kinds(self) -> None:
        for ending in Ending:
            self.assertEqual(ending.value, self.numbers[ending.name])
        self.assertEqual((_kept._NONE, _kept._RUNNING), (self.numbers["NONE"], self.numbers["RUNNING"]))
        self.assertEqual([said.value for said in Said], [self.numbers[name] for name in ("YES", "NO", "UNKNOWN")])
        names = ("CONSISTENT", "ENTAILED", "FILTER_FAILED")
        self.assertEqual([ending.value for ending in FilterEnding], [self.numbers[name] for name in names])


class Calls(unittest.TestCase):
    def refused(self, number: int, call, *given, item: int = 0, **named) -> Refusal:
        with self.assertRaises(Refusal) as caught:
            call(*given, **named)
        self.assertEqual((caught.exception.number, caught.exception.item), (number, item))
        return caught.exception

    def test_version(self) -> None:
        self.assertEqual(".".join(map(str, planner.version())), planner.__version__)

    def test_words(self) -> None:
        for number in [*range(1, 45), 255]:
            self.assertGreater(len(planner.words(number)), 10)
        self.assertEqual((planner.item_words(13), planner.item_words(7)), ("rule", ""))
        refusal = self.refused(1, planner.question, b"")
        self.assertEqual(str(refusal), "refused 1 0: the sheet has at least 16 bytes")

    def test_parts(self) -> None:
        whole = planner.run_part(SHEET_A, planner.START, planner.END)
        self.assertEqual((whole.plans, whole.nodes, whole.counts[:3]), (PLANS_A, 6, [3, 3, 0]))
        spent = planner.run_part(SHEET_A, planner.START, planner.END, node_limit=4)
        self.assertEqual((spent.ending, spent.plans, spent.last), (Ending.SPENT, PLANS_A[:2], b"\x01"))
        rest = planner.run_part(SHEET_A, spent.last, planner.END)
        self.assertEqual(spent.plans + rest.plans, PLANS_A)
        self.assertEqual(planner.join([rest.head, spent.head]), planner.Joined(3, 6, whole.counts))
        self.assertEqual(planner.join([spent.head]), planner.Missing(b"\x01", planner.END))
        self.assertEqual(planner.join([]), planner.Missing(planner.START, planner.END))
        self.refused(41, planner.join, [whole.head[1:]])
        self.refused(43, planner.join, [whole.head, planner.run_part(BARE_A, b"", b"\xff").head])
        self.refused(44, planner.join, [planner.run_part(SHEET_A, b"", b"\xff", room=1).head])
        self.refused(1, planner.run_part, b"", planner.START, planner.END)

    def test_run(self) -> None:
        planner.question(SHEET_A)
        self.assertEqual(planner.run(SHEET_A), (Ending.FINISHED, PLANS_A, 6))
        self.assertEqual(planner.run(SHEET_A, node_limit=2), (Ending.SPENT, PLANS_A[:1], 2))
        self.assertEqual(planner.run(SHEET_A, room=2), (Ending.FULL, PLANS_A[:2], 5))
        self.assertEqual(planner.run(SHEET_A, room=0).ending, Ending.FULL)
        self.assertEqual(planner.run(bytearray(SHEET_A)), planner.run(memoryview(SHEET_A)))
        self.refused(6, planner.run, SHEET_A[:63])
        self.refused(1, planner.run, b"\x02")
        self.assertEqual(planner.report(SHEET_A), "plan 0 1\nplan 0 2\nplan 1 2\nfinished 3 6 3\n")
        self.assertEqual(planner.report(b""), "refused 1 0\n")

    def test_lent(self) -> None:
        lent = planner.run_lent(SHEET_A, bytes([1, 0]))
        self.assertEqual(lent.plans, [(1, 0), (2, 0), (2, 1)])
        self.assertEqual((lent.ending, lent.nodes, lent.counts), (Ending.FINISHED, 6, [3, 3] + [0] * 10))
        self.assertEqual(planner.run_lent(BARE_A, block=bytes([0, 2])).plans, PLANS_A)
        planner.question_lent(BARE_A, block=bytes([0, 2]))
        self.refused(28, planner.question_lent, SHEET_A, b"\0")
        self.refused(29, planner.question_lent, SHEET_A, bytes([1, 2]))
        self.refused(30, planner.run_lent, SHEET_A, bytes([1, 0, 0, 1]))
        self.refused(36, planner.question_lent, SHEET_A, block=bytes([0, 3]))

    def test_about_runs(self) -> None:
        self.assertEqual(planner.at_least(SHEET_A, 2), (Said.YES, 2, 3))
        self.assertEqual(planner.at_least(SHEET_A, 4), (Said.NO, 3, 6))
        self.assertEqual(planner.at_least(SHEET_A, 2, node_limit=2), (Said.SPENT, 1, 2))
        self.assertEqual([planner.families(SHEET_A, node_limit=limit) for limit in (9, 8)], [3, None])
        self.assertTrue(planner.closed(SHEET_A))
        self.assertEqual(planner.closed(ROTATION).missing, (0, 0))
        self.assertFalse(planner.closed(ROTATION))

    def test_filter(self) -> None:
        index = bytes([0, 1, 2, 3, 4, 2, 5, 0])
        equal = bytes([255, 1, 255, 1, 1, 255, 2, 255])
        not_equal = bytes([2, 255, 1, 255, 255, 2, 255, 1])
        for sets, ending, left in [
            ([6, 6, 6, 2, 2, 6], FilterEnding.ENTAILED, [2, 4, 6, 2, 2, 6]),
            ([6, 6, 6, 2, 6, 6], FilterEnding.CONSISTENT, [2, 6, 6, 2, 6, 6]),
            ([6, 2, 6, 2, 2, 6], FilterEnding.FAILED, [0] * 6),
        ]:
            self.assertEqual(planner.filter(sets, index, equal, not_equal), (ending, left))
        self.refused(17, planner.filter, [], b"", b"", b"")
        self.refused(18, planner.filter, [1], b"\0", b"", b"")
        self.refused(19, planner.filter, [1], b"\1", b"\0", b"\xff")

    def test_lists(self) -> None:
        rows = bytes([0, 1, 0, 2, 1, 2])
        store = planner.columns(2, rows)
        self.assertEqual(store, sheet_of(2, 3, 8, 14) + bytes([0, 0, 1, 1, 2, 2]))
        self.assertEqual(planner.rows(store), rows)
        self.assertEqual(planner.columns(1, b""), sheet_of(1, 0, 8, 8))
        self.refused(20, planner.columns, 0, rows)
        self.refused(21, planner.columns, 2, b"\x10\x00")
        self.refused(22, planner.columns, 2, rows, room=13)
        self.refused(23, planner.rows, store[1:])
        self.assertEqual(planner.merge(2, rows[:4], rows[2:]), rows)
        self.assertEqual(planner.merge(2, b"\1\0", b"\0\1", pairs=b"\1\0"), b"\1\0\0\1")
        self.refused(24, planner.merge, 2, b"\0", b"")
        self.refused(25, planner.merge, 1, b"\1\1", b"")
        self.refused(26, planner.merge, 1, b"", b"\1\1")
        self.refused(27, planner.merge, 1, b"\1", b"\2", room=1)

    def test_store(self) -> None:
        store = planner.Store()
        store.put(1, 200, b"table")
        self.assertEqual(store.fetch(1, 200), b"table")
        self.assertEqual(planner.Store(bytes(store)).fetch(1, 200), b"table")
        self.refused(31, store.put, 4, 0, b"")
        self.refused(33, store.put, 0, 0, bytes(2049))
        self.refused(34, store.fetch, 0, 200)
        self.refused(35, store.fetch, 1, 200, room=4)
        for hall in range(3):
            store.put(1, hall, b"")
        self.refused(32, store.put, 1, 3, b"")
        store.drop(1, 200)
        self.refused(34, store.drop, 1, 200)
        self.assertEqual(store.fetch(1, 2), b"")

    def test_desk(self) -> None:
        desk = planner.Desk()
        self.assertIsNone(desk.turn())
        free = sheet_of(2, 16, 0, 0, 16, 20, 20, 20, 0xFFFF, 0xFFFF)
        self.assertEqual([desk.sit(SHEET_A), desk.sit(free), desk.sit(SHEET_A, 0), desk.sit(free, 65)], [0, 1, 2, 3])
        self.assertEqual(desk.turn(), (0, Ending.FINISHED, 3, 6))
        self.assertEqual(desk.turn(), (1, None, 60, 64))
        self.assertEqual(desk.look(1).standing, (1, None, 60, 64))
        self.assertEqual(desk.turn(), (2, Ending.SPENT, 0, 0))
        self.assertEqual(desk.rounds(2), ([3], [1]))
        self.assertEqual(desk.rounds(100), ([1], []))
        self.assertEqual(desk.look(1).standing, (1, Ending.FINISHED, 256, 272))
        self.refused(22, desk.leave, 0, room=5)
        self.assertEqual(planner.plans_of(desk.leave(0), 2), PLANS_A)
        self.refused(38, desk.look, 0)
        self.refused(1, desk.sit, b"")
        self.assertEqual(desk.sit(sheet_of(4, 9, 0, 0, 16, 24, 24, 24, *[511] * 4)), 0)
        desk.rounds(200)
        self.assertEqual(desk.look(0).standing[1:3], (Ending.FULL, 4096))
        for _ in range(4):
            desk.sit(SHEET_A)
        self.refused(37, planner.Desk(bytes(desk)).sit, SHEET_A)

    def test_small_sheets(self) -> None:
        sheets = list(planner.small_sheets())
        self.assertEqual(len(sheets[0]), len(planner.small_sheet(0)))
        self.refused(39, planner.small_sheet, len(sheets))
        self.refused(40, planner.small_sheet, 0, room=51)
        for sheet in sheets:
            planner.question(sheet)

    def test_sizes(self) -> None:
        for call in [
            lambda: planner.run(SHEET_A, node_limit=2**32),
            lambda: planner.run(SHEET_A, node_limit=-1),
            lambda: planner.Store().put(0, 256, b""),
            lambda: planner.Store(b"short"),
        ]:
            self.assertRaises(ValueError, call)

    def test_threads(self) -> None:
        answers = []
        threads = [threading.Thread(target=lambda: answers.append(planner.run(ROTATION))) for _ in range(8)]
        for thread in threads:
            thread.start()
        for thread in threads:
            thread.join()
        self.assertEqual(answers, [planner.run(ROTATION)] * 8)


if __name__ == "__main__":
    unittest.main()
