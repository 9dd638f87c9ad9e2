"""The random sheets of tests/sheets, right and damaged, beside the oracle's reports: PLANNER_SHEETS names a folder of
NUMBER.sheet and NUMBER.report. And the examples' texts, by the program `sheet`."""

import os
import pathlib
import unittest
from typing import List, Tuple

import planner
from planner import Ending, Plan, Refusal, Said, text

ROOT = pathlib.Path(__file__).resolve().parents[3]
FOLDER = pathlib.Path(os.environ["PLANNER_SHEETS"])


def read(report: str) -> Tuple[List[Plan], List[str]]:
    """A report's plans, and the words of its last line."""
    *plans, last = [line.split() for line in report.splitlines()]
    return [tuple(map(int, plan[1:])) for plan in plans], last


class Sheets(unittest.TestCase):
    def accepted(self, sheet: bytes, plans: List[Plan], last: List[str]) -> None:
        """Everything that can be asked of a sheet agrees with its report."""
        ending, nodes = Ending[last[0].upper()], int(last[2])
        planner.question(sheet)
        self.assertEqual(planner.run(sheet), (ending, plans, nodes))
        lent = planner.run_lent(sheet)
        self.assertEqual(lent[:3], (ending, plans, nodes))
        self.assertEqual(sum(lent.counts), nodes)
        if ending is Ending.FINISHED:
            self.assertEqual(planner.at_least(sheet, len(plans) + 1), (Said.NO, len(plans), nodes))
            families = planner.families(sheet)
            self.assertEqual("-" if families is None else str(families), last[3])
        if ending is Ending.FINISHED and planner.closed(sheet) and last[3] != "-":
            self.assertEqual(len(plans), int(last[3]))
        desk = planner.Desk()
        desk.sit(sheet)
        desk.rounds(2**32 - 1)
        look = desk.look(0)
        self.assertEqual(look.standing, (0, ending, len(plans), nodes))
        self.assertEqual(look.counts, lent.counts)
        self.lists(desk.leave(0), sheet[0], plans)

    def lists(self, rows: bytes, n: int, plans: List[Plan]) -> None:
        """A list, parted in two and stored by window."""
        self.assertEqual(planner.plans_of(rows, n), plans)
        self.assertEqual(planner.rows(planner.columns(n, rows)), rows)
        odd, even = (b"".join(map(bytes, plans[start::2])) for start in (0, 1))
        self.assertEqual(planner.merge(n, odd, even), rows)

    def test_random_sheets(self) -> None:
        refused = 0
        files = sorted(FOLDER.glob("*.sheet"))
        for file in files:
            sheet, report = file.read_bytes(), file.with_suffix(".report").read_text()
            with self.subTest(file=file.name):
                self.assertEqual(planner.report(sheet), report)
                plans, last = read(report)
                if last[0] != "refused":
                    self.accepted(sheet, plans, last)
                    continue
                refused += 1
                with self.assertRaises(Refusal) as caught:
                    planner.run(sheet)
                self.assertEqual([str(caught.exception.number), str(caught.exception.item)], last[1:])
        self.assertGreater(refused, len(files) / 4)
        self.assertGreater(len(files) - refused, len(files) / 4)

    def test_examples(self) -> None:
        for file in sorted((ROOT / "examples").glob("*.txt")):
            with self.subTest(file=file.name):
                words = file.read_text()
                sheet = file.with_suffix(".sheet").read_bytes()
                plans, last = read(file.with_suffix(".report").read_text())
                self.assertEqual(text.make(words), sheet)
                self.assertEqual(text.make(text.show(sheet)), sheet)
                listing = text.plans(words)
                self.assertEqual(listing.numbers(), plans)
                self.assertEqual((listing.ending, listing.trials), (Ending[last[0].upper()], int(last[2])))

    def test_limits(self) -> None:
        words = (ROOT / "examples" / "a.txt").read_text()
        self.assertEqual(text.plans(words, trials=2).ending, Ending.SPENT)
        listing = text.plans(words, room=2)
        self.assertEqual((listing.ending, len(listing.plans)), (Ending.FULL, 2))
        listing = text.plans(words, room=1)
        self.assertEqual((listing.ending, len(listing.plans)), (Ending.FULL, 1))
        listing = text.plans("windows a b\nduties x\ndifferent a b\nbefore b a\n")
        self.assertEqual((listing.ending, listing.plans, listing.order), (Ending.FINISHED, [], ["b", "a"]))

    def test_faults(self) -> None:
        with self.assertRaises(text.Fault) as caught:
            text.plans("windows a\nduties x\nmay b x\n")
        self.assertEqual(caught.exception.status, 1)
        self.assertIn(":3: ", str(caught.exception))
        told = text.Told("standard input", 3, None, None, "no window is called `b`")
        self.assertEqual(caught.exception.faults, [told])

    def test_refusals(self) -> None:
        for call in [text.plans, text.make]:
            with self.assertRaises(text.Fault) as caught:
                call("windows a b\nduties x\nbefore a b\nbefore b a\n")
            [told] = caught.exception.faults
            self.assertEqual((caught.exception.status, told.line, told.number, told.item), (1, 4, 30, 0))
        sheet = (ROOT / "examples" / "a.sheet").read_bytes()
        with self.assertRaises(text.Fault) as caught:
            text.show(sheet[:20])
        [told] = caught.exception.faults
        self.assertEqual((told.file, told.line, told.number), ("standard input", None, 6))


if __name__ == "__main__":
    unittest.main()
