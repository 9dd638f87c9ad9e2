"""Halls as texts, by the program `sheet`: PLANNER_SHEET names it, else it is looked for in PATH."""

import json
import os
import subprocess
from typing import Any, Dict, List, NamedTuple, Optional, Sequence

from ._calls import Ending, Plan
from ._library import Lent


_ENDINGS = {
    "finished": Ending.FINISHED,
    "first": Ending.FULL,
    "spent": Ending.SPENT,
    "stopped": Ending.SPENT,
    "full": Ending.FULL,
}


class Told(NamedTuple):
    """A fault: where it stands, the refusal that it comes from, if any, and the words."""

    file: Optional[str]
    line: Optional[int]
    number: Optional[int]
    item: Optional[int]
    words: str


class Fault(Exception):
    """A text that isn't accepted, or another thing that the program says instead of an answer: `status` is its exit status,
    `faults` has each fault apart."""

    def __init__(self, text: str, status: int, faults: Sequence[Told] = ()) -> None:
        super().__init__(text)
        self.status = status
        self.faults = list(faults)


class Listing(NamedTuple):
    """A hall's plans by name."""

    windows: List[str]
    duties: List[str]
    ending: Ending
    """FULL also where one plan was asked for and there may be more."""
    trials: int
    families: Optional[int]
    """None where they weren't counted."""
    plans: List[Dict[str, str]]
    """The duty of each window."""
    order: List[str]
    """The windows in the order in which they are settled."""

    def numbers(self) -> List[Plan]:
        """The plans as `run` lists them."""
        return [tuple(self.duties.index(plan[window]) for window in self.windows) for plan in self.plans]


def _run(given: bytes, *words: str) -> "subprocess.CompletedProcess[bytes]":
    """The program, with a text or a sheet on its standard input."""
    program = os.environ.get("PLANNER_SHEET", "sheet")
    return subprocess.run([program, *words, "-"], input=given, stdout=subprocess.PIPE, stderr=subprocess.PIPE)


def _answer(given: bytes, command: str, *words: str) -> Dict[str, Any]:
    """What a command answers as JSON."""
    done = _run(given, command, "--json", *words)
    if not done.stdout or done.returncode < 0:
        raise Fault(done.stderr.decode().strip(), done.returncode)
    answer: Dict[str, Any] = json.loads(done.stdout)
    if "faults" in answer:
        raise Fault(answer["words"], answer["status"], [Told(**fault) for fault in answer["faults"]])
    return answer


def _made(given: bytes, command: str) -> bytes:
    """What a command makes; `explain` has the faults of what it can't make."""
    done = _run(given, command)
    if done.returncode == 1:
        _answer(given, "explain")
    if done.returncode != 0:
        raise Fault(done.stderr.decode().strip(), done.returncode)
    return done.stdout


def make(text: str) -> bytes:
    """The sheet of a text. `before` and `alike` lines don't stand in it."""
    return _made(text.encode(), "make")


def show(sheet: Lent) -> str:
    """The text of a sheet, with the names w0 w1 .. and d0 d1 .."""
    return _made(bytes(sheet), "show").decode()


def plans(text: str, trials: Optional[int] = None, room: Optional[int] = None) -> Listing:
    """The plans of a text, with at most so many trials and room for so many plans."""
    options = [("--trials", trials), ("--plans", room)]
    words = [f"{name}={value}" for name, value in options if value is not None]
    answer = _answer(text.encode(), "plans", *words)
    return Listing(
        windows=answer["windows"],
        duties=answer["duties"],
        ending=_ENDINGS[answer["ending"]],
        trials=answer["trials"],
        families=answer["families"],
        plans=answer["plans"],
        order=answer["order"],
    )
