"""Who stands where: the plans of a hall's text, and of how many of them each clerk is at each window, as bars.

    python3 hall.py [TEXT]
"""

import collections
import pathlib
import sys

from planner import Ending, text

EXAMPLE = pathlib.Path(__file__).resolve().parents[3] / "examples" / "hall.txt"
WIDTH = 40


def main() -> None:
    file = pathlib.Path(sys.argv[1]) if len(sys.argv) > 1 else EXAMPLE
    hall = text.plans(file.read_text())

    # The list, and whether it is complete.
    print(f"{len(hall.plans)} plans in {hall.trials} trials")
    if hall.ending is not Ending.FINISHED:
        print("there may be more")

    # Each window: how many of the plans have which clerk there.
    for window in hall.windows:
        print(window)
        counts = collections.Counter(plan[window] for plan in hall.plans)
        for duty, count in counts.most_common():
            print(f"  {duty:8} {count:4}  {'#' * round(WIDTH * count / len(hall.plans))}")


if __name__ == "__main__":
    main()
