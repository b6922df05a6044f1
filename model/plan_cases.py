"""The records whose answers the program `plan_cases` prints: each has what it is, the first line of the answer stated by hand, and the record.

`python3 plan_cases.py FOLDER` writes stdin, stdout and CASES.md there. The model must give the stated line.
"""
import random
import sys
from pathlib import Path
import record_cases
from plain_tasks import depot
from planner import empty_goal, program, without_take
from record import *
from two_leaves import waxed


def put(**changes):
    """The record of one pair to fetch with some of its fields changed: v0_size=0 changes the field v0.size."""
    return pack(record_cases.put(fetch(), **changes))


e = encode(fetch())
CASES = [
    ("one pair to fetch", "plan 4 cost 1650 expanded 4 kept 4", e),
    ("without take", "unsolvable expanded 2 kept 2", encode(without_take())),
    ("with an empty goal", "plan 0 cost 0 expanded 0 kept 1", encode(empty_goal())),
    ("skis to wax behind a door: two leaves, one of two variables", "plan 6 cost 1554 expanded 4 kept 4", encode(waxed())),
    ("four pairs, four stops and one tray: the table is full", "refused 22 expanded 66 kept 77", encode(depot(random.Random(0), 4, 4, 1))),
    ("no bytes", "refused 1 expanded 0 kept 0", b""),
    ("one pair to fetch, its last byte missing", "refused 1 expanded 0 kept 0", e[:-1]),
    ("the carriage of size 1", "refused 2 expanded 0 kept 0", put(v0_size=0)),
    ("the skis of factor 2, with one leaf", "refused 3 expanded 0 kept 0", put(v1_factor=2)),
    ("the carriage begins at its value 2", "refused 4 expanded 0 kept 0", put(v0_initial=2)),
    ("the goal names variable 2", "refused 5 expanded 0 kept 0", put(goal_0_variable=2)),
    ("the goal names the skis' value 3", "refused 6 expanded 0 kept 0", put(goal_0_value=3)),
    ("drive back has no effects", "refused 7 expanded 0 kept 0", put(a1_e_count=0)),
    ("one byte left over", "refused 8 expanded 0 kept 0", e + b"\0"),
    ("the skis of the centre, so that the leaf has no variables", "refused 9 expanded 0 kept 0", put(v1_factor=0)),
    ("a leaf of 512 states", "refused 10 expanded 0 kept 0", encode(Task(1, [(2, 0, 0)] + [(2, 1, 0)] * 9, []))),
    ("an action with effects in two leaves", "refused 11 expanded 0 kept 0",
     encode(Task(2, [(2, 0, 0), (2, 1, 0), (2, 2, 0)], [], [Action(0, 0, [], [(1, 1), (2, 1)])]))),
    ("one pair to fetch once more", "plan 4 cost 1650 expanded 4 kept 4", e),
]


def write(folder):
    answers = [program(record) for _, _, record in CASES]
    for (what, stated, _), answer in zip(CASES, answers):
        assert answer.split("\n")[0] == stated, (what, stated, answer)
    (folder / "stdin").write_bytes(b"".join(frame(record) for _, _, record in CASES))
    (folder / "stdout").write_text("".join(answers))
    out = ["# The cases", "",
           "The file `stdin` has these records in this order, each behind its length in two bytes, the more significant one first. The file `stdout` has the expected",
           "answers; a plan's actions follow its line. Both were written by a model of the planner that shares no code with it (`model/plan_cases.py`).", "",
           "| Case | What it is | Bytes | First line of its answer |", "|---|---|---|---|"]
    out += [f"| {k} | {what} | {len(record)} | `{stated}` |" for k, (what, stated, record) in enumerate(CASES, 1)]
    (folder / "CASES.md").write_text("\n".join(out) + "\n")


if __name__ == "__main__":
    write(Path(sys.argv[1]))
