"""A task with two leaves, one of them of two variables, for the computed table of cases: `python3 two_leaves.py` prints its record, its prices
after some paths and its plan, as they stand in that table.

The carriage (variable 0) is at the hatch (0) or the rack (1). One pair of skis is dry (0) or waxed (1), variable 1, and at the hatch (0), on the
rack (1) or on the tray (2), variable 3: together leaf 1, six states. The hatch's door (variable 2, leaf 2) is shut (0) or open (1). At first the
carriage is at the hatch, the skis are dry and on the rack, and the door is shut; the goal: skis waxed and at the hatch, door shut.
"""
from planner import plan
from prices import *


def waxed():
    return Task(
        2,
        [(2, 0, 0), (2, 1, 0), (2, 2, 0), (3, 1, 1)],
        [(1, 1), (2, 0), (3, 0)],
        [
            Action(0, 250, [(0, 0)], [(0, 1)]),  # 0 drive out
            Action(0, 250, [(0, 1), (3, 2)], [(0, 0), (2, 1)]),  # 1 bring: with the skis on the tray, and the door opens
            Action(30, 0, [(2, 1)], [(2, 0)]),  # 2 shut the door
            Action(300, 0, [(0, 0), (3, 2)], [(3, 0)]),  # 3 give
            Action(40, 0, [(0, 0), (1, 0), (3, 2)], [(1, 1)]),  # 4 wax, on the tray at the hatch
            Action(500, 0, [(0, 1), (3, 1)], [(3, 2)]),  # 5 take
        ],
    )


if __name__ == "__main__":
    rec = encode(waxed())
    assert read(rec) == waxed()
    print(len(rec), "bytes:", " ∷ ".join(f"0x{b:02x}" for b in rec))
    for path in ([], [0], [0, 1], [0, 1, 0, 1]):
        words = price(rec, path, Star(waxed()).S())
        assert words == price_flat(waxed(), path) == price(rec, path, Star(waxed()).S(), bf=True)
        print("prices after", path, "are", words)
    print("plan", plan(rec, 84, 4096, 8192, 4096))
