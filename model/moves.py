"""What the program that carries plans out prints: for each leaf the moves planned and the moves made, side by side.

`python3 moves.py FOLDER` writes the records to FOLDER/data, their names to FOLDER/args and the output to FOLDER/stdout.
"""
import random
import sys
from pathlib import Path
from plain_tasks import depot, holds, least, outcome, star
from planner import plan
from prices import Star, cost_without_pause
from record import *

WORDS = 131072


def values(t, leaf, state):
    return ",".join(str(state[v]) for v, (_, f, _) in enumerate(t.variables) if f == leaf)


def columns(t, leaf, p):
    """The lines of one leaf, and how many moves were planned and made."""
    state, going, lines, planned, made = tuple(i for _, _, i in t.variables), True, [], 0, 0
    for a in p:
        act, before = t.actions[a], state
        going = going and holds(act.conditions, state)
        if going:
            state = outcome(act.effects, state)
        if any(t.variables[v][1] == leaf for v, _ in act.effects):
            planned, made = planned + 1, made + going
            lines.append(f"  {a:<3}      " + (f"{values(t, leaf, before)} to {values(t, leaf, state)}" if going else "not made"))
    return lines, planned, made, going and holds(t.goal, state)


def shown(record):
    t = read(record)
    nodes = min(4096, WORDS // (40 + Star(t).S()) - 1)
    number, p, c, _, _ = plan(record, nodes, 4096, 8192, WORDS)
    if number == 255:
        return "unsolvable\n"
    if number:
        return f"refused {number}\n"
    out, all_planned, all_made, met = [f"plan {len(p)} cost {c}"], 0, 0, True
    for leaf in range(1, t.leaves + 1):
        lines, planned, made, met = columns(t, leaf, p)
        out += [f"leaf {leaf}", "  planned  made", *lines, f"  planned {planned} made {made}"]
        all_planned, all_made = all_planned + planned, all_made + made
    out.append(f"all leaves planned {all_planned} made {all_made} goal {'met' if met else 'not met'}")
    return "\n".join(out) + "\n"


def wide(t):
    """Whether a leaf has two variables and the plan has at least eight actions, drawn as in `plain_tasks`."""
    count = [f for _, f, _ in t.variables]
    found = least(t, cost_without_pause)
    return any(f and count.count(f) > 1 for f in count) and found is not None and found[1] >= 8


def records():
    R = random.Random(4)
    one_tray = depot(R, 5, 4, 1)
    while True:
        t = star(R)
        if wide(t):
            break
    return {"fetch.record": fetch(), "one_tray.record": one_tray, "two_variables.record": t}


if __name__ == "__main__":
    folder = Path(sys.argv[1])
    (folder / "data").mkdir(exist_ok=True)
    out = []
    for name, t in records().items():
        rec = encode(t)
        (folder / "data" / name).write_bytes(rec)
        out.append(f"{name}\n{shown(rec)}")
    (folder / "args").write_text("".join(f"{name}\n" for name in records()))
    (folder / "stdout").write_text("".join(out))
