"""Compares the Rust planner with the Python model: random calls with a fixed seed, answered by both.

python3 check_model.py PROGRAM [SEED] [CALLS] [generated [MOST]]

PROGRAM is the built `answers`. With `generated` the calls are the benchmark's tasks and the Rust generator's calls instead of the ones drawn
here; planner calls with more than MOST nodes times leaf states are left out, since they take the model long.
"""
import os
import random
import subprocess
import sys
import tempfile
from collections import Counter

sys.path.insert(0, os.path.join(os.path.dirname(os.path.abspath(__file__)), "..", "model"))
from planner import *
from random_calls import random_call, random_task

WORD = 0xEEEEEEEEEEEEEEEE
MOST = 4_000_000  # table words that a call may say it has: more than any call here needs


def number(x):
    return x.to_bytes(4, "big")


def text(b):
    return number(len(b)) + bytes(b)


def states(record):
    t = read(record)
    return None if isinstance(t, int) else sum(leaf_states(t, k) for k in range(1, t.leaves + 1))


def depot(R):
    """A carriage with one tray on a rail: pairs of skis to fetch to the hatch or to bring to a rack."""
    stops, pairs = R.randint(2, 4), R.randint(1, 3)
    place = sorted(R.sample(range(1000), stops))
    variables = [(stops, 0, 0), (2, 0, 0)] + [(stops + 1, k + 1, R.randrange(stops)) for k in range(pairs)]
    goal = [(k + 2, R.randrange(stops)) for k in range(pairs)]
    actions = [Action(0, abs(place[i] - place[j]), [(0, i)], [(0, j)]) for i in range(stops) for j in range(stops) if i != j]
    for k in range(pairs):
        for i in range(stops):
            actions.append(Action(500, 0, [(0, i), (1, 0), (k + 2, i)], [(1, 1), (k + 2, stops)]))
            actions.append(Action(300, 0, [(0, i), (1, 1), (k + 2, stops)], [(1, 0), (k + 2, i)]))
    return Task(pairs, variables, goal, actions)


def damaged(R, record):
    record = bytearray(record)
    how = R.randrange(4)
    if how == 0:
        record[R.randrange(len(record))] ^= 1 << R.randrange(8)
    elif how == 1:
        del record[R.randrange(len(record)):]
    elif how == 2:
        record += bytes(R.randrange(3) for _ in range(R.randint(1, 3)))
    else:
        record = bytearray(R.randrange(256) for _ in range(R.randrange(40)))
    return bytes(record)


def small_task(R):
    while True:
        t = random_task(R)
        if sum(leaf_states(t, k) for k in range(1, t.leaves + 1)) <= 120:
            return t


# Each call's answer by the model: the line that the Rust program prints, and the answer's kind. None where it would take the model too long.

def planned(record, nodes, budget, room, words, most):
    if 1 <= nodes <= 4096 and min(nodes, budget) * (states(record) or 0) > most:
        return None
    got = plan(record, nodes, budget, room, words)
    made = got[1] or []
    return f"plan {got[0]} {len(made)} {got[2]} {got[3]} {got[4]} {made}", f"plan {got[0]}"


def priced(record, path, lent):
    got = price(record, path, lent)
    words = [WORD] * lent if isinstance(got, int) else got + [WORD] * (lent - len(got))
    kind = got if isinstance(got, int) else 0
    return f"prices {kind} {words}", f"prices {kind}"


def counted(record, nodes):
    s = states(record)
    return f"words {0 if s is None or not 1 <= nodes <= 4096 else (nodes + 1) * (40 + s)}", "words"


# ---- calls drawn here

def plan_call(R):
    record = encode(depot(R) if R.random() < .1 else small_task(R))
    if R.random() < .08:
        record = damaged(R, record)
    nodes = R.choice([1, 2, 3, 8, 20, 60, 60, 60, 120, R.choice([0, 4097, 2 ** 32 - 1])])
    budget = R.choice([0, 1, 3, 10, 2 ** 32 - 1, 2 ** 32 - 1, 4096, 4096])
    room = R.choice([0, 1, 3, 200, 200, 200, 200])
    need = min((nodes + 1) * (40 + (states(record) or 1)), MOST)
    words = R.choice([need, need, need, need + 7, max(need - 1, 0) if R.random() < .2 else need])
    return b"p" + text(record) + b"".join(map(number, (nodes, budget, room, words))), planned(record, nodes, budget, room, words, MOST)


def price_call(R):
    record, path, lent = random_call(R)
    if R.random() < .05:
        record = damaged(R, record)
    if R.random() < .01:
        path = [R.choice([0, 1])] * R.choice([4095, 4096])
    return b"c" + text(record) + text(path) + number(lent), priced(record, path, lent)


def words_call(R):
    record = encode(random_task(R))
    if R.random() < .2:
        record = damaged(R, record)
    nodes = R.choice([1, 2, 100, 4096])
    return b"w" + text(record) + number(nodes), counted(record, nodes)


def drawn(name, seed, many):
    R = random.Random(seed)
    wanted = []
    with open(name, "wb") as f:
        for _ in range(many):
            call, answer = R.choice([plan_call, plan_call, plan_call, price_call, price_call, words_call])(R)
            f.write(call)
            wanted.append(answer)
    return wanted


# ---- calls that the Rust generator drew

class Frames:
    def __init__(self, data):
        self.data, self.at = data, 0

    def take(self, n):
        self.at += n
        return self.data[self.at - n:self.at]

    def number(self):
        return int.from_bytes(self.take(4), "big")

    def bytes(self):
        return self.take(self.number())


def answered(name, most):
    with open(name, "rb") as file:
        f = Frames(file.read())
    wanted = []
    while f.at < len(f.data):
        kind = f.take(1)
        if kind == b"p":
            wanted.append(planned(f.bytes(), f.number(), f.number(), f.number(), f.number(), most))
        elif kind == b"c":
            wanted.append(priced(f.bytes(), list(f.bytes()), f.number()))
        else:
            wanted.append(counted(f.bytes(), f.number()))
    return wanted


def main():
    program, seed, many = sys.argv[1], int((sys.argv[2:] or ["1"])[0]), int((sys.argv[3:] or ["4000"])[0])
    generated = sys.argv[4:5] == ["generated"]
    name = tempfile.mkstemp()[1]
    try:
        if generated:
            words = [program, name, str(seed), str(many)]
        else:
            wanted = drawn(name, seed, many)
            words = [program, name]
        lines = subprocess.run(words, stdout=subprocess.PIPE, text=True, check=True).stdout.splitlines()
        if generated:
            wanted = answered(name, int((sys.argv[5:] or ["20000"])[0]))
    finally:
        os.unlink(name)
    assert len(lines) == len(wanted), (len(lines), len(wanted))
    kinds = Counter("not modelled" if w is None else w[1] for w in wanted)
    wrong = [k for k, w in enumerate(wanted) if w is not None and lines[k] != w[0]]
    for k in wrong[:10]:
        print(f"call {k}\n  model {wanted[k][0]}\n  rust  {lines[k]}")
    print(len(wanted), "calls", sorted(kinds.items()), "differences", len(wrong))
    sys.exit(1 if wrong else 0)


if __name__ == "__main__":
    main()
