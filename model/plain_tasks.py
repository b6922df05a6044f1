"""Small star tasks with their least costs by a search over whole states, for the program that runs the planner beside a plain one.

`python3 plain_tasks.py FOLDER` writes stdin and stdout there. Both cost columns of stdout are this model's; every plan is to carry out.
"""
import heapq
import random
import sys
from collections import Counter
from math import prod
from prices import cost, cost_without_pause
from record import *

MANY = 340  # star tasks; ten depots come behind them


# ---- the published meaning: states are tuples of values

def holds(pairs, state):
    return all(state[v] == x for v, x in pairs)


def outcome(pairs, state):
    new = dict(pairs)
    return tuple(new.get(v, x) for v, x in enumerate(state))


def walk(t, cost=cost):
    """Each state that can be reached, with its least cost and the fewest actions at that cost."""
    best, heap = {}, [(0, 0, tuple(i for _, _, i in t.variables))]
    while heap:
        c, steps, s = heapq.heappop(heap)
        if s not in best:
            best[s] = (c, steps)
            for a in t.actions:
                if holds(a.conditions, s):
                    heapq.heappush(heap, (c + cost(a), steps + 1, outcome(a.effects, s)))
    return best


def least(t, cost=cost):
    """The least cost of a plan and the fewest actions at that cost, or None."""
    return min((x for s, x in walk(t, cost).items() if holds(t.goal, s)), default=None)


# ---- random star tasks. They are drawn by what they cost without the pause, so that they are the same tasks whatever a drive takes.

class Draw:
    """The variables of a task, and what can be drawn over them. Most actions apply in a state that those before them can reach."""

    def __init__(self, R):
        while True:
            self.leaves = R.randint(1, 4)
            fs = [0] * R.randint(1, 3) + [k + 1 for k in range(self.leaves) for _ in range(R.randint(1, 2))]
            sizes = [R.randint(2, 4) for _ in fs]
            if prod(sizes) <= 1024:
                break
        R.shuffle(fs)
        self.R, self.fs = R, fs
        self.vs = [(s, f, R.choice([0, R.randrange(s)])) for s, f in zip(sizes, fs)]
        self.seen = [tuple(i for _, _, i in self.vs)]
        self.frozen = R.choice([0, 0, R.randint(1, self.leaves)]) if self.leaves > 1 else 0
        self.costs = R.choice([[0, 1, 2], [0, 0, 1], [1, 10, 100], [5], [R.randrange(4096) for _ in range(4)]])
        self.ways = R.choice([[0], [0], [R.randrange(1024) for _ in range(3)], [0, 1, 400, 401, 1023]])

    def of(self, *factors):
        return [v for v, f in enumerate(self.fs) if f in factors]

    def moving(self):
        return [k for k in range(1, self.leaves + 1) if k != self.frozen]

    def some(self, over, fewest, most):
        return self.R.sample(over, min(len(over), self.R.randint(fewest, most)))

    def any_state(self):
        return tuple(self.R.randrange(s) for s, _, _ in self.vs)

    def action(self, conditions, effects):
        """With conditions on these variables, taken from a state, and effects on those."""
        state = self.R.choice(self.seen[-self.R.choice([3, 99]):]) if self.R.random() < .9 else self.any_state()
        new = self.any_state()
        e = sorted((v, new[v]) for v in effects)
        if state in self.seen:
            self.seen.append(outcome(e, state))
        return Action(self.R.choice(self.costs), self.R.choice(self.ways), sorted((v, state[v]) for v in set(conditions)), e)

    def centre_action(self):
        c, e = self.some(self.of(0), 1, 3), self.some(self.of(0), 1, self.R.choice([1, 1, 2]))
        if self.R.random() < .5:
            c += self.some(self.of(self.R.randint(1, self.leaves)), 1, 2)
        if self.R.random() < .3:
            c += self.some(self.of(*range(1, self.leaves + 1)), 1, 3)
        if self.R.random() < .3:
            e += self.some(self.of(*self.moving()), 1, 2)
        return self.action(c, e)

    def leaf_action(self, leaf):
        return self.action(self.some(self.of(leaf), 1, 2) + self.some(self.of(0), 0, 3), self.some(self.of(leaf), 1, self.R.choice([1, 1, 2])))

    def circle(self, leaf):
        """Actions without cost that take one variable of the leaf round all its values."""
        v, at = self.R.choice(self.of(leaf)), self.R.choice(self.seen)
        size, where = self.vs[v][0], [(w, at[w]) for w in self.some(self.of(0), 0, 1)]
        return [Action(0, 0, sorted(where + [(v, x)]), [(v, (x + 1) % size)]) for x in range(size)]

    def actions(self):
        acts = []
        for _ in range(self.R.choice([4, 8, 12, 18, 24])):
            acts.append(self.centre_action() if self.R.random() < .4 else self.leaf_action(self.R.choice(self.moving())))
        for leaf in self.moving():
            if self.R.random() < .15:
                acts += self.circle(leaf)
        self.R.shuffle(acts)
        return acts

    def named(self):
        """The variables that the goal names: centre, leaves, both or none."""
        centre, leaf = self.some(self.of(0), 1, 2), self.some(self.of(*range(1, self.leaves + 1)), 1, 4)
        return self.R.choice([centre, leaf, leaf, leaf + centre, leaf + centre, []])


def drawn(R):
    """A task whose goal is met in one of the states that are furthest off, or drawn by itself."""
    d = Draw(R)
    t = Task(d.leaves, d.vs, [], d.actions())
    far = sorted(walk(t, cost_without_pause).items(), key=lambda x: x[1][1])
    state = R.choice(far[len(far) * 4 // 5:])[0]
    if R.random() < .15:
        state = [R.randrange(s) for s, _, _ in d.vs]
    t.goal = sorted((v, state[v]) for v in d.named())
    return t


def star(R):
    """A random task: of those with plans of few actions, most are drawn again."""
    while True:
        t = drawn(R)
        found = least(t, cost_without_pause)
        if found is None or found[1] > 2 or R.random() < .15:
            return t


# ---- depots

def depot(R, stops, skis, tray):
    """A carriage drives a rail, and fetches pairs of skis to the hatch at stop 0 or brings them from there. On a tray for one pair the others wait.

    A pair is in its rack (0), on the tray (1) or at the hatch (2)."""
    places = [0]
    for _ in range(stops - 1):
        places.append(places[-1] + R.randint(40, 250))
    racks = [R.randint(1, stops - 1) for _ in range(skis)]
    begin = [R.choice([0, 0, 2]) for _ in range(skis)]
    vs = [(stops, 0, 0)] + [(2, 0, 0)] * tray + [(3, k + 1, begin[k]) for k in range(skis)]
    first = 1 + tray
    acts = [Action(0, abs(places[a] - places[b]), [(0, a)], [(0, b)]) for a in range(stops) for b in range(stops) if abs(a - b) == 1]
    for k in range(skis):
        v = first + k
        for stop, place in ((racks[k], 0), (0, 2)):
            full = lambda x: [(1, x)] * tray
            acts.append(Action(R.choice([300, 500]), 0, [(0, stop)] + full(0) + [(v, place)], full(1) + [(v, 1)]))
            acts.append(Action(R.choice([200, 300]), 0, [(0, stop)] + full(1) + [(v, 1)], full(0) + [(v, place)]))
    goal = [(0, 0)] * R.randint(0, 1) + [(first + k, 2 - begin[k]) for k in range(skis)]
    return Task(skis, vs, goal, acts)


def tasks():
    R = random.Random(20)
    depots = [depot(R, stops, skis, tray) for stops, skis, tray in
              [(3, 1, 0), (3, 2, 0), (4, 2, 0), (4, 3, 0), (5, 3, 0), (3, 1, 1), (3, 2, 1), (4, 2, 1), (5, 2, 1), (5, 3, 1)]]
    return [star(R) for _ in range(MANY)] + depots


# ---- what there is of each kind

def goes_round(t):
    """Whether actions without cost on one leaf variable lead from a value back to it."""
    leads = set()
    for a in t.actions:
        for v, x in a.effects:
            if len(a.effects) == 1 and cost(a) == 0 and t.variables[v][1] > 0:
                leads.update(((v, y), (v, x)) for w, y in a.conditions if w == v and x != y)
    back = lambda a, b, left: a == b or left > 0 and any(back(d, b, left - 1) for c, d in leads if c == a)
    return any(back(d, c, 4) for c, d in leads)


def kinds(t):
    """What the task has in it, and how its plan comes out."""
    factor = lambda pairs: [t.variables[v][1] for v, _ in pairs]
    centre = [a for a in t.actions if 0 in factor(a.effects)]
    moved = {f for a in t.actions for f in factor(a.effects)}
    on = factor(t.goal)
    found = least(t)
    return [name for name, has in {
        "a centre action with a condition on a leaf": any(max(factor(a.conditions), default=0) > 0 for a in centre),
        "a centre action with an effect on a leaf": any(max(factor(a.effects)) > 0 for a in centre),
        "a centre action with two conditions on one leaf": any(n > 1 for a in centre for f, n in Counter(factor(a.conditions)).items() if f),
        "an action without cost": any(cost(a) == 0 for a in t.actions),
        "leaf actions without cost in a circle": goes_round(t),
        "a leaf that no action changes": len(moved | {0}) <= t.leaves,
        "goal on the centre": on and max(on) == 0,
        "goal on leaves": on and min(on) > 0,
        "goal on both": 0 in on and max(on) > 0,
        "goal empty": not on,
        "unsolvable": found is None,
        "a plan of three actions or more": found and found[1] > 2,
        "a plan of six actions or more": found and found[1] > 5,
    }.items() if has]


def task_line(number, t):
    found = least(t)
    c = "none" if found is None else found[0]
    return f"{number} planner {c} plain {c} carried {'none' if found is None else 'yes'}\n"


if __name__ == "__main__":
    folder, all_tasks = sys.argv[1], tasks()
    there = Counter(k for t in all_tasks for k in kinds(t))
    for t in all_tasks:
        assert read(encode(t)) == t
        assert prod(s for s, _, _ in t.variables) <= 1024
        # with 512 nodes the planner's table has words for 87 leaf states
        assert sum(leaf_states(t, k) for k in range(1, t.leaves + 1)) <= 87
    assert there["unsolvable"] >= 40 and there["a plan of three actions or more"] >= 150
    assert len(there) == 13 and min(there.values()) >= 15
    with open(folder + "/stdin", "wb") as i, open(folder + "/stdout", "w") as o:
        for k, t in enumerate(all_tasks):
            i.write(frame(encode(t)))
            o.write(task_line(k + 1, t))
        n, lost = len(all_tasks), there["unsolvable"]
        o.write(f"tasks {n} solved {n - lost} unsolvable {lost} differences 0\n")
    print(n, "tasks:", "; ".join(f"{m} {k}" for k, m in sorted(there.items())))
