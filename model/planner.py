"""Reference model of the planner, from the paper alone ("The exploration", the planner's order of refusals). Slow and literal.

`python3 planner.py FOLDER` writes the example to FOLDER/stdin, and to FOLDER/stdout what the program `plan` prints of it.
"""
import sys
from pathlib import Path
from prices import *


class Node:
    def __init__(self, centre, leaves, paid, parent, action, begin):
        self.centre, self.leaves, self.paid, self.parent, self.action, self.begin = centre, leaves, paid, parent, action, begin


class Search:
    def __init__(self, t, nodes, budget):
        self.t, self.star, self.nodes, self.budget = t, Star(t), nodes, budget
        begin = self.star.start()
        self.kept = [Node(*self.star.layer(*begin, self.star.settle), 0, None, None, begin[1])]
        self.open = [True]
        self.begun = 0
        self.best = None
        self.best_cost = None
        self.look(0)

    def leaves(self):
        return range(1, self.t.leaves + 1)

    def key(self, n):
        return n.paid + sum(min(n.leaves[k].values()) for k in self.leaves())

    def goal_prices(self, n, k):
        return {s: p for s, p in n.leaves[k].items() if self.star.holds(self.t.goal, k, s)}

    def goal_cost(self, n):
        """None where the node is no goal node."""
        if not self.star.centre_holds(self.t.goal, n.centre):
            return None
        least = [min(self.goal_prices(n, k).values(), default=None) for k in self.leaves()]
        return None if None in least else n.paid + sum(least)

    def look(self, u):
        c = self.goal_cost(self.kept[u])
        if c is not None and (self.best is None or c < self.best_cost):
            self.best, self.best_cost = u, c

    def below(self, k):
        return self.best is None or k < self.best_cost

    def dominates(self, m, n):
        return m.centre == n.centre and m.paid <= n.paid and all(
            m.leaves[k].get(s, INF) <= n.leaves[k].get(s, INF) for k in self.leaves() for s in set(m.leaves[k]) | set(n.leaves[k]))

    def run(self):
        """0 finished, 22 or 23."""
        while True:
            waiting = [(self.key(n), u) for u, n in enumerate(self.kept) if self.open[u] and self.below(self.key(n))]
            if not waiting:
                return 0
            if self.begun == self.budget:
                return 23
            u = min(waiting)[1]
            self.begun += 1
            self.open[u] = False
            if not self.expand(u):
                return 22

    def expand(self, u):
        n = self.kept[u]
        for a, act in enumerate(self.t.actions):
            r = self.star.step((n.centre, n.leaves), act) if self.star.is_centre(act) else None
            if r is None:
                continue
            m = Node(*self.star.layer(*r, self.star.settle), n.paid + cost(act), u, a, r[1])
            if not self.below(self.key(m)) or any(self.dominates(x, m) for x in self.kept):
                continue
            if len(self.kept) == self.nodes:
                return False
            self.kept.append(m)
            self.open.append(True)
            self.look(len(self.kept) - 1)
        return True

    # ---- the plan

    def back(self, u, k, state):
        """The leaf's actions in node u's layer up to the state, and the state that the layer began with."""
        n = self.kept[u]
        prices, begin = n.leaves[k], n.begin[k]
        acts = [(a, x) for a, x in enumerate(self.t.actions) if not self.star.is_centre(x) and self.star.leaf_of(x) == k and self.star.centre_holds(x.conditions, n.centre)]
        edges = [(a, s, self.star.after(x.effects, k, s)) for a, x in acts for s in prices if self.star.holds(x.conditions, k, s)]
        edges = [(a, s, e) for a, s, e in edges if prices[s] + cost(self.t.actions[a]) == prices[e]]
        depth = {s: 0 for s in prices if begin.get(s, INF) == prices[s]}
        for d in range(len(prices)):
            for a, s, e in edges:
                if depth.get(s) == d and e not in depth:
                    depth[e] = d + 1
        out = []
        while depth[state]:
            a, state = min((a, s) for a, s, e in edges if e == state and depth.get(s) == depth[state] - 1)
            out.insert(0, a)
        return out, state

    def plan(self):
        ends = {}
        for k in self.leaves():
            goal = self.goal_prices(self.kept[self.best], k)
            ends[k] = min(s for s in goal if goal[s] == min(goal.values()))
        out, u = [], self.best
        while True:
            layer = []
            for k in self.leaves():
                acts, ends[k] = self.back(u, k, ends[k])
                layer += acts
            out = layer + out
            n = self.kept[u]
            if n.parent is None:
                return out
            act, before = self.t.actions[n.action], self.kept[n.parent].leaves
            for k in self.leaves():
                price = n.begin[k][ends[k]]
                ends[k] = min(s for s, p in before[k].items() if p == price and self.star.holds(act.conditions, k, s) and self.star.after(act.effects, k, s) == ends[k])
            out = [n.action] + out
            u = n.parent


def plan(record, nodes, budget, room, words):
    """(number, plan or None, cost, expanded, kept): number 0 for a plan, 255 for unsolvable, else the refusal's."""
    t = read(record)
    if isinstance(t, int):
        return t, None, 0, 0, 0
    if not 1 <= nodes <= 4096:
        return 20, None, 0, 0, 0
    if words < (nodes + 1) * (40 + Star(t).S()):
        return 21, None, 0, 0, 0
    s = Search(t, nodes, budget)
    stop = s.run()
    counts = s.begun, len(s.kept)
    if stop:
        return stop, None, 0, *counts
    if s.best is None:
        return 255, None, 0, *counts
    p = s.plan()
    if len(p) > room:
        return 24, None, 0, *counts
    return 0, p, s.best_cost, *counts


def largest_nodes(t, words):
    return max(n for n in range(1, 4097) if (n + 1) * (40 + Star(t).S()) <= words)


def program(record):
    """What the program prints for a record on its standard input."""
    t = read(record)
    nodes = 1 if isinstance(t, int) else largest_nodes(t, 4096)
    number, p, c, expanded, kept = plan(record, nodes, 4096, 8192, 4096)
    if number == 0:
        return f"plan {len(p)} cost {c} expanded {expanded} kept {kept}\n" + "".join(f"{a}\n" for a in p)
    if number == 255:
        return f"unsolvable expanded {expanded} kept {kept}\n"
    return f"refused {number} expanded {expanded} kept {kept}\n"


def without_take():
    t = fetch()
    del t.actions[2]
    return t


def empty_goal():
    t = fetch()
    t.goal = []
    return t


if __name__ == "__main__":
    e = encode(fetch())
    print(program(e), end="")
    for folder in map(Path, sys.argv[1:]):
        (folder / "stdin").write_bytes(e)
        (folder / "stdout").write_text(program(e))
    assert plan(e, 94, 4096, 8192, 4096) == (0, [0, 2, 1, 3], 1650, 4, 4)
    assert plan(e, 94, 3, 8192, 4096) == (23, None, 0, 3, 4)
    assert plan(e, 3, 4096, 8192, 4096) == (22, None, 0, 3, 3)
    assert plan(e, 3, 2, 8192, 4096) == (23, None, 0, 2, 3)
    assert plan(e, 94, 4096, 3, 4096) == (24, None, 0, 4, 4)
    assert plan(encode(without_take()), 94, 4096, 8192, 4096) == (255, None, 0, 2, 2)
    assert plan(encode(empty_goal()), 94, 4096, 8192, 4096) == (0, [], 0, 0, 1)
    print(encode(without_take()).hex(" "))
    print(encode(empty_goal()).hex(" "))
