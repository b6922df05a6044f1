"""Reference model of the pricer, from the paper alone ("Prices and layers", the pricer's order of refusals)."""
import heapq
from itertools import product
from math import isqrt
from record import *

INF = 2 ** 64 - 1


PAUSE = 25  # how long the carriage holds still behind a drive


def travel_time(d):
    if d > 400:
        return 200 + (d + 1) // 2
    t = 0
    while t * t < 400 * d:
        t += 1
    return t


def drive_time(d):
    return travel_time(d) + PAUSE if d else 0


assert [drive_time(d) for d in (0, 1, 2, 100, 399, 400, 401, 402, 1023)] == [0, 45, 54, 225, 425, 425, 426, 426, 737]
DEAREST = 4095 + drive_time(1023)
assert DEAREST == 4832


def cost(a):
    return a.handling + drive_time(a.distance)


def cost_without_pause(a):
    return a.handling + travel_time(a.distance)


class Star:
    """A task seen as one centre and its leaves. A leaf's states are tuples of values in the order of their numbers."""

    def __init__(self, t):
        self.t = t
        self.known = {}
        self.factor = [f for _, f, _ in t.variables]
        self.vars = [[v for v in range(len(t.variables)) if self.factor[v] == k] for k in range(t.leaves + 1)]
        # mixed radix, the first variable the most significant: the order of product()
        self.states = [None] + [list(product(*[range(t.variables[v][0]) for v in self.vars[k]])) for k in range(1, t.leaves + 1)]

    def S(self):
        return sum(len(s) for s in self.states[1:])

    def is_centre(self, a):
        return any(self.factor[v] == 0 for v, _ in a.effects)

    def leaf_of(self, a):
        return self.factor[a.effects[0][0]]

    def on(self, pairs, k):
        return {v: x for v, x in pairs if self.factor[v] == k}

    def holds(self, pairs, k, state):
        want = self.on(pairs, k)
        return all(state[self.vars[k].index(v)] == x for v, x in want.items())

    def after(self, pairs, k, state):
        new = self.on(pairs, k)
        return tuple(new.get(v, x) for v, x in zip(self.vars[k], state))

    def centre_holds(self, pairs, centre):
        return all(centre[v] == x for v, x in self.on(pairs, 0).items())

    def settle_bf(self, k, prices, centre):
        """Rounds over all leaf actions until nothing changes."""
        acts = [a for a in self.t.actions if not self.is_centre(a) and self.leaf_of(a) == k and self.centre_holds(a.conditions, centre)]
        prices = dict(prices)
        changed = True
        while changed:
            changed = False
            for a in acts:
                for s in list(prices):
                    if self.holds(a.conditions, k, s):
                        e, p = self.after(a.effects, k, s), prices[s] + cost(a)
                        if p < prices.get(e, INF):
                            prices[e] = p
                            changed = True
        return prices

    def settle(self, k, prices, centre):
        """Dijkstra's way."""
        acts = [a for a in self.t.actions if not self.is_centre(a) and self.leaf_of(a) == k and self.centre_holds(a.conditions, centre)]
        best, heap = {}, [(p, s) for s, p in prices.items()]
        known = self.known.setdefault((k, tuple(sorted(centre.items()))), {})
        heapq.heapify(heap)
        while heap:
            p, s = heapq.heappop(heap)
            if s in best:
                continue
            best[s] = p
            if s not in known:
                known[s] = [(cost(a), self.after(a.effects, k, s)) for a in acts if self.holds(a.conditions, k, s)]
            for c, e in known[s]:
                if e not in best:
                    heapq.heappush(heap, (p + c, e))
        return best

    def start(self):
        centre = {v: self.t.variables[v][2] for v in self.vars[0]}
        return centre, [None] + [{tuple(self.t.variables[v][2] for v in self.vars[k]): 0} for k in range(1, self.t.leaves + 1)]

    def layer(self, centre, leaves, settle):
        return centre, [None] + [settle(k, leaves[k], centre) for k in range(1, self.t.leaves + 1)]

    def step(self, node, a):
        """The prices that pass over a centre action, or None if it does not apply."""
        centre, leaves = node
        if not self.centre_holds(a.conditions, centre):
            return None
        out = [None]
        for k in range(1, self.t.leaves + 1):
            new = {}
            for s, p in leaves[k].items():
                if self.holds(a.conditions, k, s):
                    e = self.after(a.effects, k, s)
                    new[e] = min(new.get(e, INF), p)
            if not new:
                return None
            out.append(new)
        centre = dict(centre)
        centre.update(self.on(a.effects, 0))
        return centre, out

    def words(self, node):
        return [node[1][k].get(s, INF) for k in range(1, self.t.leaves + 1) for s in self.states[k]]


def freeze(node):
    return (tuple(sorted(node[0].items())), tuple(tuple(sorted(l.items())) for l in node[1][1:]))


def price(record, path, lent, bf=False):
    """An int, the refusal's number, or the list of prices."""
    t = read(record)
    if isinstance(t, int):
        return t
    if len(path) > 4095:
        return 12
    star = Star(t)
    if any(a >= len(t.actions) or not star.is_centre(t.actions[a]) for a in path):
        return 12
    if lent < star.S():
        return 21
    settle = star.settle_bf if bf else star.settle
    node = star.layer(*star.start(), settle)
    seen = {}
    for a in path:
        key = (a, freeze(node))
        if key not in seen:
            r = star.step(node, t.actions[a])
            seen[key] = None if r is None else star.layer(*r, settle)
        node = seen[key]
        if node is None:
            return 13
    return star.words(node)


# ---- a second opinion: whole states, by sequences (only for tiny tasks)

def price_flat(t, path):
    """Prices by a search over one leaf's states and the place in the path; the centre's course is fixed by the path.

    For each leaf alone: nodes (how many path actions are done, leaf state); a leaf action moves inside a layer, a path action moves to the
    next. Whether the path applies: each centre condition by the fixed course, each leaf by whether a state is left.
    """
    star = Star(t)
    course = [{v: t.variables[v][2] for v in star.vars[0]}]
    for a in path:
        act = t.actions[a]
        if not star.centre_holds(act.conditions, course[-1]):
            return 13
        nxt = dict(course[-1])
        nxt.update({v: x for v, x in act.effects if star.factor[v] == 0})
        course.append(nxt)
    out = []
    for k in range(1, t.leaves + 1):
        first = (0, tuple(t.variables[v][2] for v in star.vars[k]))
        dist, heap = {}, [(0, first)]
        while heap:
            p, (i, s) = heapq.heappop(heap)
            if (i, s) in dist:
                continue
            dist[i, s] = p
            for a in t.actions:
                if not star.is_centre(a) and star.leaf_of(a) == k and star.centre_holds(a.conditions, course[i]) and star.holds(a.conditions, k, s):
                    heapq.heappush(heap, (p + cost(a), (i, star.after(a.effects, k, s))))
            if i < len(path):
                a = t.actions[path[i]]
                if star.holds(a.conditions, k, s):
                    heapq.heappush(heap, (p, (i + 1, star.after(a.effects, k, s))))
        if not any(i == len(path) for i, _ in dist):
            return 13
        out += [dist.get((len(path), s), INF) for s in star.states[k]]
    return out


# ---- the line that the program prints

def price_sum(values):
    r = 0
    for x in values:
        r = (r * 257 + x) % 1000003
    return r


def price_line(number, answer):
    if isinstance(answer, int):
        return f"{number} refused {answer} kept\n"
    first = "".join(" -" if x == INF else f" {x}" for x in answer[:12])
    return f"{number} prices {len(answer)} sum {price_sum(answer)} first{first} kept\n"


def price_frame(record, path, lent):
    return frame(record) + frame(bytes(path)) + lent.to_bytes(2, "big")


if __name__ == "__main__":
    e = encode(fetch())
    assert price(e, [], 3) == [0, INF, INF]
    assert price(e, [0, 1], 3) == [0, 500, 800]
    assert price(e, [1], 3) == 13 and price(e, [2], 3) == 12 and price(e, [9], 3) == 12 and price(e, [0, 1], 2) == 21
    print("ok")
