"""Random calls of the pricer."""
import random
import sys
from prices import *


def random_task(R):
    leaves = R.choice([1, 1, 1, 2, 2, 3, 4, 8])
    big = R.choice([2, 3, 3, 4, 4, 6])
    fs = list(range(leaves + 1)) + [R.choice([0, R.randint(0, leaves), R.randint(1, leaves)]) for _ in range(R.choice([0, 1, 2, 3, 4]))]
    R.shuffle(fs)
    sizes = [R.randint(2, big) for _ in fs]
    n = len(fs)
    vs = [(s, f, R.choice([0, R.randrange(s)])) for s, f in zip(sizes, fs)]
    of = lambda *g: [v for v in range(n) if fs[v] in g]

    def pairs(over, most, least=0):
        k = min(len(over), R.randint(least, most))
        return [(v, R.randrange(sizes[v])) for v in sorted(R.sample(over, k))]

    costs = R.choice([[0, 1, 2], [0, 0, 1], [1, 10, 100], [R.randrange(4096) for _ in range(4)], [4095]])
    dists = R.choice([[0], [0], [R.randrange(1024) for _ in range(3)], [0, 1, 400, 401, 1023]])
    actions = []
    for _ in range(R.choice([1, 3, 6, 10, 16, 25])):
        if R.random() < R.choice([.25, .4, .6]):
            e = dict(pairs(of(0), 2, 1))
            if R.random() < .5:
                e.update(pairs(of(*range(1, leaves + 1)), R.choice([1, 2, 4])))
            c = dict(pairs(of(0), R.choice([0, 1, 1, 2])))
            if R.random() < .5:
                c.update(pairs(of(*range(1, leaves + 1)), R.choice([1, 1, 2, 3])))
        else:
            leaf = R.randint(1, leaves)
            e = dict(pairs(of(leaf), R.choice([1, 1, 2, 3]), 1))
            c = dict(pairs(of(leaf), R.choice([0, 1, 1, 2])))
            if R.random() < .5:
                c.update(pairs(of(0), R.choice([1, 1, 2])))
        actions.append(Action(R.choice(costs), R.choice(dists), sorted(c.items()), sorted(e.items())))
    return Task(leaves, vs, pairs(list(range(n)), 2), actions)


def random_path(R, t):
    star = Star(t)
    centre = [k for k, a in enumerate(t.actions) if star.is_centre(a)]
    node = star.layer(*star.start(), star.settle)
    path = []
    for _ in range(R.choice([0, 1, 2, 3, 5, 8, 12, 20])):
        can = [k for k in centre if star.step(node, t.actions[k])] if node else []
        if can and R.random() < .985:
            k = R.choice(can)
        elif centre and R.random() < .5:
            k = R.choice(centre)
        else:
            break
        path.append(k)
        if node:
            node = star.step(node, t.actions[k])
            node = node and star.layer(*node, star.settle)
    if R.random() < .04:
        path.insert(R.randint(0, len(path)), R.choice([len(t.actions), R.randrange(256), R.randrange(len(t.actions))]))
    return path


def random_call(R, plain=False):
    while True:
        t = random_task(R)
        S = sum(leaf_states(t, k) for k in range(1, t.leaves + 1))
        if S <= 1024 and (not plain or S <= 60):
            break
    record = encode(t)
    good = isinstance(read(record), Task)
    path = random_path(R, t) if good else [R.randrange(len(t.actions)) for _ in range(R.randint(0, 5))]
    lent = R.choice([S, S, S, S + 1, S + R.randint(0, 30), S - 1 if R.random() < .3 else S, 1100 if R.random() < .1 else S])
    if R.random() < .05:
        record = bytearray(record)
        record[R.randrange(len(record))] ^= 1 << R.randrange(8)
        record = bytes(record)
    return record, path, min(lent, 1100)


if __name__ == "__main__":
    folder, seed, many = sys.argv[1], int(sys.argv[2]), int(sys.argv[3])
    R = random.Random(seed)
    from collections import Counter
    c, lens = Counter(), Counter()
    with open(folder + "/stdin", "wb") as i, open(folder + "/stdout", "w") as o:
        for k in range(many):
            record, path, lent = random_call(R)
            got = price(record, path, lent)
            if isinstance(got, list):
                assert got == price_flat(read(record), path)
            c[got if isinstance(got, int) else 0] += 1
            if isinstance(got, list):
                lens[min(len(path), 10)] += 1
            i.write(price_frame(record, path, lent))
            o.write(price_line(k + 1, got))
    print(many, "calls", sorted(c.items()), "path lengths of the answered", sorted(lens.items()))
