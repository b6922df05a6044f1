"""Reference model of the task record, from the paper alone.

A task is a Task below; a record is bytes. `fields(task)` lists every field in order, as [name, width, value], so that a fault can be put into any one
of them; `pack` writes such a list, most significant bit first, and fills the last byte with zero bits. `read(record)` answers an int (the
refusal's number) or a Task.
"""

from dataclasses import dataclass, field as dc_field
from math import prod


@dataclass
class Action:
    handling: int
    distance: int
    conditions: list  # of (variable, value)
    effects: list


@dataclass
class Task:
    leaves: int
    variables: list  # of (size, factor, initial)
    goal: list  # of (variable, value)
    actions: list = dc_field(default_factory=list)


# ---- writing

def pairs_fields(name, pairs):
    out = [[f"{name}.count", 6, len(pairs)]]
    for k, (variable, value) in enumerate(pairs):
        out.append([f"{name}.{k}.variable", 5, variable])
        out.append([f"{name}.{k}.value", 4, value])
    return out


def fields(t):
    out = [["variables", 5, len(t.variables) - 1], ["leaves", 3, t.leaves - 1], ["actions", 8, len(t.actions)]]
    for v, (size, factor, initial) in enumerate(t.variables):
        out += [[f"v{v}.size", 4, size - 1], [f"v{v}.factor", 4, factor], [f"v{v}.initial", 4, initial]]
    out += pairs_fields("goal", t.goal)
    for a, act in enumerate(t.actions):
        out += [[f"a{a}.handling", 12, act.handling], [f"a{a}.distance", 10, act.distance]]
        out += pairs_fields(f"a{a}.c", act.conditions)
        out += pairs_fields(f"a{a}.e", act.effects)
    return out


def bits_of(fs):
    out = []
    for name, width, value in fs:
        assert 0 <= value < 2 ** width, (name, width, value)
        out.append(format(value, "b").zfill(width))
    return "".join(out)


def pack_bits(bits):
    bits += "0" * (-len(bits) % 8)
    return bytes(int(bits[i:i + 8], 2) for i in range(0, len(bits), 8))


def pack(fs):
    return pack_bits(bits_of(fs))


def encode(t):
    return pack(fields(t))


# ---- reading

class Refused(Exception):
    def __init__(self, number):
        self.number = number


class Bits:
    def __init__(self, record):
        self.text = "".join(format(b, "08b") for b in record)
        self.at = 0

    def take(self, width):
        piece = self.text[self.at:self.at + width]
        if len(piece) < width:
            raise Refused(1)
        self.at += width
        return int(piece, 2)


def refuse(number, fault):
    if fault:
        raise Refused(number)


def read_pairs(bits, variables, count):
    pairs = []
    for _ in range(count):
        variable = bits.take(5)
        refuse(5, variable >= len(variables) or (pairs and variable <= pairs[-1][0]))
        value = bits.take(4)
        refuse(6, value >= variables[variable][0])
        pairs.append((variable, value))
    return pairs


def read_fields(bits):
    n = bits.take(5) + 1
    leaves = bits.take(3) + 1
    m = bits.take(8)
    variables = []
    for _ in range(n):
        size = bits.take(4) + 1
        refuse(2, size == 1)
        factor = bits.take(4)
        refuse(3, factor > leaves)
        initial = bits.take(4)
        refuse(4, initial >= size)
        variables.append((size, factor, initial))
    goal = read_pairs(bits, variables, bits.take(6))
    actions = []
    for _ in range(m):
        handling = bits.take(12)
        distance = bits.take(10)
        conditions = read_pairs(bits, variables, bits.take(6))
        count = bits.take(6)
        refuse(7, count == 0)
        effects = read_pairs(bits, variables, count)
        actions.append(Action(handling, distance, conditions, effects))
    return Task(leaves, variables, goal, actions)


def leaf_states(t, leaf):
    return prod(size for size, factor, _ in t.variables if factor == leaf)


def is_star(t, action):
    on = lambda pairs: {t.variables[v][1] for v, _ in pairs}
    if 0 in on(action.effects):
        return True
    if len(on(action.effects)) != 1:
        return False
    return on(action.conditions) <= on(action.effects) | {0}


def read(record):
    bits = Bits(record)
    try:
        t = read_fields(bits)
        left = len(bits.text) - bits.at
        refuse(8, left >= 8 or "1" in bits.text[bits.at:])
        refuse(9, {f for _, f, _ in t.variables} != set(range(t.leaves + 1)))
        states = [leaf_states(t, leaf) for leaf in range(1, t.leaves + 1)]
        refuse(10, max(states) > 256 or sum(states) > 1024)
        refuse(11, not all(is_star(t, a) for a in t.actions))
        return t
    except Refused as r:
        return r.number


# ---- the line that the program prints

FREE = 16


def arrays(t):
    """The task as eight arrays of fixed length: what is behind the last variable or action is 0, or 16 in factors and lists of pairs."""
    def filled(values, length, blank):
        return values + [blank] * (length - len(values))

    def row(pairs):
        out = [FREE] * 32
        for variable, value in pairs:
            out[variable] = value
        return out

    flat = lambda rows: [x for r in rows for x in r]
    return [
        filled([s for s, _, _ in t.variables], 32, 0),
        filled([f for _, f, _ in t.variables], 32, FREE),
        filled([i for _, _, i in t.variables], 32, 0),
        row(t.goal),
        filled([a.handling for a in t.actions], 256, 0),
        filled([a.distance for a in t.actions], 256, 0),
        filled(flat(row(a.conditions) for a in t.actions), 8192, FREE),
        filled(flat(row(a.effects) for a in t.actions), 8192, FREE),
    ]


POWERS = [pow(257, k, 1000003) for k in range(8192)]


def checksum(values):
    return sum(x * p for x, p in zip(reversed(values), POWERS)) % 1000003


def line(number, record):
    answer = read(record)
    if isinstance(answer, int):
        return f"{number} refused {answer}\n"
    sums = " ".join(str(checksum(a)) for a in arrays(answer))
    return f"{number} accepted {len(answer.variables)} {answer.leaves} {len(answer.actions)} sums {sums}\n"


def frame(record):
    return len(record).to_bytes(2, "big") + record


# ---- the paper's example

def fetch():
    return Task(
        1,
        [(2, 0, 0), (3, 1, 0)],
        [(1, 2)],
        [
            Action(0, 400, [(0, 0)], [(0, 1)]),
            Action(0, 400, [(0, 1)], [(0, 0)]),
            Action(500, 0, [(0, 1), (1, 0)], [(1, 1)]),
            Action(300, 0, [(0, 0), (1, 1)], [(1, 2)]),
        ],
    )


if __name__ == "__main__":
    rec = encode(fetch())
    assert len(rec) == 36 and rec[:5] == bytes.fromhex("0804100210"), rec.hex(" ")
    assert read(rec) == fetch()
    print(rec.hex(" "))
    print(line(1, rec), end="")
