"""The cases: each has what it is, the expected answer stated by hand, and the byte string. The model must give the stated answer."""
import copy
import sys
from record import *

CASES = []  # (section, what, expected, record)
SECTION = [""]


def section(name):
    SECTION[0] = name


def case(what, expected, record):
    got = read(record)
    if expected == "accepted":
        assert isinstance(got, Task), (what, got)
        assert encode(got) == record, what
    elif expected is not None:
        assert got == expected, (what, expected, got)
    assert len(record) < 65536
    CASES.append((SECTION[0], what, got if isinstance(got, int) else got, record))


# ---- tools to make faults

def put(t_or_fs, **changes):
    fs = [list(f) for f in (fields(t_or_fs) if isinstance(t_or_fs, Task) else t_or_fs)]
    for name, value in changes.items():
        name = name.replace("_", ".")
        hit = [f for f in fs if f[0] == name]
        assert len(hit) == 1, name
        hit[0][2] = value
    return fs


def end_of(fs, name):
    at = 0
    for f in fs:
        at += f[1]
        if f[0] == name:
            return at
    raise KeyError(name)


def cut_behind(fs, name):
    """The whole bytes that hold the fields up to this one; the next field must not be whole in them."""
    end = end_of(fs, name)
    size = (end + 7) // 8
    names = [f[0] for f in fs]
    k = names.index(name) + 1
    assert k == len(fs) or end + fs[k][1] > 8 * size, ("the next field is whole too", name)
    return pack(fs)[:size]


def cut_inside(fs, name):
    """The bytes before the one that holds the last bit of this field: the field before it must be whole in them."""
    end = end_of(fs, name)
    size = (end - 1) // 8
    width = [f[1] for f in fs if f[0] == name][0]
    assert end - width <= 8 * size < end, ("no whole byte ends inside this field", name)
    return pack(fs)[:size]


def without(t, *actions):
    t = copy.deepcopy(t)
    t.actions = [a for k, a in enumerate(t.actions) if k not in actions]
    return t


def change(t, f):
    t = copy.deepcopy(t)
    f(t)
    return t


def with_variable(t, v, size=None, factor=None, initial=None):
    def f(t):
        s, g, i = t.variables[v]
        t.variables[v] = (size or s, g if factor is None else factor, i if initial is None else initial)
    return change(t, f)


def with_action(t, k, conditions, effects):
    def f(t):
        t.actions[k] = Action(t.actions[k].handling, t.actions[k].distance, conditions, effects)
    return change(t, f)


def with_goal(t, goal):
    def f(t):
        t.goal = goal
    return change(t, f)


# ---- the tasks

E = fetch()
e = encode(E)

# two centre variables, three leaves, seven actions of every kind
D = Task(
    3,
    [(4, 0, 1), (3, 1, 0), (2, 1, 1), (5, 2, 4), (2, 0, 0), (16, 3, 15)],
    [(1, 2), (3, 0), (5, 7)],
    [
        Action(10, 120, [(0, 1)], [(0, 2)]),
        Action(200, 0, [(0, 2), (1, 0)], [(1, 1)]),
        Action(4095, 0, [], [(3, 0)]),
        Action(75, 3, [(0, 3), (1, 1), (2, 1)], [(1, 2), (2, 0)]),
        Action(0, 1023, [(0, 2), (1, 1), (3, 4), (5, 15)], [(2, 0), (3, 1), (4, 1)]),
        Action(1, 1, [(4, 1), (5, 15)], [(5, 7)]),
        Action(0, 401, [(0, 0), (4, 0)], [(0, 3), (4, 1)]),
    ],
)
d = encode(D)


# 32 variables, 16 of them the centre's, the others two to a leaf of 128 states; the values go through all that the sizes allow
def many_variables():
    out = []
    for v in range(32):
        if v % 2 == 0:
            size, factor = 2 + v % 15, 0
        else:
            size, factor = (16 if v < 16 else 8), (v // 2) % 8 + 1
        out.append((size, factor, (5 * v + 1) % size))
    return out


V = many_variables()
assert sum(prod(s for s, f, _ in V if f == leaf) for leaf in range(1, 9)) == 1024


def value(k, v):
    return (7 * k + 3 * v + k * v) % V[v][0]


def of_factors(fs):
    return [v for v in range(32) if V[v][1] in fs]


def many_actions():
    out = []
    for k in range(255):
        leaf = k % 8 + 1
        if k % 3 == 0:
            c, x = of_factors([0])[k % 16:k % 16 + 2], of_factors([0])[(k + 5) % 16:(k + 5) % 16 + 1]
        elif k % 3 == 1:
            c, x = of_factors([0, leaf])[k % 17:k % 17 + 2], of_factors([leaf])[:1 + k % 2]
        else:
            c, x = of_factors([leaf, leaf % 8 + 1]), of_factors([0, leaf])[k % 16:k % 16 + 3]
        x = x if x and (k % 3 == 1 or any(V[v][1] == 0 for v in x)) else [2 * (k % 16)]
        out.append(Action((37 * k + 11) % 4096, (101 * k + 7) % 1024, [(v, value(k, v)) for v in c], [(v, value(k + 1, v)) for v in x]))
    return out


M = Task(8, V, [(v, value(3, v)) for v in range(0, 32, 5)], many_actions())

ALL = lambda k: [(v, value(k, v)) for v in range(32)]
LONGEST = Task(8, V, ALL(0), [Action((16 * k + 15) % 4096, (4 * k + 3) % 1024, ALL(2 * k + 1), ALL(2 * k + 2)) for k in range(255)])
longest = encode(LONGEST)
assert len(longest) == 19531

SMALLEST = Task(1, [(2, 0, 0), (2, 1, 1)], [])
assert len(encode(SMALLEST)) == 6

# one variable in the centre and in each of eight leaves
NINE = Task(
    8,
    [(2 + v, v, 1 + v) for v in range(9)],
    [(v, v) for v in range(9)],
    [Action(v, v, [(0, 0)], [(v, 1)]) for v in range(9)],
)


def leaves_of(*leaves):
    """A task with a centre variable of size 2 and leaves with variables of these sizes, each leaf's one after the other."""
    return Task(len(leaves), [(2, 0, 0)] + [(s, k + 1, s - 1) for k, sizes in enumerate(leaves) for s in sizes], [(0, 1)], [Action(5, 6, [(0, 0)], [(0, 1)])])


# ---- accepted

section("Accepted")
case("the example, one pair to fetch", "accepted", e)
case("the example without take", "accepted", encode(without(E, 2)))
case("the example with an empty goal", "accepted", encode(with_goal(E, [])))
case("the example with no actions at all", "accepted", encode(without(E, 0, 1, 2, 3)))
case("the smallest record: two variables, no goal, no actions", "accepted", encode(SMALLEST))
case("the depot: 6 variables, 3 leaves, 7 actions of every kind; its fields fill its bytes, there are no fill bits", "accepted", d)
assert len(bits_of(fields(D))) % 8 == 0
case("the depot with its variables in another order: the centre's last", "accepted", encode(Task(
    3, [(5, 2, 4), (16, 3, 0), (3, 1, 2), (2, 1, 1), (2, 0, 0), (4, 0, 3)], [(0, 1), (4, 1)],
    [Action(9, 8, [(2, 0), (4, 0)], [(2, 1), (3, 0)]), Action(7, 6, [(0, 0), (1, 1), (2, 2)], [(0, 4), (5, 1)])])))
case("one variable in the centre and in each of 8 leaves", "accepted", encode(NINE))
case("a single centre action with conditions and effects on several leaves", "accepted",
     encode(Task(3, D.variables, [], [Action(1, 2, [(0, 0), (1, 1), (3, 2), (5, 3)], [(1, 0), (2, 1), (3, 3), (4, 0), (5, 4)])])))
case("a centre action with a condition on one leaf and an effect on another", "accepted",
     encode(Task(3, D.variables, [], [Action(1, 2, [(1, 1)], [(0, 3), (3, 3)])])))
case("a leaf action with no conditions", "accepted", encode(Task(3, D.variables, [], [Action(1, 2, [], [(5, 15)])])))
case("a leaf action with conditions on the centre alone", "accepted", encode(Task(3, D.variables, [], [Action(1, 2, [(0, 0), (4, 1)], [(3, 4)])])))
case("a leaf action with conditions and effects on two variables of its leaf, and on the centre", "accepted",
     encode(Task(3, D.variables, [], [Action(1, 2, [(0, 0), (1, 0), (2, 0), (4, 1)], [(1, 2), (2, 1)])])))
case("every number as large as its field allows: sizes 16, values 15, handling 4,095, distance 1,023", "accepted",
     encode(Task(1, [(16, 0, 15), (16, 1, 15), (16, 1, 15)], [(0, 15), (1, 15), (2, 15)],
                 [Action(4095, 1023, [(0, 15), (1, 15), (2, 15)], [(0, 15), (1, 15), (2, 15)])])))
case("a leaf of exactly 256 states, two variables of size 16", "accepted", encode(leaves_of([16, 16])))
case("a leaf of exactly 256 states, eight variables of size 2", "accepted", encode(leaves_of([2] * 8)))
case("the last of 8 leaves has exactly 256 states", "accepted", encode(leaves_of(*[[2]] * 7, [4, 8, 8])))
case("exactly 1,024 leaf states, four leaves of 256", "accepted", encode(leaves_of(*[[16, 16]] * 4)))
case("exactly 1,024 leaf states, eight leaves of 128", "accepted", encode(leaves_of(*[[16, 8]] * 8)))
case("a centre of 31 variables of size 16: its states are not counted", "accepted",
     encode(Task(1, [(16, 0, 0)] * 31 + [(2, 1, 0)], [(30, 15), (31, 1)], [Action(0, 0, [], [(31, 1)])])))
case("32 variables, 8 leaves, 255 actions, 1,024 leaf states", "accepted", encode(M))
case("32 variables, 8 leaves, no actions, a goal of 32 pairs", "accepted", encode(Task(8, V, ALL(0))))
case("the longest record: 32 variables, a goal of 32 pairs, 255 actions with 32 conditions and 32 effects each", "accepted", longest)

# ---- 1

section("Refusal 1, the record ends inside a field")
case("the empty record", 1, b"")
fe, fd = fields(E), fields(D)
case("cut in the head, behind its first byte", 1, cut_inside(fe, "actions"))
case("cut behind the head", 1, cut_inside(fe, "v0.size"))
case("1 byte, all bits set", 1, b"\xff")
case("2 bytes, all bits set", 1, b"\xff\xff")
case("cut before the first variable's initial value", 1, cut_inside(fe, "v0.initial"))
case("cut before the initial value of the depot's third variable", 1, cut_inside(fd, "v2.initial"))
case("cut before the last variable's factor", 1, cut_inside(fe, "v1.factor"))
case("cut before the factor of the depot's last variable", 1, cut_inside(fd, "v5.factor"))
case("cut before the goal's number of pairs", 1, cut_inside(fe, "goal.count"))
case("cut in the variable of the goal's pair", 1, cut_inside(fe, "goal.0.variable"))
case("cut in the value of the last pair of the depot's goal", 1, cut_inside(fd, "goal.2.value"))
case("cut in the first action's handling", 1, cut_inside(fe, "a0.handling"))
case("cut in the first action's distance", 1, cut_inside(fe, "a0.distance"))
case("cut in the first action's number of conditions", 1, cut_inside(fe, "a0.c.count"))
case("cut before the value of the first action's condition", 1, cut_inside(fe, "a0.c.0.value"))
case("cut in the first action's number of effects", 1, cut_inside(fe, "a0.e.count"))
case("cut in the value of the first action's effect", 1, cut_inside(fe, "a0.e.0.value"))
case("cut in a condition of the depot's middle action", 1, cut_inside(fd, "a3.c.1.value"))
case("cut in an effect of the depot's middle action", 1, cut_inside(fd, "a3.e.1.value"))
case("cut in the handling of the depot's last action", 1, cut_inside(fd, "a6.handling"))
case("cut before the number of effects of the depot's last action", 1, cut_inside(fd, "a6.e.count"))
case("cut in the last pair of the depot's last action", 1, cut_inside(fd, "a6.e.1.variable"))
case("cut in the last field of the example", 1, cut_inside(fe, "a3.e.0.value"))
case("the longest record without its last byte", 1, longest[:-1])
case("a goal's number of pairs and nothing behind it, one action", 1, pack(put(Task(1, SMALLEST.variables, []), actions=1)))
case("one action fewer than the head says", 1, pack(put(E, actions=5)))
case("255 actions said, 4 there", 1, pack(put(E, actions=255)))

# ---- 2 to 4

section("Refusals 2, 3 and 4, in the variables")
for v, where in ((0, "first"), (2, "a middle"), (5, "last")):
    case(f"size 1 in the depot's {where} variable".replace("depot's a middle", "depot's middle"), 2, pack(put(fd, **{f"v{v}_size": 0})))
case("size 1 in the example's last variable", 2, pack(put(fe, v1_size=0)))
case("size 1 in the last of 32 variables", 2, pack(put(Task(8, V, []), v31_size=0)))
for v, where in ((0, "first"), (2, "middle"), (5, "last")):
    case(f"factor 4 of 3 leaves in the depot's {where} variable", 3, pack(put(fd, **{f"v{v}_factor": 4})))
case("factor 2 of 1 leaf", 3, pack(put(fe, v1_factor=2)))
case("factor 15 of 1 leaf", 3, pack(put(fe, v0_factor=15)))
case("factor 9 of 8 leaves", 3, pack(put(NINE, v8_factor=9)))
case("factor 15 of 8 leaves, in the last of 32 variables", 3, pack(put(Task(8, V, []), v31_factor=15)))
for v, where in ((0, "first"), (2, "middle"), (4, "last but one")):
    case(f"an initial value equal to the size in the depot's {where} variable", 4, pack(put(fd, **{f"v{v}_initial": D.variables[v][0]})))
case("an initial value equal to the size in the example's last variable", 4, pack(put(fe, v1_initial=3)))
case("initial value 15 of size 2", 4, pack(put(fe, v0_initial=15)))
case("initial value 15 of size 15", 4, pack(put(fd, v5_size=14)))
case("an initial value outside its size in the last of 32 variables", 4, pack(put(Task(8, V, []), v31_initial=8)))

# ---- 5

section("Refusal 5, a pair's variable")
case("goal: the first variable that is not there", 5, pack(put(fe, goal_0_variable=2)))
case("goal: variable 31 of 2", 5, pack(put(fe, goal_0_variable=31)))
case("goal: the first pair's variable unknown, of three pairs", 5, pack(put(fd, goal_0_variable=6)))
case("goal: the middle pair's variable equal to the one before", 5, pack(put(fd, goal_1_variable=1)))
case("goal: the middle pair's variable below the one before", 5, pack(put(fd, goal_1_variable=0)))
case("goal: the last pair's variable equal to the one before", 5, pack(put(fd, goal_2_variable=3)))
case("goal: the last pair's variable below the first", 5, pack(put(fd, goal_2_variable=0)))
case("goal: the last pair's variable unknown", 5, pack(put(fd, goal_2_variable=6)))
case("conditions of the first action: unknown", 5, pack(put(fd, a0_c_0_variable=6)))
case("conditions of a middle action: equal to the one before", 5, pack(put(fd, a3_c_1_variable=0)))
case("conditions of a middle action: below the one before", 5, pack(put(fd, a3_c_2_variable=0)))
case("conditions of the last action: unknown", 5, pack(put(fd, a6_c_1_variable=31)))
case("conditions of the last action: equal to the one before", 5, pack(put(fd, a6_c_1_variable=0)))
case("effects of the first action: unknown", 5, pack(put(fd, a0_e_0_variable=7)))
case("effects of a middle action: equal to the one before", 5, pack(put(fd, a4_e_1_variable=2)))
case("effects of a middle action: below the one before", 5, pack(put(fd, a4_e_2_variable=1)))
case("effects of the last action: unknown", 5, pack(put(fd, a6_e_1_variable=6)))
case("effects of the last action: equal to the one before", 5, pack(put(fd, a6_e_1_variable=0)))
case("effects of the last action: below the one before", 5, pack(put(with_action(D, 6, [(0, 0)], [(1, 0), (4, 1)]), a6_e_1_variable=0)))
case("the example's last action: its effect's variable unknown", 5, pack(put(fe, a3_e_0_variable=2)))
case("the longest record's last pair: its variable equal to the one before", 5, pack(put(LONGEST, a254_e_31_variable=30)))

# ---- 6

section("Refusal 6, a pair's value")
case("goal: equal to the size", 6, pack(put(fe, goal_0_value=3)))
case("goal: 15 of size 3", 6, pack(put(fe, goal_0_value=15)))
case("goal: the first of three pairs", 6, pack(put(fd, goal_0_value=3)))
case("goal: the middle pair", 6, pack(put(fd, goal_1_value=5)))
case("goal: the last pair", 6, pack(put(with_variable(D, 5, 15, 3, 14), goal_2_value=15)))
case("conditions of the first action", 6, pack(put(fd, a0_c_0_value=4)))
case("conditions of a middle action, the last pair", 6, pack(put(fd, a3_c_2_value=2)))
case("conditions of the last action, the first pair", 6, pack(put(fd, a6_c_0_value=4)))
case("effects of the first action", 6, pack(put(fd, a0_e_0_value=4)))
case("effects of a middle action, the first pair", 6, pack(put(fd, a4_e_0_value=2)))
case("effects of the last action, the last pair", 6, pack(put(fd, a6_e_1_value=2)))
case("the example's last action's effect, the last field of the record", 6, pack(put(fe, a3_e_0_value=3)))
case("the longest record's last pair, the last field of the record", 6, pack(put(LONGEST, a254_e_31_value=8)))

# ---- 7

section("Refusal 7, no effects")
for k, where in ((0, "first"), (3, "middle"), (6, "last")):
    t = change(D, lambda t: t.actions[k].effects.clear())
    case(f"the depot's {where} action", 7, encode(t))
case("the example's last action", 7, encode(change(E, lambda t: t.actions[3].effects.clear())))
case("an action without conditions and effects", 7, encode(Task(1, SMALLEST.variables, [], [Action(0, 0, [], [])])))
case("the last of 255 actions", 7, encode(change(M, lambda t: t.actions[254].effects.clear())))
case("the number of effects is 0, their bits stand behind it", 7, pack(put(fe, a1_e_count=0)))

# ---- 8

section("Refusal 8, fill bits not zero, or bytes left over")
assert len(bits_of(fe)) == 281
for k in range(7):
    case(f"the example with fill bit {k + 1} of 7 set", 8, e[:-1] + bytes([e[-1] | 64 >> k]))
case("the example with all fill bits set", 8, e[:-1] + bytes([e[-1] | 127]))
case("the smallest record with its first fill bit set", 8, encode(SMALLEST)[:-1] + bytes([encode(SMALLEST)[-1] | 2]))
case("the smallest record with its last fill bit set", 8, encode(SMALLEST)[:-1] + bytes([encode(SMALLEST)[-1] | 1]))
case("the example and one zero byte more", 8, e + b"\0")
case("the example and one byte more that is not zero", 8, e + b"\1")
case("the example with a fill bit set, and one zero byte more", 8, e[:-1] + bytes([e[-1] | 1]) + b"\0")
case("the example and 1,000 zero bytes more", 8, e + b"\0" * 1000)
case("the example twice, one behind the other", 8, e + e)
case("the depot, which has no fill bits, and one zero byte more", 8, d + b"\0")
case("the depot, which has no fill bits, and one byte more that is not zero", 8, d + b"\x80")
case("the smallest record and one zero byte more", 8, encode(SMALLEST) + b"\0")
case("one action more than the head says", 8, pack(put(E, actions=3)))
case("the longest record with its last fill bit set", 8, longest[:-1] + bytes([longest[-1] | 1]))
case("the longest record and one zero byte more", 8, longest + b"\0")

# ---- 9

section("Refusal 9, the centre or a leaf without variables")
case("a single variable, the centre's: the leaf has none", 9, encode(Task(1, [(2, 0, 0)], [])))
case("a single variable, the leaf's: the centre has none", 9, encode(Task(1, [(2, 1, 0)], [])))
case("the depot's centre without variables", 9, encode(with_variable(with_variable(D, 0, factor=1), 4, factor=2)))
case("the depot's first leaf without variables", 9, encode(with_variable(with_variable(D, 1, factor=2), 2, factor=0)))
case("the depot's middle leaf without variables", 9, encode(with_variable(D, 3, factor=1)))
case("the depot's last leaf without variables", 9, encode(with_variable(D, 5, factor=0)))
case("the last of 8 leaves without variables", 9, encode(with_variable(NINE, 8, factor=7)))
case("the first of 8 leaves without variables", 9, encode(with_variable(NINE, 1, factor=0)))
case("8 leaves, 2 variables", 9, encode(Task(8, [(2, 0, 0), (2, 8, 0)], [])))
case("32 variables, all the centre's", 9, encode(Task(1, [(2, 0, 0)] * 32, [])))

# ---- 10

section("Refusal 10, too many leaf states")
case("a leaf of 260 states (2 × 2 × 5 × 13), the only one", 10, encode(leaves_of([2, 2, 5, 13])))
case("a leaf of 260 states, the first of three", 10, encode(leaves_of([13, 5, 2, 2], [2], [2])))
case("a leaf of 260 states, the middle one of three", 10, encode(leaves_of([2], [2, 13, 2, 5], [2])))
case("a leaf of 260 states, the last of eight", 10, encode(leaves_of(*[[2]] * 7, [2, 2, 13, 5])))
case("a leaf of 264 states in variables that do not stand together", 10,
     encode(Task(2, [(12, 1, 0), (2, 0, 0), (2, 1, 0), (2, 2, 0), (11, 1, 0)], [])))
case("a leaf of 512 states, nine variables of size 2", 10, encode(leaves_of([2] * 9)))
case("1,025 leaf states in five leaves, none above 256", 10, encode(leaves_of([16, 16], [16, 16], [16, 16], [15, 15], [16, 2])))
case("1,026 leaf states, the last leaf takes them above 1,024", 10, encode(leaves_of(*[[16, 16]] * 4, [2])))
case("1,026 leaf states, the first leaf has the two", 10, encode(leaves_of([2], *[[16, 16]] * 4)))
case("2,048 leaf states, eight leaves of 256", 10, encode(leaves_of(*[[16, 16]] * 8)))
case("a leaf of 4 variables of size 16: a product of 2^16", 10, encode(leaves_of([16] * 4)))
case("a leaf of 196,625 states, which is 17 and a multiple of 2^16", 10, encode(leaves_of([5, 5, 5, 11, 11, 13])))
case("a leaf of 8 variables of size 16: a product of 2^32", 10, encode(leaves_of([16] * 8)))
case("a leaf of 16 variables of size 16: a product of 2^64", 10, encode(leaves_of([16] * 16)))
case("a leaf of 31 variables of size 16: a product of 2^124", 10, encode(leaves_of([16] * 31)))
case("two leaves of 8 variables of size 16", 10, encode(leaves_of([16] * 8, [16] * 8)))

# ---- 11

section("Refusal 11, an action that is neither centre nor leaf action")
for k, where in ((0, "first"), (3, "middle"), (6, "last")):
    case(f"the depot's {where} action: effects in two leaves", 11, encode(with_action(D, k, [], [(1, 0), (3, 0)])))
for k, where in ((0, "first"), (3, "middle"), (6, "last")):
    case(f"the depot's {where} action: a leaf action with a condition on another leaf", 11, encode(with_action(D, k, [(3, 0)], [(1, 0)])))
case("effects in two leaves, conditions on the centre", 11, encode(with_action(D, 1, [(0, 0), (4, 1)], [(1, 0), (3, 0)])))
case("effects in two leaves, the first and the last", 11, encode(with_action(D, 1, [(1, 0)], [(1, 0), (2, 0), (5, 0)])))
case("effects in every leaf and not in the centre", 11, encode(with_action(D, 1, [], [(1, 0), (2, 0), (3, 0), (5, 0)])))
case("a condition on the leaf before the effect's", 11, encode(with_action(D, 5, [(3, 0), (5, 0)], [(5, 1)])))
case("a condition on the leaf behind the effect's", 11, encode(with_action(D, 1, [(1, 0), (5, 0)], [(1, 1)])))
case("conditions on centre, own leaf and another leaf", 11, encode(with_action(D, 2, [(0, 0), (2, 0), (3, 0)], [(3, 1)])))
case("conditions on two leaves, an effect on a third", 11, encode(with_action(D, 2, [(1, 0), (5, 0)], [(3, 1)])))
case("the only action of a task", 11, encode(Task(2, [(2, 0, 0), (2, 1, 0), (2, 2, 0)], [], [Action(0, 0, [(1, 0)], [(2, 1)])])))
for k, where in ((0, "first"), (127, "128th"), (254, "last")):
    case(f"the {where} of 255 actions: effects in leaves 1 and 8", 11, encode(with_action(M, k, [], [(1, 0), (15, 0)])))
case("the longest record but for the effects of its last action, on the leaves alone", 11,
     encode(with_action(LONGEST, 254, ALL(509), [(v, value(510, v)) for v in range(1, 32, 2)])))

# ---- two faults

section("Two faults in one record: the one that comes first in the written order")
case("2 in the first variable, and the record ends behind its factor", 2, pack(put(fe, v0_size=0))[:3])
case("2 in the last variable, and the record ends there", 2, cut_behind(put(fe, v1_size=0), "v1.size"))
case("3, and the record ends there", 3, cut_behind(put(fe, v0_factor=2), "v0.factor"))
case("4, and the record ends there", 4, cut_behind(put(fe, v1_initial=3), "v1.initial"))
case("5 in a condition, and the record ends there, before the pair's value", 5, cut_behind(put(fe, a0_c_0_variable=2), "a0.c.0.variable"))
case("5 in the last effect, and the record ends inside the pair's value", 5, pack(put(fe, a3_e_0_variable=31))[:35])
case("6 in the goal, and the record ends there", 6, cut_behind(put(fe, goal_0_value=3), "goal.0.value"))
case("7 in the second action, and the record ends there", 7, cut_behind(put(fe, a1_e_count=0), "a1.e.count"))
case("7 in the last action, and the record ends inside the pair behind it", 7, pack(put(fe, a3_e_count=0))[:35])
case("2 and 3 in one variable", 2, pack(put(fe, v0_size=0, v0_factor=2)))
case("2 and 4 in one variable", 2, pack(put(fe, v0_size=0, v0_initial=1)))
case("3 and 4 in one variable", 3, pack(put(fe, v0_factor=2, v0_initial=2)))
case("3, then 2 in the next variable", 3, pack(put(fe, v0_factor=2, v1_size=0)))
case("2, then 3 in the next variable", 2, pack(put(fe, v0_size=0, v1_factor=2)))
case("4, then 2 in the next variable", 4, pack(put(fe, v0_initial=2, v1_size=0)))
case("4, then 3 in the next variable", 4, pack(put(fe, v0_initial=2, v1_factor=2)))
case("4 in the last variable, 5 in the goal", 4, pack(put(fe, v1_initial=3, goal_0_variable=2)))
case("4 in the last variable, 6 in the goal", 4, pack(put(fe, v1_initial=3, goal_0_value=3)))
case("5 and 6 in one pair", 5, pack(put(fe, goal_0_variable=2, goal_0_value=15)))
case("6, then 5 in the next pair", 6, pack(put(fd, goal_0_value=3, goal_1_variable=0)))
case("5, then 6 in the next pair", 5, pack(put(fd, goal_1_variable=0, goal_2_value=15)))
case("6 in the goal, 5 in the first action", 6, pack(put(fd, goal_1_value=5, a0_c_0_variable=9)))
case("5 in the goal, 6 in the first action", 5, pack(put(fd, goal_1_variable=9, a0_c_0_value=9)))
case("6 in a condition, 7 in the same action", 6, pack(put(fd, a3_c_2_value=2, a3_e_count=0)))
case("5 in a condition, 7 in the same action", 5, pack(put(fd, a3_c_2_variable=0, a3_e_count=0)))
case("7, then 5 in the next action", 7, encode(change(with_action(D, 1, [(1, 0)], [(1, 0)]), lambda t: (t.actions[0].effects.clear(), t.actions[1].conditions.__setitem__(0, (9, 0))))))
case("5, then 7 in the next action", 5, encode(change(D, lambda t: (t.actions[0].conditions.__setitem__(0, (9, 0)), t.actions[1].effects.clear()))))
case("7, then 6 in the next action", 7, encode(change(D, lambda t: (t.actions[2].effects.clear(), t.actions[3].conditions.__setitem__(0, (0, 4))))))
case("6, then 7 in the next action", 6, encode(change(D, lambda t: (t.actions[2].effects.__setitem__(0, (3, 5)), t.actions[3].effects.clear()))))
no_leaf = with_variable(D, 3, factor=1)
too_many = Task(2, [(2, 0, 0), (16, 1, 0), (16, 1, 0), (2, 1, 0), (2, 2, 0)], [], [Action(0, 0, [], [(0, 1)])])
not_star = with_action(D, 6, [], [(1, 0), (3, 0)])
case("6 and 8", 6, pack(put(fe, a3_e_0_value=3))[:-1] + b"\xff\xff")
case("7 in the last action and a byte left over", 7, encode(change(D, lambda t: t.actions[6].effects.clear())) + b"\0")
case("6 and 9", 6, pack(put(no_leaf, goal_0_value=3)))
case("7 and 10", 7, encode(change(too_many, lambda t: t.actions[0].effects.clear())))
case("7 in the last action, 11 in the first", 7, encode(change(with_action(D, 0, [], [(1, 0), (3, 0)]), lambda t: t.actions[6].effects.clear())))
case("5 in the last action, 11 in the first", 5, pack(put(with_action(D, 0, [], [(1, 0), (3, 0)]), a6_e_1_variable=0)))
case("1 in the last action, 11 in the first", 1, encode(with_action(D, 0, [], [(1, 0), (3, 0)]))[:-1])
case("1 and 9", 1, encode(no_leaf)[:-1])
case("1 and 10", 1, encode(too_many)[:-1])
case("8 and 9", 8, encode(no_leaf) + b"\0")
case("8 and 10", 8, encode(too_many) + b"\0")
case("8 and 11", 8, encode(not_star) + b"\0")
both = lambda leaf: Task(3, [(2, 0, 0), (16, leaf, 0), (16, leaf, 0), (2, leaf, 0), (2, leaf % 3 + 1, 0)], [], [Action(0, 0, [], [(0, 1)])])
case("9 in the last leaf, 10 in the first", 9, encode(both(1)))
case("9 in the first leaf, 10 in the second", 9, encode(both(2)))
case("9 and 11, the first action is the fault", 9, encode(with_action(with_variable(D, 5, factor=2), 0, [], [(1, 0), (3, 0)])))
case("9 and 11, the last action is the fault", 9, encode(with_action(with_variable(D, 5, factor=2), 6, [(1, 0)], [(3, 0)])))
case("the centre has no variables, and an action has effects in two leaves", 9,
     encode(Task(2, [(2, 1, 0), (2, 2, 0)], [], [Action(0, 0, [], [(0, 1), (1, 1)])])))
case("10 and 11, the first action is the fault", 10, encode(change(too_many, lambda t: t.actions.insert(0, Action(0, 0, [], [(1, 1), (4, 1)])))))
case("10 and 11, the last action is the fault", 10, encode(change(too_many, lambda t: t.actions.append(Action(0, 0, [(4, 0)], [(1, 1)])))))
case("1,026 leaf states and 11", 10, encode(change(leaves_of([2], *[[16, 16]] * 4), lambda t: t.actions.append(Action(0, 0, [], [(1, 1), (2, 1)])))))
case("9, 10 and 11", 9, encode(change(both(1), lambda t: t.actions.append(Action(0, 0, [], [(1, 1), (4, 1)])))))

# ---- numbers of pairs above 32

section("Numbers of pairs from 33 to 63: no fault by themselves")
G32 = Task(8, V, ALL(0))
g33 = pack(put(G32, goal_count=33))
case("goal of 33: 32 pairs, and the record ends inside the next", 1, g33)
case("goal of 33: 32 pairs, then a variable not above the one before", 5, g33 + b"\0")
case("goal of 33: 32 pairs, then variable 31 again", 5, pack_bits(bits_of(put(G32, goal_count=33)) + "11111" + "0000"))
case("goal of 33: the third pair's value outside its size", 6, pack(put(G32, goal_count=33, goal_2_value=V[2][0])))
case("goal of 63: 32 pairs, and the record ends", 1, pack(put(G32, goal_count=63)))
case("goal of 63: 32 pairs, then zero bytes", 5, pack(put(G32, goal_count=63)) + b"\0" * 100)
case("goal of 63 in the example: what stands behind the pair is no variable above it", 5, pack(put(fe, goal_count=63)))
case("goal of 48, and nothing behind the number", 1, pack(put(Task(1, SMALLEST.variables, []), goal_count=48)))
C = Task(8, V, ALL(3)[:5], [Action(1, 2, ALL(1), [(0, 1)]), Action(3, 4, [], ALL(2))])
assert -len(bits_of(fields(C))) % 8 < 5
case("33 conditions: what stands behind the 32nd pair is no variable above it", 5, pack(put(C, a0_c_count=33)))
case("40 conditions: the last pair's value outside its size", 6, pack(put(C, a0_c_count=40, a0_c_31_value=8)))
case("63 conditions, and the record ends inside the second pair", 1, pack(put(C, a0_c_count=63))[:end_of(fields(C), "a0.c.1.value") // 8])
case("33 effects in the last action, and the record ends", 1, pack(put(C, a1_e_count=33)))
case("33 effects in the last action, then zero bytes", 5, pack(put(C, a1_e_count=33)) + b"\0\0")
case("63 effects in the last action, the last pair's value outside its size", 6, pack(put(C, a1_e_count=63, a1_e_31_value=8)))
case("32 effects and 33 conditions in the last of 255 actions", 5,
     pack(put(with_action(M, 254, ALL(1), ALL(2)), a254_c_count=33)))

# ---- sweeps: what the model answers

SWEEPS = []


def sweep(what, records):
    first = len(CASES) + 1
    answers = []
    for r in records:
        case(what, None, r)
        got = CASES[-1][2]
        answers.append(got if isinstance(got, int) else 0)
    SWEEPS.append((first, len(CASES), what, answers))


section("Sweeps")
sweep("the example cut to 0, 1, 2, .. 35 bytes", [e[:k] for k in range(36)])
assert set(SWEEPS[-1][3]) == {1}
sweep("the example with bit 0, 1, 2, .. 287 inverted, the most significant bit of the first byte being bit 0",
      [bytes(b ^ (128 >> k % 8) if i == k // 8 else b for i, b in enumerate(e)) for k in range(288)])
DESIGNED = SWEEPS[0][0] - 1


def words(got):
    if isinstance(got, int):
        return f"refused {got}"
    n, m, a = len(got.variables), got.leaves, len(got.actions)
    return "accepted, " + ", ".join(f"{k} {w}{'' if k == 1 else 's' if w != 'leaf' else ''}".replace("leaf", "leaf" if k == 1 else "leaves") for k, w in ((n, "variable"), (m, "leaf"), (a, "action")))


def counted(answers):
    parts = []
    for k in range(12):
        n = answers.count(k)
        if n:
            parts.append(("accepted:" if k == 0 else f"refused {k}:") + (f" {n} times" if n > 1 else " once"))
    return ", ".join(parts)


def write(folder):
    records = [c[3] for c in CASES]
    open(folder + "/stdin", "wb").write(b"".join(map(frame, records)))
    open(folder + "/stdout", "w").write("".join(line(k + 1, r) for k, r in enumerate(records)))
    out = ["# The cases", "",
           "Each line: the case's number, what its byte string is, how many bytes it has, and the answer that the paper asks for. The file `stdin` has the byte",
           "strings in this order, each behind its length in two bytes, the more significant one first. The file `stdout` has the expected line of each. It was",
           "written by a model of the format that shares no code with the reader. Of an accepted record it has the numbers of variables, leaves and actions, and",
           "a checksum of each of the task's eight arrays: from the first entry to the last, the sum so far times 257 plus the entry, modulo 1,000,003.", "",
           "Most byte strings are made from three records:", "",
           "- The example is the paper's, one pair to fetch. Behind its fields there are 7 fill bits.",
           "- The depot has six variables of sizes 4, 3, 2, 5, 2, 16 and factors 0, 1, 1, 2, 0, 3, three goal pairs and seven actions: the first and the last move the",
           "  centre, the second and the fourth are of leaf 1, the third is of leaf 2, the sixth of leaf 3, and the fifth is a centre action with conditions on three",
           "  leaves and effects on two. There are no fill bits. Its middle variable is the third, its middle action the fourth.",
           "- The longest record has 32 variables, every other one the centre's and two in each of 8 leaves of 128 states. There are 4 fill bits.", ""]
    last = None
    for k, (sec, what, got, record) in enumerate(CASES[:DESIGNED]):
        if sec != last:
            out += ["", f"## {sec}", "", "| Case | What it is | Bytes | Answer |", "|---|---|---|---|"]
            last = sec
        out.append(f"| {k + 1} | {what} | {len(record):,} | {words(got)} |")
    out += ["", "## Sweeps", "", "| Cases | What they are | Answers |", "|---|---|---|"]
    for first, end, what, answers in SWEEPS:
        out.append(f"| {first} to {end} | {what} | {counted(answers)} |")
    text = "\n".join(out).replace("\n\n\n", "\n\n") + "\n"
    open(folder + "/CASES.md", "w").write(text)


if __name__ == "__main__":
    write(sys.argv[1])
    from collections import Counter
    print(len(CASES), "cases,", DESIGNED, "designed,", sum(len(c[3]) + 2 for c in CASES), "bytes")
    print(Counter(c[2] if isinstance(c[2], int) else 0 for c in CASES[:DESIGNED]))
    for s in SWEEPS:
        print(s[0], s[1], counted(s[3]))
