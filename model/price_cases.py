"""The calls: each has what it is, the expected answer stated by hand where that is short, and the call. The model must give the stated answer."""
import random
import sys
import record_cases as C
from prices import *
from random_calls import random_call

CALLS = []  # (section, what, answer, record, path, lent)
SECTION = [""]
N = None


def section(name):
    SECTION[0] = name


def call(what, expected, t_or_record, path, lent=None):
    record = t_or_record if isinstance(t_or_record, bytes) else encode(t_or_record)
    t = read(record)
    if lent is None:
        lent = Star(t).S()
    got = price(record, path, lent)
    if isinstance(expected, list):
        expected = [INF if x is N else x for x in expected]
    if isinstance(expected, str):
        n = int(expected.split()[1])
        assert isinstance(got, list) and len(got) == n, (what, got)
    else:
        assert got == expected, (what, expected, got)
    if isinstance(got, list) and len(path) < 50:
        assert got == price_flat(t, path), what
        if len(got) < 100:
            assert got == price(record, path, lent, bf=True), what
    assert lent <= 1100 and len(path) < 65536
    CALLS.append((SECTION[0], what, got, record, bytes(path), lent))


A = Action
E, D = C.E, C.D
e = C.e

# ---- the example

section("The example task, one pair to fetch")
call("the empty path", [0, N, N], E, [])
call("out and back", [0, 500, 800], E, [0, 1])
call("out", [0, 500, N], E, [0])
call("back, where the carriage is at the hatch", 13, E, [1])
call("take, a leaf action", 12, E, [2])
call("give, a leaf action", 12, E, [3])
call("action 4, the first that is not there", 12, E, [4])
call("action 9, which is not there", 12, E, [9])
call("action 255, which is not there", 12, E, [255])
call("out, back, out", [0, 500, 800], E, [0, 1, 0])
call("out and back, five times", [0, 500, 800], E, [0, 1] * 5)
call("out twice", 13, E, [0, 0])
call("out, back, back", 13, E, [0, 1, 1])
call("without take: out and back", [0, N, N], C.without(E, 2), [0, 1])
call("without take: give is action 2 and no centre action", 12, C.without(E, 2), [0, 1, 2])
call("with an empty goal: the same prices", [0, 500, 800], C.with_goal(E, []), [0, 1])
call("with no actions: the empty path", [0, N, N], C.without(E, 0, 1, 2, 3), [])
call("with no actions: a path of one", 12, C.without(E, 0, 1, 2, 3), [0])
call("the skis start on the tray: the empty path", [N, 0, 300], C.with_variable(E, 1, initial=1), [])
call("the carriage starts at the rack: back", [0, 500, 800], C.with_variable(E, 0, initial=1), [1])
call("the carriage starts at the rack: out", 13, C.with_variable(E, 0, initial=1), [0])

# ---- the number of lent words

section("The number of lent words")
call("no word lent", 21, E, [0, 1], 0)
call("one word fewer than there are prices", 21, E, [0, 1], 2)
call("one word more", [0, 500, 800], E, [0, 1], 4)
call("1,100 words", [0, 500, 800], E, [0, 1], 1100)
call("1,100 words, and the path does not apply", 13, E, [0, 1, 0, 0], 1100)
call("1,100 words, and the path has a leaf action", 12, E, [0, 1, 2], 1100)
call("the depot's 27 prices, 26 words", 21, D, [0], 26)
call("the depot's 27 prices, 27 words", "prices 27", D, [0], 27)
call("the depot's 27 prices, 28 words", "prices 27", D, [0], 28)
call("the smallest record: 2 prices, 2 words", [N, 0], C.SMALLEST, [], 2)
call("the smallest record: 2 prices, 1 word", 21, C.SMALLEST, [], 1)

# ---- long paths

section("Long paths")
call("4,095 actions, out and back in turn", [0, 500, 800], E, [0, 1] * 2047 + [0])
call("4,095 actions, the last one does not apply", 13, E, [0, 1] * 2047 + [1], 10)
call("4,096 actions, out and back in turn", 12, E, [0, 1] * 2048)
call("4,096 actions, and no word lent", 12, E, [0, 1] * 2048, 0)
call("300 actions, the last one does not apply", 13, E, [0, 1] * 149 + [0, 0], 20)
call("300 actions, the last one is a leaf action", 12, E, [0, 1] * 149 + [0, 2], 20)

# ---- each refusal, and which of two comes first

section("Refusals 1 to 11, of the record, before those of the path and of the lent words")
FAULTS = {
    1: ("the example cut in its head", C.cut_inside(C.fe, "actions")),
    2: ("the example, size 1 in its last variable", pack(C.put(C.fe, v1_size=0))),
    3: ("the example, factor 2 of 1 leaf", pack(C.put(C.fe, v1_factor=2))),
    4: ("the example, an initial value equal to the size", pack(C.put(C.fe, v1_initial=3))),
    5: ("the example, an unknown variable in the goal", pack(C.put(C.fe, goal_0_variable=2))),
    6: ("the example, a value equal to the size in the last effect", pack(C.put(C.fe, a3_e_0_value=3))),
    7: ("the example, an action without effects", encode(C.change(E, lambda t: t.actions[3].effects.clear()))),
    8: ("the example with a fill bit set", e[:-1] + bytes([e[-1] | 1])),
    9: ("a task whose second leaf has no variables", encode(Task(2, E.variables, E.goal, E.actions))),
    10: ("a leaf of 260 states", encode(C.leaves_of([2, 2, 5, 13]))),
    11: ("the depot with a first action that has effects in two leaves", encode(C.with_action(D, 0, [], [(1, 0), (3, 0)]))),
}
for k, (what, record) in FAULTS.items():
    call(what, k, record, [], 1100)
for k, (what, record) in FAULTS.items():
    call(f"the same record, refused {k}; numbers that are no action's, and no word lent", k, record, [9, 255], 0)
for k, (what, record) in FAULTS.items():
    call(f"the same record, refused {k}; a path that would not apply", k, record, [1, 1], 1100)
call("the empty record, and the empty path", 1, b"", [], 0)
call("the example with a byte left over; a path that does not apply", 8, e + b"\0", [1], 3)
call("the example with a byte left over; a path of 4,096 actions", 8, e + b"\0", [0, 1] * 2048, 3)
call("the example with a byte left over; two words", 8, e + b"\0", [0, 1], 2)
call("an action that is neither centre nor leaf action; a path that names it", 11, C.with_action(D, 6, [], [(1, 0), (3, 0)]), [6], 27)

section("Of 12, 21 and 13, which comes first")
call("12 and 21: a leaf action, and two words", 12, E, [0, 2], 2)
call("12 and 21: no action's number, and no word", 12, E, [9], 0)
call("21 and 13: two words, and a path that does not apply", 21, E, [1], 2)
call("21 and 13: two words, and a path whose last action does not apply", 21, E, [0, 1, 0, 0], 2)
call("13 and 12: the first action does not apply, the second is a leaf action", 12, E, [1, 2])
call("12 and 13: the first is a leaf action, the second does not apply", 12, E, [3, 1])
call("13, 12 and 21", 12, E, [1, 9], 1)
call("13 and then 12 behind 200 actions", 12, E, [0, 0] + [0, 1] * 100 + [4], 3)

# ---- what a leaf's prices are

section("Leaf actions in one layer")
LINE = Task(1, [(2, 0, 0), (4, 1, 0)], [], [
    A(0, 0, [(0, 0)], [(0, 1)]),
    A(100, 0, [(1, 0)], [(1, 3)]), A(10, 0, [(1, 0)], [(1, 1)]), A(10, 0, [(1, 1)], [(1, 2)]), A(10, 0, [(1, 2)], [(1, 3)])])
call("a dear way in one action, a cheap one in three", [0, 10, 20, 30], LINE, [])
BACKW = Task(1, LINE.variables, [], LINE.actions[:1] + [A(10, 0, [(1, 2)], [(1, 3)]), A(10, 0, [(1, 1)], [(1, 2)]), A(10, 0, [(1, 0)], [(1, 1)]), A(31, 0, [(1, 0)], [(1, 3)])])
call("the same with the cheap way's last action first in the record", [0, 10, 20, 30], BACKW, [])
call("the same behind a centre action", [0, 10, 20, 30], BACKW, [0])
ROUND = Task(1, [(2, 0, 0), (5, 1, 0)], [], [
    A(0, 0, [], [(0, 1)]), A(100, 0, [(1, 0)], [(1, 1)]), A(10, 0, [(1, 0)], [(1, 3)]), A(10, 0, [(1, 3)], [(1, 2)]), A(10, 0, [(1, 2)], [(1, 1)]), A(1, 0, [(1, 1)], [(1, 4)])])
call("a cheap way down from a higher number to a state that has a dear way too, and a state behind it", [0, 30, 20, 10, 31], ROUND, [])
call("the same behind a centre action", [0, 30, 20, 10, 31], ROUND, [0])
turn = lambda pairs: [(v, 4 - x if v == 1 else x) for v, x in pairs]
TURNED = Task(1, [(2, 0, 0), (5, 1, 4)], [], [A(a.handling, 0, turn(a.conditions), turn(a.effects)) for a in ROUND.actions[::-1]])
call("the same with the states and the actions in reverse order", [31, 10, 20, 30, 0], TURNED, [])
ZERO = Task(1, [(2, 0, 0), (4, 1, 2)], [], [
    A(7, 0, [(0, 0)], [(0, 1)]),
    A(0, 0, [(1, 0)], [(1, 1)]), A(0, 0, [(1, 1)], [(1, 2)]), A(0, 0, [(1, 2)], [(1, 0)]), A(9, 0, [(0, 1), (1, 1)], [(1, 3)]), A(0, 0, [(1, 3)], [(1, 0)])])
call("a circle of leaf actions of cost 0", [0, 0, 0, N], ZERO, [])
call("a circle of cost 0, and a way out of it in the next layer", [0, 0, 0, 9], ZERO, [0])
call("a leaf action that changes nothing, of cost 0 and of cost 5", [0, N], Task(1, [(2, 0, 0), (2, 1, 0)], [], [A(0, 0, [(1, 0)], [(1, 0)]), A(5, 0, [], [(1, 0)])]), [])
call("a leaf action with no conditions", [N, 0, DEAREST], Task(1, [(2, 0, 0), (3, 1, 1)], [], [A(4095, 1023, [], [(1, 2)])]), [])
call("drive times: 1, 2, 100, 399, 400, 401, 402 and 1,023 cm", [0, 45, 54, 225, 425, 425, 426, 426, 737],
     Task(1, [(2, 0, 0), (9, 1, 0)], [], [A(0, d, [(1, 0)], [(1, k + 1)]) for k, d in enumerate((1, 2, 100, 399, 400, 401, 402, 1023))]), [])
call("handling and drive time together, 4,095 and 1,023 cm, three times over", [0, 4832, 9664, 14496],
     Task(1, [(2, 0, 0), (4, 1, 0)], [], [A(4095, 1023, [(1, k)], [(1, k + 1)]) for k in range(3)]), [])
TWOCOND = Task(1, [(2, 0, 0), (3, 1, 0), (2, 0, 1), (2, 0, 0)], [], [
    A(5, 0, [(0, 0), (2, 1)], [(1, 1)]), A(6, 0, [(0, 0), (3, 1)], [(1, 2)]), A(1, 1, [(2, 1)], [(2, 0), (3, 1)]), A(1, 1, [], [(2, 1)])])
call("leaf actions with conditions on two of three centre variables: only one of them holds", [0, 5, N], TWOCOND, [])
call("the same behind an action that sets two centre variables: the other one holds", [0, 5, 6], TWOCOND, [2])
call("the same: the centre keeps what the second action does not name", [0, 5, 6], TWOCOND, [2, 3])
call("the same: the first action's condition holds no more", 13, TWOCOND, [2, 2])

section("Leaves of several variables: the first one is the most significant")
TWO = Task(1, [(2, 0, 0), (3, 1, 0), (2, 1, 0)], [], [A(0, 0, [], [(0, 1)]), A(10, 0, [(1, 0)], [(1, 1)]), A(1, 0, [(0, 1), (2, 0)], [(2, 1)]), A(100, 0, [(1, 1), (2, 1)], [(1, 2)])])
call("sizes 3 and 2, an action on the first", [0, N, 10, N, N, N], TWO, [])
call("sizes 3 and 2, both, and one with conditions on both", [0, 1, 10, 11, N, 111], TWO, [0])
APART = Task(2, [(2, 1, 1), (2, 2, 0), (2, 0, 0), (3, 1, 2), (3, 2, 0)], [], [
    A(3, 0, [(3, 2)], [(3, 0)]), A(2, 0, [(0, 1)], [(0, 0)]), A(5, 0, [(1, 0), (2, 0)], [(1, 1), (4, 1)]), A(1, 0, [], [(2, 1)]), A(7, 0, [(2, 1), (4, 1)], [(4, 2)])])
call("two leaves whose variables stand between each other's and around the centre's", [5, N, 2, 3, N, 0, 0, N, N, N, 5, N], APART, [])
call("the same behind a centre action", [5, N, 2, 3, N, 0, 0, N, N, N, 5, 12], APART, [3])
BITS = Task(1, [(2, 0, 0)] + [(2, 1, 0)] * 4, [], [A(0, 0, [], [(0, 1)])] + [A(2 ** (3 - k), 0, [(k + 1, 0)], [(k + 1, 1)]) for k in range(4)])
call("four variables of size 2, each price is the state's number", list(range(16)), BITS, [])
call("four variables with initial value 1, three of them", [N] * 14 + [0, 1], C.change(BITS, lambda t: t.variables.__setitem__(slice(1, 4), [(2, 1, 1)] * 3)), [])

section("Passing over a centre action")
PASS = Task(2, [(3, 0, 0), (3, 1, 0), (3, 2, 0)], [], [
    A(10, 0, [(1, 0)], [(1, 1)]), A(20, 0, [(0, 0), (1, 1)], [(1, 2)]),
    A(4, 0, [(2, 0)], [(2, 1)]), A(5, 0, [(0, 1), (2, 1)], [(2, 2)]),
    A(4095, 1023, [(0, 0)], [(0, 1)]),
    A(1, 0, [(0, 0), (1, 2)], [(0, 1)]),
    A(1, 0, [(1, 1)], [(0, 2), (1, 0)]),
    A(1, 0, [(1, 2)], [(0, 2), (2, 0)]),
    A(1, 0, [], [(0, 2), (1, 2)]),
    A(1, 0, [(1, 1), (2, 2)], [(0, 0), (1, 1), (2, 1)])])
call("a dear centre action: its cost enters no price", [0, 10, 30, 0, 4, 9], PASS, [4])
call("a condition on one leaf: the other states of it are unreachable", [N, N, 30, 0, 4, 9], PASS, [5])
call("a condition and an effect on one leaf: at its own price", [10, 20, N, 0, 4, N], PASS, [6])
call("a condition on one leaf, an effect on another: there all meet in one state, the lowest price counts", [N, N, 30, 0, 4, N], PASS, [7])
call("an effect on a leaf and no condition: all meet in one state at price 0", [N, N, 0, 0, 4, N], PASS, [8])
call("conditions and effects on two leaves", [N, 10, 30, N, 9, N], PASS, [4, 9])
call("the same without the first action: a leaf has no state that meets its condition", 13, PASS, [9])
call("a condition on a leaf state that was passed by: none meets it any more", 13, PASS, [8, 6])
call("six centre actions in turn", "prices 6", PASS, [4, 9, 5, 7, 8, 8])
MEET = Task(1, [(2, 0, 0), (2, 1, 0), (2, 1, 0)], [], [A(1, 0, [(1, 0), (2, 0)], [(2, 1)]), A(3, 0, [(1, 0), (2, 0)], [(1, 1)]), A(0, 0, [(1, 1)], [(0, 1)]), A(0, 0, [(1, 1), (2, 1)], [(0, 1)]),
                                                              A(0, 0, [], [(0, 1), (1, 1)]), A(0, 0, [], [(0, 1), (2, 0)]), A(0, 0, [(1, 1), (2, 0)], [(0, 1)])])
call("two conditions on one leaf, each met by a state, both by none", 13, MEET, [3])
call("the same conditions, one alone", [N, N, 3, N], MEET, [2])
call("two conditions on one leaf, both met by one state", [N, N, 3, N], MEET, [6])
call("the same action behind one whose effect makes a state that meets both", [N, N, N, 1], MEET, [4, 3])
call("where two states meet the lower price counts: the lower number is the cheaper", [N, N, 0, 1], MEET, [4])
DEARFIRST = Task(1, [(2, 0, 0), (3, 1, 2)], [], [A(8, 0, [(1, 2)], [(1, 0)]), A(3, 0, [(1, 2)], [(1, 1)]), A(0, 0, [], [(0, 1), (1, 0)]), A(0, 0, [], [(0, 1), (1, 1)])])
call("where three states meet: the highest number is the cheapest", [0, N, N], DEARFIRST, [2])
DEARFIRST2 = Task(1, [(2, 0, 0), (2, 1, 1), (2, 1, 0)], [], [A(8, 0, [(1, 1), (2, 0)], [(1, 0)]), A(3, 0, [(1, 1), (2, 0)], [(2, 1)]), A(0, 0, [(2, 1)], [(0, 1), (1, 0)]), A(2, 0, [(1, 0), (2, 0)], [(2, 1)])])
call("where two states meet: prices 10 and 3, the dear one has the lower number", [N, 3, N, N], DEARFIRST2, [2])
SWAP = Task(1, [(2, 0, 0), (2, 1, 0), (2, 1, 1)], [], [A(5, 0, [(0, 0), (1, 0), (2, 1)], [(1, 1), (2, 0)]), A(0, 0, [], [(0, 1), (2, 1)])])
call("an effect on the second variable of a leaf keeps the first: 0 1 and 1 0 become 0 1 and 1 1", [N, 0, N, 5], SWAP, [1])
call("the depot: actions 0 and 4", "prices 27", D, [0, 4])
call("the depot: action 4 does not apply, its centre condition does not hold", 13, D, [4])
call("the depot: action 6 does not apply", 13, D, [0, 6])
ONLY = Task(1, [(2, 0, 0), (2, 1, 0), (2, 0, 0)], [], [A(0, 0, [(0, 0), (2, 1)], [(0, 1)]), A(0, 0, [(2, 0)], [(2, 1)]), A(6, 0, [(0, 1), (2, 1)], [(1, 1)])])
call("one of two centre conditions does not hold", 13, ONLY, [0])
call("both hold behind another action", [0, 6], ONLY, [1, 0])
LAST = Task(2, [(2, 0, 0), (2, 1, 0), (2, 2, 0)], [], [A(0, 0, [(1, 0), (2, 1)], [(0, 1)]), A(0, 0, [(1, 1), (2, 0)], [(0, 1)])])
call("conditions on two leaves, the second one's is not met", 13, LAST, [0])
call("conditions on two leaves, the first one's is not met", 13, LAST, [1])

section("Leaves without actions, and many leaves")
FROZEN = Task(2, [(2, 0, 0), (3, 1, 1), (2, 2, 0), (2, 2, 1)], [], [A(1, 1, [(0, 0)], [(0, 1)]), A(1, 1, [(0, 1)], [(0, 0), (3, 0)]), A(1, 1, [(1, 2)], [(0, 1)])])
call("no leaf has an action: the empty path", [N, 0, N, N, 0, N, N], FROZEN, [])
call("the same behind two centre actions, the second has an effect on a leaf", [N, 0, N, 0, N, N, N], FROZEN, [0, 1])
call("a condition on a state that a leaf without actions never has", 13, FROZEN, [0, 1, 2])
EIGHT = Task(8, [(3, 0, 0)] + [(2, k, 0) for k in range(1, 9)], [],
             [A(10 * k, 0, [(0, k % 2), (k, 0)], [(k, 1)]) for k in range(1, 9)] + [A(1, 0, [(0, 0)], [(0, 1)]), A(1, 0, [(k, 1) for k in range(1, 9)], [(0, 2)] + [(k, 0) for k in range(1, 9, 2)])])
call("8 leaves: the even ones' actions apply", [0, N, 0, 20, 0, N, 0, 40, 0, N, 0, 60, 0, N, 0, 80], EIGHT, [])
call("8 leaves: behind a centre action the odd ones' apply", [0, 10, 0, 20, 0, 30, 0, 40, 0, 50, 0, 60, 0, 70, 0, 80], EIGHT, [8])
call("8 leaves: an action with a condition on each and effects on four", [10, N, N, 20, 30, N, N, 40, 50, N, N, 60, 70, N, N, 80], EIGHT, [8, 9])
call("8 leaves: the same action where four leaves do not meet it", 13, EIGHT, [9])
call("8 leaves: 15 words for 16 prices", 21, EIGHT, [8, 9], 15)
call("8 leaves of sizes 3 to 10, nine actions", "prices 52", C.NINE, [])
CENTRE31 = Task(1, [(16, 0, 0)] * 31 + [(2, 1, 0)], [], [A(0, 0, [], [(v, 15)]) for v in range(31)] + [A(9, 0, [(v, 15) for v in range(31)], [(31, 1)])])
call("a centre of 31 variables, all but the last one set", [0, N], CENTRE31, list(range(30)))
call("a centre of 31 variables, all set: the leaf action applies", [0, 9], CENTRE31, list(range(31)))


# ---- large leaves

def counting(leaf, first, rising, step=lambda k: (k % 7, 3 * k % 50), centre=None):
    """A leaf of two variables of size 16 whose number counts up, one state at a time."""
    at = [(0, centre)] if centre is not None else []
    hi, lo = first, first + 1
    acts = [A(*step(k), at + [(lo, k)], [(lo, k + 1)]) for k in range(15)] + [A(*step(k + 15), at + [(hi, k), (lo, 15)], [(hi, k + 1), (lo, 0)]) for k in range(15)]
    return acts if rising else acts[::-1]


section("Large leaves")
BIG = lambda rising: Task(1, [(2, 0, 0), (16, 1, 0), (16, 1, 0)], [], counting(1, 1, rising) + [A(0, 0, [], [(0, 1)]), A(0, 0, [(1, 15), (2, 15)], [(0, 1), (1, 0), (2, 0)])])
call("a leaf of 256 states that counts up, actions in order", "prices 256", BIG(True), [])
call("a leaf of 256 states that counts up, actions in reverse order", "prices 256", BIG(False), [])
call("the same behind an action that takes the last state to the first", "prices 256", BIG(False), [30, 31])
call("the same with 255 words", 21, BIG(False), [30, 31], 255)
call("the same with 300 words", "prices 256", BIG(True), [31, 31, 30], 300)
B8 = Task(1, [(2, 0, 0)] + [(2, 1, 0)] * 8, [], [A(2 ** (7 - k), 0, [(k + 1, 0)], [(k + 1, 1)]) for k in range(8)] + [A(0, 0, [(1, 1), (8, 0)], [(0, 1), (4, 1)])])
call("a leaf of 256 states in eight variables, each price is the state's number", list(range(256)), B8, [])
call("the same behind an action with two conditions and an effect on it", "prices 256", B8, [8])
FULL = Task(4, [(2, 0, 0)] + [(16, k // 2 + 1, 0) for k in range(8)], [],
            [a for k in range(4) for a in counting(k + 1, 2 * k + 1, k % 2 == 0, centre=k % 2)] + [A(0, 0, [(0, 0)], [(0, 1)]), A(5, 5, [(1, 15), (2, 15), (3, 3)], [(0, 0), (1, 7), (8, 2)]), A(5, 5, [(1, 15), (2, 15), (7, 9)], [(0, 0)])])
call("1,024 leaf states in four leaves: the empty path", "prices 1024", FULL, [])
call("1,024 leaf states in four leaves: two actions, with conditions and effects on three leaves", "prices 1024", FULL, [120, 121])
call("1,024 leaf states in four leaves: 1,100 words", "prices 1024", FULL, [120, 122, 120], 1100)
call("1,024 leaf states in four leaves: 1,023 words", 21, FULL, [120, 122, 120], 1023)
call("1,024 leaf states in eight leaves of 128, 32 variables, 255 actions", "prices 1024", C.M, [])


# a path that applies, found by the model
def some_path(t, most, seed):
    R, star = random.Random(seed), Star(t)
    node, path = star.layer(*star.start(), star.settle), []
    for _ in range(most):
        can = [k for k, a in enumerate(t.actions) if star.is_centre(a) and star.step(node, a)]
        if not can:
            break
        path.append(R.choice(can))
        node = star.layer(*star.step(node, t.actions[path[-1]]), star.settle)
    return path


p = some_path(C.M, 6, 1)
assert p, "no path"
call(f"the same task, a path of {len(p)}", "prices 1024", C.M, p)
call("the longest record: 255 actions with 32 conditions and 32 effects each, the empty path", "prices 1024", C.LONGEST, [], 1030)
call("the longest record: an action that does not apply", 13, C.LONGEST, [0], 1030)

section("Large prices")
UP = Task(1, [(2, 0, 0), (2, 1, 0)], [], [A(4095, 1023, [(1, 0)], [(1, 1)]), A(0, 0, [(1, 1)], [(0, 1), (1, 0)])])
call("4,095 actions, each of which passes the dear state alone: 4,095 and 4,096 times 4,832", [4095 * DEAREST, 4096 * DEAREST], UP, [1] * 4095)
if "heavy" in sys.argv:
    UP16 = Task(1, [(2, 0, 0), (16, 1, 0), (16, 1, 0)], [], counting(1, 1, True, lambda k: (4095, 1023)) + [A(0, 0, [(1, 15), (2, 15)], [(0, 1), (1, 0), (2, 0)])])
    call("3,510 actions, each behind 255 leaf actions of cost 4,832: prices above 2^32", [(3510 * 255 + k) * DEAREST for k in range(256)], UP16, [30] * 3510)
    assert 3510 * 255 * DEAREST > 2 ** 32

DESIGNED = len(CALLS)

# ---- random ones

R = random.Random(20)
while len(CALLS) < DESIGNED + 80:
    record, path, lent = random_call(R, plain=True)
    if len(record) < 200:
        SECTION[0] = "Random"
        got = price(record, path, lent)
        if isinstance(got, list):
            assert got == price_flat(read(record), path) and got == price(record, path, lent, bf=True)
            if all(x in (0, INF) for x in got) and R.random() < .8:
                continue
        elif R.random() < .6:
            continue
        CALLS.append(("Random", "", got, record, bytes(path), lent))


def words(got):
    if isinstance(got, int):
        return f"refused {got}"
    show = lambda x: "−" if x == INF else f"{x:,}"
    return f"{len(got):,} prices: " + "; ".join(map(show, got[:12])) + ("; .." if len(got) > 12 else "")


def path_text(path):
    if not path:
        return "empty"
    if len(path) <= 10:
        return ", ".join(map(str, path))
    return f"{len(path):,} actions"


def write(folder):
    open(folder + "/stdin", "wb").write(b"".join(price_frame(r, p, n) for _, _, _, r, p, n in CALLS))
    open(folder + "/stdout", "w").write("".join(price_line(k + 1, c[2]) for k, c in enumerate(CALLS)))
    out = ["# The calls", "",
           "Each line: the call's number, what it is, its path, how many words are lent, and the answer that the paper asks for; of the prices the first twelve,",
           "a minus sign for unreachable. The file `stdin` has the calls in this order: the record behind its length, the path behind its length, the number of",
           "words to lend, each number in two bytes, the more significant one first. The file `stdout` has the expected line of each. It was written by a model",
           "of the paper that shares no code with the pricer: it reads the record, settles each leaf of each layer in the order of rising prices, and passes from",
           "layer to layer. Calls with short paths were priced in a second way too, by one search for each leaf over all layers of the path at once, and small",
           "tasks in a third, by rounds over the leaf actions until nothing changes; all agreed. The checksum of the prices: from the first to the last, the sum",
           "so far times 257 plus the price, modulo 1,000,003; an unreachable state counts as 2^64 − 1. Every line must end in `kept`.", "",
           "The example is the paper's, one pair to fetch. The depot has six variables of sizes 4, 3, 2, 5, 2, 16 and factors 0, 1, 1, 2, 0, 3, and seven actions:",
           "0, 4 and 6 are centre actions, 1 and 3 are of leaf 1, 2 is of leaf 2, 5 of leaf 3.", ""]
    last = None
    for k, (sec, what, got, record, path, lent) in enumerate(CALLS[:DESIGNED]):
        if sec != last:
            out += ["", f"## {sec}", "", "| Call | What it is | Path | Words | Answer |", "|---|---|---|---|---|"]
            last = sec
        out.append(f"| {k + 1} | {what} | {path_text(path)} | {lent:,} | {words(got)} |")
    rest = CALLS[DESIGNED:]
    from collections import Counter
    c = Counter(x[2] if isinstance(x[2], int) else 0 for x in rest)
    text = ", ".join(("answered" if k == 0 else f"refused {k}") + f": {c[k]}" for k in sorted(c))
    out += ["", "## Random tasks", "", "| Calls | What they are | Answers |", "|---|---|---|",
            f"| {DESIGNED + 1} to {len(CALLS)} | random small tasks of one to eight leaves with random paths, most of which apply, and with as many words as prices, fewer or more | {text} |"]
    open(folder + "/CASES.md", "w").write("\n".join(out).replace("\n\n\n", "\n\n") + "\n")


if __name__ == "__main__":
    write(sys.argv[1])
    from collections import Counter
    print(len(CALLS), "calls,", DESIGNED, "designed,", sum(len(price_frame(*c[3:])) for c in CALLS), "bytes")
    print(sorted(Counter(c[2] if isinstance(c[2], int) else 0 for c in CALLS[:DESIGNED]).items()))
    print(sorted(Counter(c[2] if isinstance(c[2], int) else 0 for c in CALLS[DESIGNED:]).items()))
