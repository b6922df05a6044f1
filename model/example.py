"""Writes the example record, one pair to fetch, as bytes and as a listing of its fields: python3 example.py FOLDER."""
import sys
from pathlib import Path
from prices import drive_time
from record import *

WORDS = {
    "variables": "variables minus 1: two",
    "leaves": "leaves minus 1: one",
    "actions": "actions: four",
    "v0.size": "variable 0, the carriage: size minus 1 (0 hatch, 1 rack)",
    "v0.factor": "factor 0, the centre",
    "v0.initial": "starts at the hatch",
    "v1.size": "variable 1, the skis: size minus 1 (0 rack, 1 tray, 2 hatch)",
    "v1.factor": "factor 1, the first leaf",
    "v1.initial": "start on the rack",
    "goal.count": "the goal: one pair",
    "goal.0.variable": "the skis",
    "goal.0.value": "at the hatch",
}
NAMES = ["drive out", "drive back", "take", "give"]
PLACES = [["hatch", "rack"], ["rack", "tray", "hatch"]]


def word(name, value, variable):
    if name in WORDS:
        return WORDS[name]
    action, rest = name.split(".", 1)
    who = f"action {action[1:]}, {NAMES[int(action[1:])]}: "
    if rest == "handling":
        return who + f"handling of {value} hundredths of a second"
    if rest == "distance":
        return f"{value} cm of rail: {drive_time(value)}" if value else "0 cm of rail"
    if rest == "c.count":
        return f"conditions: {value}"
    if rest == "e.count":
        return f"effects: {value}"
    if rest.endswith("variable"):
        return ["the carriage", "the skis"][value]
    return "at the " + PLACES[variable][value]


def listing():
    t = fetch()
    out = ["The record of \"One pair to fetch\", field by field: the bit at which a field begins, its width, its bits, its value, what it says.", ""]
    at, variable = 0, None
    for name, width, value in fields(t):
        if name.endswith("variable"):
            variable = value
        out.append(f"{at:4} {width:3}  {value:0{width}b}".ljust(24) + f"{value:4}  {word(name, value, variable)}")
        at += width
    fill = -at % 8
    out.append(f"{at:4} {fill:3}  {0:0{fill}b}".ljust(24) + "      zero bits fill the last byte")
    rec = encode(t)
    out += ["", f"{len(rec)} bytes:", ""] + [rec[k:k + 12].hex(" ") for k in range(0, len(rec), 12)]
    return "\n".join(out) + "\n"


if __name__ == "__main__":
    folder = Path(sys.argv[1])
    (folder / "fetch.record").write_bytes(encode(fetch()))
    (folder / "fetch.txt").write_text(listing())
