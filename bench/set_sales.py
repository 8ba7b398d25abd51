"""A schema and files for the measuring of many groups of cells: the same bytes everywhere.

make(ROWS) writes into the working folder sets.json, sets.csv (ROWS fact rows), and a.csv, b.csv and c.csv: 16, 16 and 15 members of a
second level under four of a first one. A fact row has one member of each, and a number below 100, drawn as those of rows.py are.
"""
import json

from rows import drawn
from sales import dimension

MEMBERS = {"A": 16, "B": 16, "C": 15}
MEASURES = [(f"M{k}", ("sum", "count", "min", "max", "avg")[k % 5]) for k in range(11)]


def facts(count):
    yield "a_id,b_id,c_id,units\n"
    for a, b, c, units in drawn(count, (*MEMBERS.values(), 100)):
        yield f"{a + 1},{b + 1},{c + 1},{units}\n"


def members(name):
    yield f"{name.lower()}_id,one,two\n"
    for k in range(MEMBERS[name]):
        yield f"{k + 1},{name}{k % 4},{name}{k % 4}.{k}\n"


def schema():
    return {
        "dimensions": [dimension(name, f"{name.lower()}.csv", f"{name.lower()}_id", ["One", "Two"]) for name in MEMBERS],
        "cubes": [{
            "name": "Sales",
            "fact": "sets.csv",
            "dimensions": [{"source": name, "foreignKey": f"{name.lower()}_id"} for name in MEMBERS],
            "measures": [{"name": name, "column": "units", "aggregator": aggregator} for name, aggregator in MEASURES],
        }],
    }


def make(count):
    for file, lines in (("sets.csv", facts(count)), *((f"{name.lower()}.csv", members(name)) for name in MEMBERS)):
        with open(file, "w", newline="") as out:
            out.writelines(lines)
    with open("sets.json", "w") as out:
        json.dump(schema(), out)
