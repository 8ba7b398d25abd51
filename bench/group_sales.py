"""A schema and files for the measuring of many groups: the same bytes everywhere.

make(ROWS) writes into the working folder groups.json, groups.csv (ROWS fact rows), flat.csv (1,000 members of one level), deep.csv (the
same 1,000 members under four levels above them: two of five, of ten, of fifty and of two hundred), and other.csv (100 members of one
level). The i-th fact row has the flat member i * 7919 mod 1000 and the other member i / 1000 mod 100, so that each 100,000 rows have each
pair once, in scattered order; its number is drawn as those of rows.py are, below 100.
"""
import json

from rows import drawn
from sales import dimension

FLAT, OTHER = 1_000, 100


def facts(count):
    yield "flat_id,other_id,units\n"
    for i, (units,) in enumerate(drawn(count, (100,))):
        yield f"{1 + i * 7919 % FLAT},{1 + i // FLAT % OTHER},{units}\n"


def flat():
    yield "flat_id,member\n"
    for k in range(FLAT):
        yield f"{k + 1},M{k + 1}\n"


def deep():
    yield "flat_id,one,two,three,four,five\n"
    for k in range(FLAT):
        yield f"{k + 1},A{k // 200},B{k // 100},C{k // 20},D{k // 5},M{k + 1}\n"


def other():
    yield "other_id,side\n"
    for k in range(OTHER):
        yield f"{k + 1},S{k + 1}\n"


def schema():
    return {
        "dimensions": [
            dimension("Flat", "flat.csv", "flat_id", ["Member"]),
            dimension("Deep", "deep.csv", "flat_id", ["One", "Two", "Three", "Four", "Five"]),
            dimension("Other", "other.csv", "other_id", ["Side"]),
        ],
        "cubes": [{
            "name": "Sales",
            "fact": "groups.csv",
            "dimensions": [{"source": name, "foreignKey": key} for name, key in (("Flat", "flat_id"), ("Deep", "flat_id"), ("Other", "other_id"))],
            "measures": [{"name": "Units", "column": "units", "aggregator": "sum"}],
        }],
    }


def make(count):
    for file, lines in (("groups.csv", facts(count)), ("flat.csv", flat()), ("deep.csv", deep()), ("other.csv", other())):
        with open(file, "w", newline="") as out:
            out.writelines(lines)
    with open("groups.json", "w") as out:
        json.dump(schema(), out)
