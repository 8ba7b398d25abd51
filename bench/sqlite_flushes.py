"""The program with a table of cached cells that flushes are measured beside: the sqlite3 of Python, in memory. Its input has the steps of
flush_steps.py, as words. It reads the files of the working folder into tables, and writes the grid of each query.

A cell has the keys of its members, 0 for none. A query inserts those of its cells that are not there, by a sum over the facts, and then
selects them; a flush deletes the cells that it names.
"""
import csv
import sqlite3
import sys


def records(file):
    with open(file, newline="") as it:
        return list(csv.reader(it))[1:]


base = sqlite3.connect(":memory:", isolation_level=None)
base.executescript("""
CREATE TABLE flat (flat_id INTEGER PRIMARY KEY, member TEXT);
CREATE TABLE other (other_id INTEGER PRIMARY KEY, side TEXT);
CREATE TABLE facts (flat_id INTEGER, other_id INTEGER, units INTEGER);
CREATE TABLE cells (flat INTEGER, other INTEGER, units INTEGER, PRIMARY KEY (flat, other)) WITHOUT ROWID;
CREATE INDEX by_other ON cells (other);
""")


def fill(table, file, fields):
    base.execute("BEGIN")
    base.executemany(f"INSERT INTO {table} VALUES ({','.join('?' * fields)})", records(file))
    base.execute("COMMIT")


fill("flat", "flat.csv", 2)
fill("other", "other.csv", 2)
fill("facts", "groups.csv", 3)
base.executescript("CREATE INDEX facts_by_flat ON facts (flat_id); CREATE INDEX facts_by_other ON facts (other_id);")
flats = base.execute("SELECT flat_id, member FROM flat ORDER BY flat_id").fetchall()
others = base.execute("SELECT other_id, side FROM other ORDER BY other_id").fetchall()


def wanting(rows):
    """The cells of these rows that are not there, as keys."""
    found = []
    for flat, _ in rows:
        there = {it for it, in base.execute("SELECT other FROM cells WHERE flat = ?", (flat,))}
        found.extend((flat, other) for other, _ in others if other not in there)
    return found


def load(rows):
    """Inserts the cells of these rows that are not there: those of one row by the index, and those of many by one walk of the facts."""
    cells = wanting(rows)
    if not cells:
        return
    base.execute("BEGIN")
    base.execute("CREATE TEMP TABLE wanted (flat INTEGER, other INTEGER, PRIMARY KEY (flat, other)) WITHOUT ROWID")
    base.executemany("INSERT INTO wanted VALUES (?, ?)", cells)
    if rows[0][0] == 0:
        sums = "SELECT 0 AS f, other_id AS o, sum(units) AS s FROM facts WHERE other_id IN (SELECT other FROM wanted) GROUP BY other_id"
    else:
        sums = ("SELECT flat_id AS f, other_id AS o, sum(units) AS s FROM facts WHERE flat_id IN (SELECT flat FROM wanted) "
                "GROUP BY flat_id, other_id")
    base.execute(f"INSERT INTO cells SELECT flat, other, s FROM wanted LEFT JOIN ({sums}) ON f = flat AND o = other")
    base.execute("DROP TABLE wanted")
    base.execute("COMMIT")


def grid(what, rows):
    load(rows)
    out = []
    if what == "sides":
        out.append(f"GRID 1 1 {len(others)}\nC\t[Measures].[Units]\n")
        told = dict(base.execute("SELECT other, units FROM cells WHERE flat = 0"))
        out.extend(f"R\t[Other].[{side}]\t{'' if told[key] is None else told[key]}\n" for key, side in others)
    else:
        out.append(f"GRID 1 {len(others)} {len(rows)}\n")
        out.extend(f"C\t[Other].[{side}]\n" for _, side in others)
        for flat, member in rows:
            told = base.execute("SELECT units FROM cells WHERE flat = ? ORDER BY other", (flat,))
            out.append(f"R\t[Flat].[{member}]" + "".join("\t" if units is None else f"\t{units}" for units, in told) + "\n")
    sys.stdout.write("".join(out) + ".\n")


for step in sys.stdin:
    what, *rest = step.split()
    k = int(rest[0]) if rest else 0
    if what == "append":
        fill("facts", f"b{k}.csv", 3)
    elif what == "side":
        base.execute("DELETE FROM cells WHERE other = ?", (k,))
    elif what == "flat":
        base.execute("DELETE FROM cells WHERE flat IN (?, 0)", (k,))
    elif what == "sides":
        grid(what, [(0, "")])
    elif what == "all":
        grid(what, flats)
    elif what == "row":
        grid(what, [it for it in flats if it[0] == k])
    else:
        sys.exit(f"no step: {step}")
