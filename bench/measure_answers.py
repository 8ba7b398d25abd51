"""Measures how much memory an answer takes in the history of a session, in a folder of its own. usage: measure_answers.py OLAPD

A case is a query of 100,000 cells, or of one, whose cells have three columns. What an answer takes is by how much the most memory that
a run holds grows from a run with a few of the queries to one with more, for each of these.
"""
import sys

from group_sales import FLAT, OTHER, make
from timed import memory, run

olapd = sys.argv[1]
MARK = 2_500_000
MANY = "MDX SELECT [Other].[Side].Members ON COLUMNS, [Flat].[Member].Members ON ROWS FROM [Sales] WHERE ([Deep].[A0])\n"
ONE = "MDX SELECT {[Other].[S1]} ON COLUMNS, {[Flat].[M1]} ON ROWS FROM [Sales] WHERE ([Deep].[A0])\n"
SESSION = [olapd, "run", "--schema", "groups.json"]


def held(query, times):
    """The most bytes that a run of so many queries held."""
    return memory(SESSION, query * times) * 1024 * 1024


make(FLAT * OTHER)
for query, cells in ((MANY, FLAT * OTHER), (ONE, 1)):
    head = run(SESSION, query)[1].splitlines()[0].split()
    if head[0] != "GRID" or int(head[2]) * int(head[3]) != cells:
        sys.exit(f"no grid of {cells} cells: {head}")
print("| cells of an answer | answers | MB | bytes of an answer more | of a cell |\n|---|---|---|---|---|")
for query, cells, few, more in ((MANY, FLAT * OTHER, 3, 13), (ONE, 1, 1_000, 101_000)):
    least, most = held(query, few), held(query, more)
    taken = (most - least) / (more - few)
    if query is MANY:
        met = taken <= MARK
    for answers, bytes_held in ((few, least), (more, most)):
        print(f"| {cells:,} | {answers:,} | {bytes_held / 1e6:.1f} | {taken:,.0f} | {taken / cells:.1f} |")
print(f"\nan answer of {FLAT * OTHER:,} cells of three columns takes at most {MARK / 1e6} MB: {'met' if met else 'NOT MET'}")
