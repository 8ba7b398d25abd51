"""Measures looks and flushes over loads that serve nothing any more, and over many that do. It makes its files in a temporary
folder.

usage: measure_year.py --program PATH [--only NAME ..] [--rounds N,N,N] [--loads N] [--kept N] [--again N] [--best N]

NAME is one of the marks: rounds, memory, long, look, flush-one, flush-all, apart, cache. Each is a row of the table that is printed.
--rounds tells the numbers of rounds of a session (1000,16000,100000), the last for `long` alone; --loads how many loads of single members
there are (100000); --kept how many loads and how many flushes there are before a CACHE (10000); --again how many times a line is given
(2000); --best how many sessions of rounds there are of each kind, of which the best is told (3, and of the last number one alone).

A program is given its lines over a pipe, and its output is a file. What a line takes is the difference between blocks of 2 K and of K such
lines in one session, so that the opening, the loads before and the end of a block are not in it; of a look the best of three such
differences. Busy is the time that the processors were busy, to the nanosecond, by the system's count for the threads of the program; it
changes little where the machine has other work. Memory is the most that the session held. Where a reply is not the one that is due, the
script ends with an error. How far it is goes to standard error.
"""
import argparse
import json
import os
import sys
import tempfile
import time

from grid_sales import make as make_sales
from sales import dimension
from timed import Talk

# What ends a block of lines: no command, and its reply.
END, ENDED = "END\n", "ERR 3 COMMAND\n"
# Members of each of the two dimensions of pairs; flushes between two looks, and the cells of such a look: members by sides.
SIDE, PARTS, ROWS, SIDES = 340, 100, 100, 10


def wrong(text):
    sys.exit(f"wrong: {text}")


def tell(text):
    """Tells how far it is, beside the table."""
    print(f"# {text}", file=sys.stderr, flush=True)


def micro(seconds):
    return f"{seconds * 1e6:.1f} us"


class Session:
    """A session of the program, which is given blocks of lines."""

    def __init__(self, schema):
        self.talk = Talk([program, "run", "--schema", f"{schema}.json"])
        self.block([])

    def block(self, lines):
        """Gives lines, and returns the seconds that the program was busy, the seconds until it was done, and the replies."""
        began = time.perf_counter()
        busy, told = self.talk.ask("".join(f"{line}\n" for line in lines) + END, ENDED)
        seconds = time.perf_counter() - began
        told = told[: -len(ENDED)]
        if "ERR " in told:
            wrong(told[told.index("ERR "):][:200])
        return busy, seconds, told

    def lines(self, line, times, head):
        """Gives a line N times, and returns the seconds that the program was busy. Each reply begins so."""
        return self.each([line] * times, head)

    def each(self, lines, head):
        busy, _, told = self.block(lines)
        came = sum(it.startswith(head) for it in told.splitlines())
        if came != len(lines):
            wrong(f"{came} replies of {len(lines)} begin with {head}")
        return busy

    def line(self, line, times, head="GRID "):
        """The seconds that a line takes."""
        self.lines(line, 10, head)
        taken = []
        for _ in range(3):
            less, more = self.lines(line, times, head), self.lines(line, 2 * times, head)
            taken.append((more - less) / times)
        return min(taken)

    def all(self, lines, head):
        """The seconds that each of 3 K lines takes, which are given in blocks of K and of 2 K."""
        few = len(lines) // 3
        less, more = self.each(lines[:few], head), self.each(lines[few: 3 * few], head)
        return (more - less) / few

    def front(self, entries):
        """Tests that the history has this number of entries."""
        if self.block([f"AFTER {entries}"])[2] != f"SEEN {entries}\n":
            wrong(f"there are not {entries} entries")

    def end(self):
        """Ends it, and returns the most MB that it held. What the system tells of an ended program is not used: it is at least what this
        script held when it began the program.
        """
        with open(f"/proc/{self.talk.ran.pid}/status") as status:
            held = next(int(it.split()[1]) for it in status if it.startswith("VmHWM"))
        self.talk.end()
        return held / 1024


# ---------------------------------------------------------------------------------------------------------------------
# Schemas, and their lines
# ---------------------------------------------------------------------------------------------------------------------

def write(file, lines):
    with open(file, "w", newline="") as out:
        out.writelines(lines)


def make_cube(name, counts):
    """Writes a schema, NAME.json, of the cube C over dimensions of one level, each with N members, of which the k-th of
    dimension D is Dk; its tables; and a fact row for each k up to ten: the k-th member of each, and k units.
    """
    keys = [f"{it.lower()}_id" for it in counts]
    for it, key in zip(counts, keys):
        write(f"{name}_{it}.csv", [f"{key},name\n", *(f"{k},{it}{k}\n" for k in range(1, counts[it] + 1))])
    write(f"{name}.csv", [f"{','.join(keys)},units\n", *(f"{','.join([str(k)] * len(keys))},{k}\n" for k in range(1, 11))])
    schema = {
        "dimensions": [dimension(it, f"{name}_{it}.csv", key, ["Name"]) for it, key in zip(counts, keys)],
        "cubes": [{
            "name": "C",
            "fact": f"{name}.csv",
            "dimensions": [{"source": it, "foreignKey": key} for it, key in zip(counts, keys)],
            "measures": [{"name": "Units", "column": "units", "aggregator": "sum"}],
        }],
    }
    write(f"{name}.json", [json.dumps(schema)])


def flat_query(k):
    return f"MDX SELECT {{[F].[F{k + 1}]}} ON COLUMNS FROM [C]"


def flat_flush(k):
    return f"FLUSH [C] CROSSJOIN(MEASURES, MEMBER([F].[F{k + 1}]))"


def pair(k):
    return k // SIDE + 1, k % SIDE + 1


def pair_query(k):
    a, b = pair(k)
    return f"MDX SELECT {{([A].[A{a}], [B].[B{b}])}} ON COLUMNS FROM [C]"


def pair_flush(k):
    a, b = pair(k)
    return f"FLUSH [C] CROSSJOIN(MEASURES, MEMBER([A].[A{a}]), MEMBER([B].[B{b}]))"


EVERYTHING = "FLUSH [C] MEASURES"
SINGLES = {"one dimension": ("flat", flat_query, flat_flush), "two dimensions": ("pairs", pair_query, pair_flush)}


# ---------------------------------------------------------------------------------------------------------------------
# Rounds of query and flush
# ---------------------------------------------------------------------------------------------------------------------

QUARTERS = "MDX SELECT {[Measures].[Units]} ON COLUMNS, [Time].[Y1].Children ON ROWS FROM [Sales]"
FLUSHES = {"whole": "FLUSH [Sales] MEASURES", "a quarter": "FLUSH [Sales] CROSSJOIN(MEASURES, MEMBER([Time].[Y1].[Q1]))"}
taken = {}


def rounds(kind, count, best):
    """The busy seconds of N rounds, the seconds until they are done, and the most MB that the session held. Each round makes
    four entries, after that of the base batch: a Start and a Done, of all quarters or of the one that was flushed, an Answer, and a
    Flush.
    """
    if (kind, count) not in taken:
        found = []
        for _ in range(best):
            session = Session("year")
            busy, seconds, told = session.block([QUARTERS, FLUSHES[kind]] * count)
            grids = sum(it.startswith("GRID ") for it in told.splitlines())
            if grids != count or not told.endswith(f"\nFLUSHED {1 + 4 * count}\n"):
                wrong(f"{count} rounds of {kind}: {grids} grids, {told[-100:]}")
            found.append((busy, seconds, session.end()))
            tell(f"{count:,} rounds, {kind}: {seconds:.2f} s")
        taken[kind, count] = tuple(map(min, zip(*found)))
    return taken[kind, count]


def of_rounds():
    few, many = given.rounds[:2]
    told, met = [], True
    for kind in FLUSHES:
        (less, _, _), (more, seconds, _) = rounds(kind, few, 2 * given.best), rounds(kind, many, given.best)
        told.append(f"{kind}: {seconds:.2f} s, busy {more:.2f} s, {more / less:.2f} times {few:,} rounds ({less * 1e3:.0f} ms)")
        met = met and seconds <= 3 and more <= 16.5 * less
    return f"{many:,} rounds of query and flush", told, f"3 s, and 16.5 times {few:,} rounds", met


def of_memory():
    many = given.rounds[1]
    held = {kind: rounds(kind, many, given.best)[2] for kind in FLUSHES}
    told = [f"{kind}: {it:.1f} MB, where {given.rounds[0]:,} rounds hold {rounds(kind, given.rounds[0], 2 * given.best)[2]:.1f}"
            for kind, it in held.items()]
    return f"memory of {many:,} rounds", told, "20 MB", max(held.values()) <= 20


def of_long():
    many, most = given.rounds[1:]
    told, met = [], True
    for kind in FLUSHES:
        less, (more, seconds, held) = rounds(kind, many, given.best)[0], rounds(kind, most, 1)
        told.append(f"{kind}: {seconds:.2f} s, busy {more:.2f} s, {more / less:.2f} times {many:,} rounds; {held:.1f} MB")
        met = met and more <= 7 * less
    return f"{most:,} rounds", told, f"7 times {many:,} rounds", met


# ---------------------------------------------------------------------------------------------------------------------
# Loads of single members
# ---------------------------------------------------------------------------------------------------------------------

singles = {}


def over_singles(kind, loads):
    """What lines take over N loads of single members, in seconds: a warm look at the first, at the middle and at the last of them;
    a flush of a member that is not loaded, and of one that one load has; and one flush of everything, while all of them live.
    There are as many loads more as are flushed one by one. Where there are ten loads, nothing is flushed.
    """
    if (kind, loads) in singles:
        return singles[kind, loads]
    name, query, flush = SINGLES[kind]
    flushed = 0 if loads == 10 else 3 * min(given.again, loads // 10)
    if 2 * flushed + loads > SIDE * SIDE:
        wrong(f"there are no {loads} members and {2 * flushed} more")
    session = Session(name)
    began = session.each([query(k) for k in range(loads + flushed)], "GRID ")
    session.front(1 + 3 * (loads + flushed))
    found = {"load": began / (loads + flushed)}
    tell(f"{kind}: {loads + flushed:,} loads in {began:.1f} s")
    found["look"] = [session.line(query(k), given.again) for k in (0, loads // 2, loads - 1)]
    tell(f"{kind}: warm looks {', '.join(map(micro, found['look']))}")
    # No load was made by a look.
    looks = 3 * (10 + 9 * given.again)
    session.front(1 + 3 * (loads + flushed) + looks)
    if flushed:
        found["none"] = session.all([flush(loads + flushed + k) for k in range(flushed)], "FLUSHED ")
        found["one"] = session.all([flush(loads + k) for k in range(flushed)], "FLUSHED ")
        found["all"] = session.each([EVERYTHING], "FLUSHED ")
        tell(f"{kind}: flushes {micro(found['none'])} and {micro(found['one'])}; of everything {micro(found['all'])}")
        # Nothing lives then: each look makes a load.
        session.each([query(k) for k in (0, loads // 2, loads - 1)], "GRID ")
        session.front(1 + 3 * (loads + flushed) + looks + 2 * flushed + 1 + 9)
    found["held"] = session.end()
    singles[kind, loads] = found
    return found


def of_look():
    told, met = [], True
    for kind in SINGLES:
        few, many = over_singles(kind, 10)["look"], over_singles(kind, given.loads)
        ratio = max(many["look"]) / max(few)
        told.append(f"{kind}: {', '.join(map(micro, many['look']))} at the first, middle and last load, {', '.join(map(micro, few))} of 10: "
                    f"{ratio:.2f} times; a cold one {micro(many['load'])}; {many['held']:.0f} MB")
        met = met and ratio <= 3
    return f"a warm look at one of {given.loads:,} loads of single members", told, "3 times one of 10", met


def of_flush_one():
    told, met = [], True
    for kind in SINGLES:
        it = over_singles(kind, given.loads)
        told.append(f"{kind}: {micro(it['one'])} where one load has the cells, {micro(it['none'])} where none has")
        met = met and max(it["one"], it["none"]) <= 50e-6
    return f"a flush of one member's cells over {given.loads:,} loads", told, "50 us", met


def of_flush_all():
    found = {kind: over_singles(kind, given.loads)["all"] for kind in SINGLES}
    return (f"a flush of everything over {given.loads:,} live loads, once", [f"{kind}: {it * 1e3:.1f} ms" for kind, it in found.items()],
            "0.3 s", max(found.values()) <= 0.3)


# ---------------------------------------------------------------------------------------------------------------------
# A load that is shut off in part
# ---------------------------------------------------------------------------------------------------------------------

# The one load has all members of F by all of S; the looks are at the first hundred of F by the first ten of S.
WHOLE = "MDX SELECT [S].[Name].Members ON COLUMNS, [F].[Name].Members ON ROWS FROM [C]"


def first(name, count):
    return f"{{{', '.join(f'[{name}].[{name}{k}]' for k in range(1, count + 1))}}}"


LOOK = f"MDX SELECT {first('S', SIDES)} ON COLUMNS, {first('F', ROWS)} ON ROWS FROM [C]"
BETWEEN = {
    "no flush": [],
    "100 other members": [f"FLUSH [C] CROSSJOIN(MEASURES, MEMBER([F].[F{ROWS + k}]))" for k in range(1, PARTS + 1)],
    "another side of 100 of its members": [
        f"FLUSH [C] CROSSJOIN(MEASURES, MEMBER([F].[F{k}]), MEMBER([S].[S{SIDES + 1}]))" for k in range(1, PARTS + 1)],
}


def of_apart():
    found = {}
    times = max(1, given.again // 20)
    for kind, lines in BETWEEN.items():
        session = Session("sides")
        session.lines(WHOLE, 1, "GRID ")
        session.each(lines, "FLUSHED ")
        found[kind] = session.line(LOOK, times)
        tell(f"after {kind}: {micro(found[kind])}")
        # One load, the flushes, and no load at a look.
        session.front(4 + len(lines) + 10 + 9 * times)
        session.end()
    before = found["no flush"]
    told = [f"{micro(before)} before", *(f"{micro(it)} after flushes of {kind}, {it / before:.2f} times"
                                        for kind, it in found.items() if BETWEEN[kind])]
    return (f"a look at {ROWS * SIDES:,} cells of a load, of which {PARTS} flushes covered others", told, "2 times that before",
            max(found.values()) <= 2 * before)


# ---------------------------------------------------------------------------------------------------------------------
# What is kept
# ---------------------------------------------------------------------------------------------------------------------

def of_cache():
    kept = given.kept
    told, most = [], 0
    # The flushes, and how many touch each load.
    kinds = {
        "everything each time": ([EVERYTHING] * kept, kept),
        "members that no load has": ([flat_flush(kept + k) for k in range(kept)], 0),
        "a member of each load": ([flat_flush(k) for k in range(kept)], 1),
    }
    for kind, (lines, count) in kinds.items():
        session = Session("flat")
        session.each([flat_query(k) for k in range(kept)], "GRID ")
        session.each(lines, "FLUSHED ")
        best = []
        for place in range(3):
            busy, _, text = session.block(["CACHE"])
            shown = text.splitlines()
            # An entry of the base batch, three of each load, and one of each flush.
            if shown[0] != f"CACHE {2 + 4 * kept + place} {kept}" or len(shown) != kept + 2:
                wrong(f"{kind}: {shown[0]}, {len(shown)} lines")
            if any(it != f"L\t{2 + 3 * k}\t1\t[Units]\t[F].[Name]={{[F{k + 1}]}}\t{count}" for k, it in enumerate(shown[1:-1])):
                wrong(f"{kind}: {next(it for it in shown[1:-1] if not it.endswith(f'}}{chr(9)}{count}'))}")
            best.append(busy)
        session.end()
        tell(f"{kind}: {micro(min(best))}")
        told.append(f"{kind}: {min(best) * 1e3:.0f} ms")
        most = max(most, min(best))
    return f"`CACHE` of {kept:,} loads after {kept:,} flushes", told, "1 s", most <= 1


MARKS = {
    "rounds": of_rounds, "memory": of_memory, "long": of_long, "look": of_look, "flush-one": of_flush_one, "flush-all": of_flush_all,
    "apart": of_apart, "cache": of_cache,
}


def numbers(text):
    return [int(it) for it in text.split(",")]


reader = argparse.ArgumentParser()
reader.add_argument("--program", required=True)
reader.add_argument("--only", nargs="+", choices=MARKS, default=list(MARKS))
reader.add_argument("--rounds", type=numbers, default=[1_000, 16_000, 100_000])
reader.add_argument("--loads", type=int, default=100_000)
reader.add_argument("--kept", type=int, default=10_000)
reader.add_argument("--again", type=int, default=2_000)
reader.add_argument("--best", type=int, default=3)
given = reader.parse_args()
program = os.path.abspath(given.program)

with tempfile.TemporaryDirectory() as folder:
    os.chdir(folder)
    make_sales(100, 50, "year")
    make_cube("flat", {"F": SIDE * SIDE})
    make_cube("pairs", {"A": SIDE, "B": SIDE})
    make_cube("sides", {"F": 2 * ROWS + PARTS, "S": SIDES + 1})
    print(f"{len(os.sched_getaffinity(0))} cores; what is not told as from start to end is the time that processors were busy\n")
    print("| mark | work | measured | at most | |\n|---|---|---|---|---|", flush=True)
    for mark in given.only:
        work, told, most, met = MARKS[mark]()
        print(f"| {mark} | {work} | {'; '.join(told)} | {most} | {'met' if met else 'NOT met'} |", flush=True)
    os.chdir("/")
