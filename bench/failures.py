"""Lets each allocation of two sessions of `olapd run` fail, one at a time: of one over sales.json, and of one over sales_agg.json,
whose loads read aggregate tables. usage: failures.py OLAPD LIBRARY, in a folder with the files of examples/sales. LIBRARY is
what failing.c becomes.

A run in which an allocation fails has to end in one of three ways: before the session, by status 6 and the line MEMORY alone; or
with each reply right but one, which is ERR 15 MEMORY; or with each reply right. A position may be any that is greater than those
before it. Each other run is told, with the number of its allocation, and the program then ends with an error.
"""
import collections
import os
import re
import subprocess
import sys

# What is in the files: in 1997 CA sold 5 (customer 10) and 7 (11) in Q1, and 3 (10) in Q2; in 1998 WA has a row without units.
# b2.csv adds 100 (customer 13) to LA in Q1 of 1997. Kept loads do not change by that, and loads that come later do.
REPORT = "MDX SELECT {[Measures].[Units], [Measures].[Count]} ON COLUMNS, Crossjoin([Time].[Quarter].Members, [Store].Children) ON ROWS FROM [Sales]"
BY_QUARTER = """GRID # 2 6
C	[Measures].[Units]
C	[Measures].[Count]
R	[Time].[1997].[Q1], [Store].[CA]	12	2
R	[Time].[1997].[Q1], [Store].[WA]		
R	[Time].[1997].[Q2], [Store].[CA]	3	1
R	[Time].[1997].[Q2], [Store].[WA]		
R	[Time].[1998].[Q1], [Store].[CA]		
R	[Time].[1998].[Q1], [Store].[WA]		0
."""
CITIES = "MDX SELECT [Measures].Members ON COLUMNS, [Store].[City].Members ON ROWS FROM [Sales]"
BY_CITY = """GRID # 6 3
C	[Measures].[Units]
C	[Measures].[Count]
C	[Measures].[Average]
C	[Measures].[Customers]
C	[Measures].[Least]
C	[Measures].[Greatest]
R	[Store].[CA].[LA]	LA
R	[Store].[CA].[SF]	7	1	7.00	1	7	7
R	[Store].[WA].[Seattle]						
."""
SLICED = "MDX SELECT NON EMPTY [Time].[Year].Members ON COLUMNS FROM [Sales] WHERE ([Measures].[Average], [Store].[CA])"
BY_YEAR = "GRID # 1 1\nC\t[Time].[1997]\nR\t\tCA\n."
# The flush covers the units of Q1 of 1997, which are then loaded again, and no count.
FLUSH = "FLUSH [Sales] CROSSJOIN(MEMBER([Measures].[Units]), MEMBER([Time].[1997].[Q1]))"
BEHIND_FLUSH = BY_QUARTER.replace("\t12\t2\n", "\tQ1\n")
OLD = {"LA": "8\t2\t4.00\t1\t3\t5", "CA": "5.00"}
NEW = {"LA": "108\t3\t36.00\t2\t3\t100", "CA": "28.75"}
REPORT_SESSION = [
    (REPORT, BY_QUARTER),
    (REPORT, BY_QUARTER),
    ("AFTER 1", "SEEN #"),
    ("APPEND [Sales] b2.csv", "VERSION # 2"),
    ("AFTER 1", "SEEN #"),
    (REPORT, BY_QUARTER),
    (CITIES, BY_CITY),
    (CITIES, BY_CITY),
    ("MDX SELECT {[Measures].[Profit]} ON COLUMNS FROM [Sales]", "ERR 6 MEMBER [Profit]"),
    ("MDX SELECT x", "ERR 4 SYNTAX 7"),
    ("APPEND [Sales] none.csv", "ERR 10 FILE [none.csv]"),
    ("HELLO", "ERR 3 COMMAND"),
    (SLICED, BY_YEAR),
    (SLICED, BY_YEAR),
    ("AFTER 1", "SEEN #"),
    (FLUSH, "FLUSHED #"),
    ("AFTER 1", "SEEN #"),
    (REPORT, BEHIND_FLUSH),
    (REPORT, BEHIND_FLUSH),
    ("CACHE", "KEPT"),
    ("QUIT", "BYE"),
]
# Units of 1997 by a table of years: the base batch has 15, and b2.csv adds 100. A flush covers all units.
YEARS = "MDX SELECT {[Measures].[Units]} ON COLUMNS, [Time].[Year].Members ON ROWS FROM [Sales]"
FIRST_YEARS = "GRID # 1 2\nC\t[Measures].[Units]\nR\t[Time].[1997]\tFIRST\nR\t[Time].[1998]\t\n."
NEXT_YEARS, LAST_YEARS = FIRST_YEARS.replace("FIRST", "NEXT"), FIRST_YEARS.replace("FIRST", "LAST")
ALL = "FLUSH [Sales] MEASURES"
TABLE_SESSION = [
    (YEARS, FIRST_YEARS),
    (YEARS, FIRST_YEARS),
    ("AFTER 1", "SEEN #"),
    ("APPEND [Sales] b2.csv", "VERSION # 2"),
    ("AFTER 1", "SEEN #"),
    (ALL, "FLUSHED #"),
    ("AFTER 1", "SEEN #"),
    (YEARS, NEXT_YEARS),
    (YEARS, NEXT_YEARS),
    ("AFTER 1", "SEEN #"),
    ("AGG [agg_live]", "AGG # V 2"),
    ("AFTER 1", "SEEN #"),
    ("AGG [x]", "ERR 16 AGG [x]"),
    ("AGG x", "ERR 4 SYNTAX 0"),
    ("AGG [AGG_LIVE]", "AGG # V 2"),
    ("AFTER 1", "SEEN #"),
    (ALL, "FLUSHED #"),
    ("AFTER 1", "SEEN #"),
    (YEARS, LAST_YEARS),
    (YEARS, LAST_YEARS),
    ("CACHE", "KEPT"),
    ("QUIT", "BYE"),
]
NO_MEMORY, LIMIT, SECONDS = "ERR 15 MEMORY", 1_000_000, 60

olapd, library = sys.argv[1:3]


def run(schema, session, at):
    """The status, output and errors of a run of a session whose allocation of this number fails, and how many it made."""
    with open("count", "wb") as it:
        it.write(bytes(8))
    env = {**os.environ, "LD_PRELOAD": library, "FAIL_AT": str(at), "FAIL_COUNT": "count"}
    given = "".join(line + "\n" for line, _ in session)
    try:
        ran = subprocess.run([olapd, "run", "--schema", schema], input=given, capture_output=True, text=True, env=env, timeout=SECONDS)
        ended = ran.returncode, ran.stdout, ran.stderr
    except subprocess.TimeoutExpired:
        ended = None, "", f"no end within {SECONDS} seconds"
    with open("count", "rb") as it:
        return *ended, int.from_bytes(it.read(), sys.byteorder)


def kept_of_report(made):
    """The text of what is kept, without the loads' numbers and sorted, by whether the append and the flush were made."""
    appended, flushed = made(3), made(15)
    later = 1 + appended
    quarters, cities = "[Time].[Year]=* [Time].[Quarter]=* [Store].[State]=*", "[Time].[Year]={[1997]} [Store].[State]=* [Store].[City]=*"
    loads = [f"L\t1\t[Units]\t{quarters}\t{int(flushed)}", f"L\t1\t[Count]\t{quarters}\t0", f"L\t{later}\t[Units]\t{cities}\t{int(flushed)}"]
    loads += [f"L\t{later}\t[{it}]\t{cities}\t0" for it in ("Count", "Average", "Customers", "Least", "Greatest")]
    loads += [f"L\t{later}\t[Average]\t[Time].[Year]={{[1998]}} [Store].[State]={{[CA]}}\t0"]  # 1997 is rolled up from the cities
    loads += [f"L\t{later}\t[Units]\t[Time].[Year]={{[1997]}} [Time].[Quarter]={{[Q1]}} [Store].[State]=*\t0"] * flushed
    return "\n".join([f"CACHE # {len(loads)}", *sorted(loads), "."])


def fields_of_report(made):
    """The values that the append and the flush change, by their names."""
    return {**(NEW if made(3) else OLD), "Q1": "112\t2" if made(3) and made(15) else "12\t2"}


def kept_of_tables(made):
    """The same of the session with tables: each flush that was made shuts off the load before it."""
    later, first, last = 1 + made(3), made(5), made(16)
    loads = [f"L\t1\t[Units]\t[Time].[Year]=*\t{first + last}"]
    loads += [f"L\t{later}\t[Units]\t[Time].[Year]=*\t{int(last)}"] * first
    loads += [f"L\t{later}\t[Units]\t[Time].[Year]=*\t0"] * last
    return "\n".join([f"CACHE # {len(loads)}", *sorted(loads), "."])


def fields_of_tables(made):
    """The values that the append and the flushes change, by their names."""
    new = "115" if made(3) else "15"
    return {"FIRST": "15", "NEXT": new if made(5) else "15", "LAST": new if made(5) or made(16) else "15"}


def without_numbers(reply):
    """The text of what is kept without the loads' numbers and sorted, where these rise: which of them stands first depends on what failed."""
    head, *loads, dot = reply.split("\n")
    numbers = [int(it.split("\t")[1]) for it in loads]
    if any(a >= b for a, b in zip(numbers, numbers[1:])):
        return "numbers that do not rise"
    return "\n".join([head, *sorted("\t".join(["L", *it.split("\t")[2:]]) for it in loads), dot])


def replies(text):
    """The replies that were written: a grid, and what is kept, go up to their dot."""
    found = []
    for line in text.split("\n")[:-1]:
        if found and found[-1].startswith(("GRID ", "CACHE ")) and not found[-1].endswith("\n."):
            found[-1] += "\n" + line
        else:
            found.append(line)
    return found


def without_position(reply):
    """A reply with # for its position, and the position, or None where it has none."""
    found = re.match(r"(GRID|VERSION|SEEN|FLUSHED|AGG|CACHE) ([1-9][0-9]*)(?![0-9])", reply)
    return (f"{found[1]} #{reply[found.end():]}", int(found[2])) if found else (reply, None)


def judge(session, kept, fields, calls, status, text, errors):
    """What became of a run: `ended`, `right`, or the place of the line that was answered ERR 15; and what is wrong, or None."""
    if errors:
        return None, f"errors were written: {errors[:300]}"
    if status == 6 and text == "MEMORY\n":
        return "ended", None
    if status != 0 or not text.endswith("\n"):
        return None, f"status {status}, and the end of the output is {text[-100:]!r}"
    told = replies(text)
    if len(told) != len(session):
        return None, f"{len(told)} replies to {len(session)} lines"
    lacking = [place for place, reply in enumerate(told) if reply == NO_MEMORY]
    if len(lacking) > 1 or any(not session[it][0].startswith(("MDX ", "APPEND ", "FLUSH ", "AGG ", "CACHE")) for it in lacking):
        return None, f"ERR 15 to the lines {[it + 1 for it in lacking]}"
    made = lambda it: lacking != [it]
    last, seen = 0, []
    for place, (reply, (line, wanted)) in enumerate(zip(told, session)):
        if place in lacking:
            continue
        for name, values in fields(made).items():
            wanted = wanted.replace(f"\t{name}\n", f"\t{values}\n")
        wanted = wanted.replace(" V ", " 2 " if made(3) else " 1 ")
        if wanted == "KEPT" and reply.startswith("CACHE "):
            reply, wanted = without_numbers(reply), kept(made)
        reply, position = without_position(reply)
        if reply != wanted:
            return None, f"{line}\nwas answered\n{told[place]}"
        if reply.startswith("SEEN "):
            seen.append((place, position))
        if position is not None and position < last + (not reply.startswith("SEEN ")):
            return None, f"{told[place].splitlines()[0]} comes after the position {last}"
        last = position or last
    # A call between two looks at the front, with at most lines without an entry beside it, has made one entry, or none.
    for call in calls:
        before, after = max((it for it in seen if it[0] < call)), min((it for it in seen if it[0] > call))
        if after[1] - before[1] != made(call):
            return None, f"{session[call][0]} has made {after[1] - before[1]} entries"
    return (lacking[0] if lacking else "right"), None


def play(schema, session, kept, fields, calls):
    """Plays a session until no allocation is left, and tells what became of its runs; how many went wrong."""
    status, text, errors, count = run(schema, session, 0)
    if count == 0:
        sys.exit("no allocation was counted: the program does not take its memory from the C library's malloc, or not by its name")
    became, wrong = judge(session, kept, fields, calls, status, text, errors)
    if became != "right":
        sys.exit(f"{schema}: where no allocation fails: {wrong or became}")
    outcomes, faults = collections.defaultdict(list), 0
    for at in range(1, LIMIT):
        status, text, errors, count = run(schema, session, at)
        became, wrong = judge(session, kept, fields, calls, status, text, errors)
        if count < at and became == "right":
            break
        if count < at and wrong is None:
            wrong = f"{became}, though no allocation failed"
        if wrong is None:
            outcomes[became].append(at)
            continue
        faults += 1
        print(f"allocation {at}: {wrong}", flush=True)
        if count < at:
            break
    for place, (line, _) in enumerate(session):
        if place in outcomes:
            print(f"line {place + 1} was answered {NO_MEMORY} {len(outcomes[place])} times: {line}")
    if outcomes["right"]:
        print(f"not needed: {', '.join(map(str, outcomes['right']))}")
    lacking = sum(len(outcomes[it]) for it in range(len(session)))
    print(f"{schema}: {at - 1} allocations failed, one at a time: {len(outcomes['ended'])} ended with status 6 before the session, {lacking} were answered {NO_MEMORY}, {len(outcomes['right'])} were not needed, {faults} went wrong", flush=True)
    return faults


faults = play("sales.json", REPORT_SESSION, kept_of_report, fields_of_report, [3, 15])
faults += play("sales_agg.json", TABLE_SESSION, kept_of_tables, fields_of_tables, [3, 5, 10, 14, 16])
sys.exit(1 if faults else 0)
