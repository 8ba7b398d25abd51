"""The steps of a session that flushes, over the files of group_sales.py: as lines of `olapd`, as words of the programs beside it, and
with what `olapd` has to reply except for the values of its grids.

A step is a list: what it is, and the number of a member where it has one.

    append K    a batch of ten rows of the other member K, bK.csv, is appended
    side K      the other member K is flushed, with all measures
    flat K      the flat member K is flushed, with all measures
    sides       a query of all other members
    all         a query of all other members by all flat members
    row K       a query of all other members by the flat member K
    cache       what is kept is shown
"""
from group_sales import FLAT, OTHER

BATCH = 10


def make_batches():
    """Writes the batch of each other member: ten rows of flat members that differ from batch to batch."""
    for k in range(1, OTHER + 1):
        with open(f"b{k}.csv", "w", newline="") as out:
            out.write("flat_id,other_id,units\n")
            out.writelines(f"{1 + (k * 31 + i * 7) % FLAT},{k},{1 + (k + i) % 9}\n" for i in range(BATCH))


def line(what, k=0):
    """The line of a step."""
    sides = "[Other].[Side].Members"
    return {
        "append": f"APPEND [Sales] b{k}.csv",
        "side": f"FLUSH [Sales] CROSSJOIN(MEASURES, MEMBER([Other].[S{k}]))",
        "flat": f"FLUSH [Sales] CROSSJOIN(MEASURES, MEMBER([Flat].[M{k}]))",
        "sides": f"MDX SELECT {{[Measures].[Units]}} ON COLUMNS, {sides} ON ROWS FROM [Sales]",
        "all": f"MDX SELECT {sides} ON COLUMNS, [Flat].[Member].Members ON ROWS FROM [Sales]",
        "row": f"MDX SELECT {sides} ON COLUMNS, {{[Flat].[M{k}]}} ON ROWS FROM [Sales]",
        "cache": "CACHE",
    }[what]


def lines(steps):
    return "".join(f"{line(*step)}\n" for step in steps)


def words(steps):
    return "".join(f"{' '.join(map(str, step))}\n" for step in steps)


class Load:
    """A kept load: the members that it has, where it has a column of them, and how many flushes touch it."""

    def __init__(self, number, version, cells):
        self.number, self.version, self.flushes = number, version, 0
        self.flats = sorted({flat for flat, _ in cells} - {0})
        self.others = sorted({other for _, other in cells})

    def line(self):
        """Its line in the text of what is kept."""
        columns = [("[Flat].[Member]", "M", self.flats), ("[Other].[Side]", "S", self.others)]
        told = (f"{name}={{{','.join(f'[{letter}{k}]' for k in members)}}}" for name, letter, members in columns if members)
        return f"L\t{self.number}\t{self.version}\t[Units]\t{' '.join(told)}\t{self.flushes}"


def asked(what, k=0):
    """The cells of a query, each by its flat member, 0 for none, and its other member."""
    flats = {"sides": [0], "all": range(1, FLAT + 1), "row": [k]}[what]
    return {(flat, other) for flat in flats for other in range(1, OTHER + 1)}


def replies(steps):
    """What is replied to each step: its first line, or that line's front where it is a grid; of `cache` the whole text.

    The first entry is the base batch. A query whose cells are not all there starts one load, for those that are wanting, and so has
    its answer two entries later: that only what was flushed is loaded again is told by the positions, and by the members of the loads.
    """
    entries = version = 1
    there, loads, told = set(), [], []
    for what, *rest in steps:
        k = rest[0] if rest else 0
        entries += 1
        if what == "append":
            version += 1
            told.append(f"VERSION {entries} {version}")
        elif what in ("side", "flat"):
            # A cell without a flat member is covered by each of them; each cell has another member.
            there = {it for it in there if (it[1] != k if what == "side" else it[0] not in (k, 0))}
            for load in loads:
                load.flushes += k in load.others if what == "side" else not load.flats or k in load.flats
            told.append(f"FLUSHED {entries}")
        elif what == "cache":
            told.append("\n".join([f"CACHE {entries} {len(loads)}", *(it.line() for it in loads), "."]))
        else:
            cells = asked(what, k)
            wanting = cells - there
            if wanting:
                loads.append(Load(entries, version, wanting))
                entries += 2
                there |= wanting
            told.append(f"GRID {entries} ")
    return told


def parted(text):
    """The replies of an output: a grid and what is kept end with a dot, each other has one line."""
    found, open_one = [], None
    for it in text.splitlines():
        if open_one is None:
            open_one = [it]
        else:
            open_one.append(it)
        if not open_one[0].startswith(("GRID ", "CACHE ")) or it == ".":
            found.append("\n".join(open_one))
            open_one = None
    return found


def first_difference(steps, text):
    """The first step to which another reply was given, with what came and what was wanted; or nothing."""
    came, wanted = parted(text), replies(steps)
    for step, it, due in zip(steps, came, wanted):
        if not (it.startswith(due) if due.startswith("GRID ") else it == due):
            return f"to {line(*step)} came {it[:200]}, and not {due[:200]}"
    return None if len(came) == len(wanted) else f"{len(came)} replies came, and not {len(wanted)}"


def grids(text):
    """The grids of an output, each without the line with its position."""
    return [it.split("\n", 1)[1] for it in parted(text) if it.startswith("GRID ")]
