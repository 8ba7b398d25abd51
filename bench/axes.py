"""Times a program that opens a catalog over 1,000,000 records and resolves a query a hundred times."""
import resource
import subprocess
import sys
import time

RECORDS = 1_000_000
program, rounds = sys.argv[1], int(sys.argv[2])
table = "k,a,b,l\n" + "".join(f"{i},a{i // 100_000},b{i // 100},l{i}\n" for i in range(RECORDS))
queries = {
    "the catalog alone": ("", "1"),
    "[D].[L].Members": ("SELECT [D].[L].Members ON 0 FROM [C]", "1000000"),
    "[D].Members": ("SELECT [D].Members ON 0 FROM [C]", "1010011"),
    "Crossjoin with no tuple": ("SELECT Crossjoin([D].[L].Members,{}) ON 0 FROM [C]", "0"),
    "[D].[B].Members": ("SELECT [D].[B].Members ON 0 FROM [C]", "10000"),
    "[D].[a9].[b9999].Children": ("SELECT [D].[a9].[b9999].Children ON 0 FROM [C]", "100"),
}


def measure(query, wanted):
    """The least time of a run in ms, and the greatest resident set in MB."""
    taken, size = [], 0
    for _ in range(rounds):
        began = time.perf_counter()
        run = subprocess.Popen([program], stdin=subprocess.PIPE, stdout=subprocess.PIPE)
        out, _ = run.communicate((query + "\n" + table).encode())
        taken.append((time.perf_counter() - began) * 1000)
        if out.decode().strip() != wanted:
            sys.exit(f"{query}: {out.decode()}")
        size = resource.getrusage(resource.RUSAGE_CHILDREN).ru_maxrss / 1024
    return min(taken), size


print("| query | run ms | of it a meaning, ms | greatest set so far, MB |\n|---|---|---|---|")
alone = None
for name, (query, wanted) in queries.items():
    took, size = measure(query, wanted)
    alone = took if alone is None else alone
    print(f"| {name} | {took:.0f} | {(took - alone) / 100:.2f} | {size:.0f} |")
