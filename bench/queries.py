"""Times a program that reads its input a hundred times, over queries as long as a line may be."""
import subprocess
import sys
import time

LIMIT = 65_536


def of_items(item):
    """A query of as many of these items in braces as fit."""
    begin, end = "SELECT {", "} ON 0 FROM [S]"
    count = (LIMIT - len(begin) - len(end)) // (len(item) + 1)
    return begin + ",".join([item] * count) + end


deep = "{" * 14 + "([a],[b])" + "}" * 14
tuple_of_paths = "SELECT ([a]" + ",[a]" * 16_000 + ") ON 0 FROM [S]"
texts = {
    "14 braces around a tuple": of_items(deep),
    "15 braces": of_items("{" * 15 + "}" * 15),
    "empty braces": of_items("{}"),
    "Crossjoin": of_items("Crossjoin([a],[b])"),
    "paths": of_items("[a].Members"),
    "one tuple": tuple_of_paths,
    "one name": "SELECT [" + "a" * 65_000 + "] ON 0 FROM [S]",
}

program, rounds = sys.argv[1], int(sys.argv[2])
print("| text | read ms | refused at the last byte ms |\n|---|---|---|")
for name, text in texts.items():
    whole = text + " " * (LIMIT - len(text))
    row = []
    for given, wanted in ((whole, "true"), (whole[:-1] + "x", "false")):
        taken = []
        for _ in range(rounds):
            began = time.perf_counter()
            ran = subprocess.run([program], input=given, capture_output=True, text=True)
            taken.append((time.perf_counter() - began) * 10)
            if ran.stdout.strip() != wanted:
                sys.exit(f"{name}: {ran.stdout}{ran.stderr}")
        row.append(f"{min(taken):.1f}")
    print(f"| {name} | {' | '.join(row)} |")
