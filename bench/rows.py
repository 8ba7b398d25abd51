"""Makes rows.csv and ids.csv, of so many records each, in the working folder: the same bytes everywhere.

rows.csv is drawn from x = (x * 6364136223846793005 + 1442695040888963407) mod 2^64, begun at SEED. A draw below k takes
one step and is (x >> 33) mod k. A record takes four: time_id is 1 + a draw below 48, store_id 1 + one below 50, customer
one below 1000, and units one below 101, of which 100 is written as an empty field.

ids.csv has i * 999983 mod 1000003 as the id of the record i, from 1 on: no two below 1000003 are alike.
"""
import sys

SEED = 1


def drawn(count, limits):
    """So many lists of draws, one below each of the limits."""
    x = SEED
    for _ in range(count):
        draws = []
        for k in limits:
            x = (x * 6364136223846793005 + 1442695040888963407) % 2**64
            draws.append((x >> 33) % k)
        yield draws


def rows(count):
    yield "time_id,store_id,customer,units\n"
    for time, store, customer, units in drawn(count, (48, 50, 1000, 101)):
        yield f"{time + 1},{store + 1},{customer},{'' if units == 100 else units}\n"


def ids(count):
    yield "id,units\n"
    for i in range(1, count + 1):
        yield f"{i * 999983 % 1000003},{i % 100}\n"


if __name__ == "__main__":
    for name, lines in (("rows.csv", rows), ("ids.csv", ids)):
        with open(name, "w", newline="") as file:
            file.writelines(lines(int(sys.argv[1])))
