"""Makes a schema and its files in the working folder, with so many fact rows: the same bytes everywhere.

usage: sales.py ROWS NAME

NAME.json is the schema of the cube Sales over time.csv (48 months of 4 years), store.csv (50 cities of 5 states) and
NAME.csv, whose rows are drawn as those of rows.csv: see rows.py.
"""
import json
import sys

from rows import rows


def times():
    yield "time_id,year,quarter,month\n"
    for k in range(48):
        yield f"{k + 1},Y{1 + k // 12},Q{1 + k // 3 % 4},M{1 + k % 12}\n"


def stores():
    yield "store_id,state,city\n"
    for k in range(50):
        yield f"{k + 1},S{1 + k // 10},C{k + 1}\n"


def dimension(name, table, key, levels):
    return {"name": name, "table": table, "primaryKey": key, "hierarchies": [{"levels": [{"name": level, "column": level.lower()} for level in levels]}]}


def schema(fact):
    return {
        "dimensions": [
            dimension("Time", "time.csv", "time_id", ["Year", "Quarter", "Month"]),
            dimension("Store", "store.csv", "store_id", ["State", "City"]),
        ],
        "cubes": [{
            "name": "Sales",
            "fact": fact,
            "dimensions": [{"source": "Time", "foreignKey": "time_id"}, {"source": "Store", "foreignKey": "store_id"}],
            "measures": [
                {"name": "Units", "column": "units", "aggregator": "sum"},
                {"name": "Customers", "column": "customer", "aggregator": "distinct-count"},
            ],
        }],
    }


if __name__ == "__main__":
    count, name = int(sys.argv[1]), sys.argv[2]
    for file, lines in ((f"{name}.csv", rows(count)), ("time.csv", times()), ("store.csv", stores())):
        with open(file, "w", newline="") as out:
            out.writelines(lines)
    with open(f"{name}.json", "w") as out:
        json.dump(schema(f"{name}.csv"), out)
