"""The files of the measure of aggregate tables: a cube over months and cities, with aggregate tables of 2,400 groups, of one measure and of
three. They are made in the folder that this is called in.
"""
import json
import random

MONTHS, CITIES = 48, 50


def level(hierarchy, name):
    return {"hierarchy": hierarchy, "level": name, "column": name.lower()}


def measure(name):
    return {"measure": name, "column": name.lower()}


SCHEMA = {
    "dimensions": [
        {"name": "Time", "table": "time.csv", "primaryKey": "time_id", "hierarchies": [{"levels": [
            {"name": "Year", "column": "year"}, {"name": "Month", "column": "month"}]}]},
        {"name": "Store", "table": "store.csv", "primaryKey": "store_id", "hierarchies": [{"levels": [
            {"name": "City", "column": "city"}]}]},
    ],
    "cubes": [{
        "name": "Sales", "fact": "sales.csv",
        "dimensions": [{"source": "Time", "foreignKey": "time_id"}, {"source": "Store", "foreignKey": "store_id"}],
        "measures": [
            {"name": "Units", "column": "units", "aggregator": "sum"},
            {"name": "Price", "column": "price", "aggregator": "sum"},
            {"name": "Most", "column": "units", "aggregator": "max"},
        ]}],
    "aggregates": [
        {"name": name, "cube": "Sales", "factCount": "fact_count", "levels": [level("Time", "Month"), level("Store", "City")],
         "measures": [measure(it) for it in measures]}
        for name, measures in (("one", ("Units",)), ("three", ("Units", "Price", "Most")))],
}


def write_sales(file, drawn, pairs):
    with open(file, "w") as it:
        it.write("time_id,store_id,units,price\n")
        for month, city in pairs:
            # One field in ten has no units.
            units = drawn.randrange(-100, 1000) if drawn.randrange(10) else ""
            it.write(f"{month},{city},{units},{drawn.randrange(1, 100_000)}\n")


def make(rows, later):
    """A first batch of so many rows, and a later one."""
    drawn = random.Random(7)
    with open("schema.json", "w") as it:
        json.dump(SCHEMA, it)
    with open("time.csv", "w") as it:
        it.write("time_id,year,month\n")
        it.writelines(f"{i},{2000 + i // 12},{2000 + i // 12}-{i % 12 + 1}\n" for i in range(MONTHS))
    with open("store.csv", "w") as it:
        it.write("store_id,city\n")
        it.writelines(f"{i},C{i}\n" for i in range(CITIES))
    # Each group has a row in the first batch, and the others are drawn.
    pairs = [(month, city) for month in range(MONTHS) for city in range(CITIES)]
    pairs += [(drawn.randrange(MONTHS), drawn.randrange(CITIES)) for _ in range(rows - len(pairs))]
    drawn.shuffle(pairs)
    write_sales("sales.csv", drawn, pairs)
    write_sales("later.csv", drawn, [(drawn.randrange(MONTHS), drawn.randrange(CITIES)) for _ in range(later)])
