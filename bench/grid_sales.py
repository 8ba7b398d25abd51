"""Schemas and files for the measuring of grids, with so many fact rows and cities: the same bytes everywhere.

make(ROWS, CITIES, NAME) writes into the working folder NAME.json, the schema of the cube Sales, and its files: time.csv (48
months of 4 years), NAME_store.csv (a store in each city, the cities in 10 states) and NAME.csv. A fact row takes six draws, as
rows.py makes them: time_id is 1 + a draw below 48, store_id 1 + one below CITIES, customer one below 1000, units one below 101,
of which 100 is written as an empty field, sales one below 10000, and change one below 201, less 100.
"""
import json

from rows import drawn
from sales import dimension, times

# Name, column of the facts, aggregator, and the same in SQL. plain_grids.rs has the same ten.
MEASURES = [
    ("Units", "units", "sum", "sum(units)"),
    ("Lines", "units", "count", "count(units)"),
    ("Average", "units", "avg", "avg(units)"),
    ("Fewest", "units", "min", "min(units)"),
    ("Most", "units", "max", "max(units)"),
    ("Customers", "customer", "distinct-count", "count(DISTINCT customer)"),
    ("Sales", "sales", "sum", "sum(sales)"),
    ("Greatest", "sales", "max", "max(sales)"),
    ("Change", "change", "avg", "avg(change)"),
    ("Worst", "change", "min", "min(change)"),
]


def facts(count, cities):
    yield "time_id,store_id,customer,units,sales,change\n"
    for time, store, customer, units, sales, change in drawn(count, (48, cities, 1000, 101, 10_000, 201)):
        yield f"{time + 1},{store + 1},{customer},{'' if units == 100 else units},{sales},{change - 100}\n"


def stores(cities):
    yield "store_id,state,city\n"
    for k in range(cities):
        yield f"{k + 1},S{1 + k * 10 // cities},C{k + 1}\n"


def schema(name):
    return {
        "dimensions": [
            dimension("Time", "time.csv", "time_id", ["Year", "Quarter", "Month"]),
            dimension("Store", f"{name}_store.csv", "store_id", ["State", "City"]),
        ],
        "cubes": [{
            "name": "Sales",
            "fact": f"{name}.csv",
            "dimensions": [{"source": "Time", "foreignKey": "time_id"}, {"source": "Store", "foreignKey": "store_id"}],
            "measures": [{"name": measure, "column": column, "aggregator": aggregator} for measure, column, aggregator, _ in MEASURES],
        }],
    }


def make(count, cities, name):
    for file, lines in ((f"{name}.csv", facts(count, cities)), ("time.csv", times()), (f"{name}_store.csv", stores(cities))):
        with open(file, "w", newline="") as out:
            out.writelines(lines)
    with open(f"{name}.json", "w") as out:
        json.dump(schema(name), out)
