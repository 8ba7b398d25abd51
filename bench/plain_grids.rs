//! The plain program that the grids of `olapd run` are measured beside: std alone, no quotes in its files, and a panic at each
//! fault.
//!
//! plain_grids NAME QUERIES: reads time.csv and NAME_store.csv into hash maps by key, and NAME.csv into columns of numbers, and
//! then writes the grid of ten measures by all cities so many times. For the first it goes over the rows once, with ten tallies
//! for each city, and keeps the values of the cells; each grid is laid out anew from these.

use std::collections::{HashMap, HashSet};
use std::io::Write;

#[derive(Clone, Copy)]
enum Aggregator {
    Sum,
    Count,
    Min,
    Max,
    Avg,
    Distinct,
}

use Aggregator::{Avg, Count, Distinct, Max, Min, Sum};

const CUSTOMER: usize = 0;
const UNITS: usize = 1;
const SALES: usize = 2;
const CHANGE: usize = 3;

/// The name, the place of the column among the numbers of a row, and the aggregator of each measure.
const MEASURES: [(&str, usize, Aggregator); 10] = [
    ("Units", UNITS, Sum),
    ("Lines", UNITS, Count),
    ("Average", UNITS, Avg),
    ("Fewest", UNITS, Min),
    ("Most", UNITS, Max),
    ("Customers", CUSTOMER, Distinct),
    ("Sales", SALES, Sum),
    ("Greatest", SALES, Max),
    ("Change", CHANGE, Avg),
    ("Worst", CHANGE, Min),
];

/// The fields of the columns of a table's records, with the key first.
fn records(file: &str, columns: &[&str]) -> Vec<(Vec<u8>, Vec<String>)> {
    let bytes = std::fs::read(file).unwrap();
    let mut lines = bytes.split(|c| *c == b'\n');
    let header: Vec<&[u8]> = lines.next().unwrap().split(|c| *c == b',').collect();
    let places: Vec<usize> = columns.iter().map(|it| header.iter().position(|field| *field == it.as_bytes()).unwrap()).collect();
    let mut records = Vec::new();
    for line in lines.filter(|it| !it.is_empty()) {
        let fields: Vec<&[u8]> = line.split(|c| *c == b',').collect();
        let texts = places.iter().map(|it| String::from_utf8(fields[*it].to_vec()).unwrap()).collect();
        records.push((fields[0].to_vec(), texts));
    }
    records
}

/// For each key of a table the number of its member, and the titles of the members: in this file those of a state stand together.
fn members(records: Vec<(Vec<u8>, Vec<String>)>) -> (HashMap<Vec<u8>, u32>, Vec<String>) {
    let (mut keys, mut numbers, mut titles) = (HashMap::new(), HashMap::new(), Vec::new());
    for (key, names) in records {
        let number = *numbers.entry(names).or_insert_with_key(|names| {
            titles.push(format!("[Store].[{}]", names.join("].[")));
            titles.len() as u32 - 1
        });
        keys.insert(key, number);
    }
    (keys, titles)
}

fn number(field: &[u8]) -> Option<i64> {
    match field {
        b"" => None,
        field => Some(std::str::from_utf8(field).unwrap().parse().unwrap()),
    }
}

#[derive(Clone, Default)]
struct Tally {
    known: i128,
    number: i128,
    seen: HashSet<i64>,
}

impl Tally {
    fn add(&mut self, aggregator: Aggregator, value: i64) {
        let size = i128::from(value);
        match aggregator {
            Sum | Avg => self.number += size,
            Min if self.known == 0 || size < self.number => self.number = size,
            Max if self.known == 0 || size > self.number => self.number = size,
            Distinct => {
                self.seen.insert(value);
            }
            Count | Min | Max => {}
        }
        self.known += 1;
    }

    fn value(&self, aggregator: Aggregator, rows: u64) -> Value {
        match aggregator {
            _ if rows == 0 => Value::Empty,
            Count => Value::Whole(self.known),
            Distinct => Value::Whole(self.seen.len() as i128),
            _ if self.known == 0 => Value::Empty,
            Sum | Min | Max => Value::Whole(self.number),
            Avg => {
                // In hundredths, and half away from zero.
                let size = (200 * self.number.abs() + self.known) / (2 * self.known);
                Value::Hundredths(if self.number < 0 { -size } else { size })
            }
        }
    }
}

enum Value {
    Empty,
    Whole(i128),
    Hundredths(i128),
}

impl Value {
    fn write(&self, text: &mut Vec<u8>) {
        match *self {
            Value::Empty => {}
            Value::Whole(number) => write!(text, "{number}").unwrap(),
            Value::Hundredths(number) => {
                let (sign, size) = (if number < 0 { "-" } else { "" }, number.abs());
                write!(text, "{sign}{}.{:02}", size / 100, size % 100).unwrap();
            }
        }
    }
}

struct Facts {
    time: Vec<u32>,
    city: Vec<u32>,
    numbers: [Vec<Option<i64>>; 4],
}

fn facts(file: &str, times: &HashMap<Vec<u8>, u32>, stores: &HashMap<Vec<u8>, u32>) -> Facts {
    let bytes = std::fs::read(file).unwrap();
    let mut facts = Facts { time: Vec::new(), city: Vec::new(), numbers: Default::default() };
    let mut fields = Vec::new();
    for line in bytes.split(|c| *c == b'\n').skip(1).filter(|it| !it.is_empty()) {
        fields.clear();
        fields.extend(line.split(|c| *c == b','));
        assert_eq!(fields.len(), 6);
        facts.time.push(times[fields[0]]);
        facts.city.push(stores[fields[1]]);
        for (column, field) in facts.numbers.iter_mut().zip(&fields[2..]) {
            column.push(number(field));
        }
    }
    facts
}

/// The values of the cells, row by row.
fn cells(facts: &Facts, cities: usize) -> Vec<Value> {
    let mut rows = vec![0; cities];
    let mut tallies: Vec<[Tally; 10]> = vec![Default::default(); cities];
    for (row, city) in facts.city.iter().enumerate() {
        let city = *city as usize;
        rows[city] += 1;
        for (tally, (_, column, aggregator)) in tallies[city].iter_mut().zip(MEASURES) {
            if let Some(value) = facts.numbers[column][row] {
                tally.add(aggregator, value);
            }
        }
    }
    let of_city = |(row, count): (&[Tally; 10], &u64)| -> Vec<Value> {
        row.iter().zip(MEASURES).map(|(tally, (_, _, aggregator))| tally.value(aggregator, *count)).collect()
    };
    tallies.iter().zip(&rows).flat_map(of_city).collect()
}

fn grid(titles: &[String], cells: &[Value]) -> Vec<u8> {
    let mut text = Vec::new();
    writeln!(text, "GRID 1 {} {}", MEASURES.len(), titles.len()).unwrap();
    for (name, _, _) in MEASURES {
        writeln!(text, "C\t[Measures].[{name}]").unwrap();
    }
    for (title, row) in titles.iter().zip(cells.chunks(MEASURES.len())) {
        write!(text, "R\t{title}").unwrap();
        for value in row {
            text.push(b'\t');
            value.write(&mut text);
        }
        text.push(b'\n');
    }
    text.extend(b".\n");
    text
}

fn main() {
    let words: Vec<String> = std::env::args().skip(1).collect();
    let (times, _) = members(records("time.csv", &["year", "quarter", "month"]));
    let (stores, titles) = members(records(&format!("{}_store.csv", words[0]), &["state", "city"]));
    let facts = facts(&format!("{}.csv", words[0]), &times, &stores);
    assert_eq!(facts.time.len(), facts.city.len());
    let mut kept = None;
    let mut out = std::io::stdout().lock();
    for _ in 0..words[1].parse::<u32>().unwrap() {
        let cells = kept.get_or_insert_with(|| cells(&facts, titles.len()));
        out.write_all(&grid(&titles, cells)).unwrap();
    }
}
