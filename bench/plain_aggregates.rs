//! The plain program that aggregate tables are measured beside: std alone, no quotes in its files, and a panic at each fault.
//!
//! plain_aggregates MEASURES TIMES: reads time.csv and store.csv into hash maps by key, and sales.csv into columns of numbers; then
//! it sums the rows up by month and city so many times, in a hash map by both numbers packed into one: the number of rows, and
//! one measure (the sum of the units) or three (this, the sum of the prices and the most units). It writes the table once, as a file.

use std::collections::HashMap;
use std::io::Write;

fn table(file: &str, column: usize) -> (HashMap<Vec<u8>, u32>, Vec<String>) {
    let text = std::fs::read(file).unwrap();
    let mut keys = HashMap::new();
    let mut names = Vec::new();
    for line in text.split(|c| *c == b'\n').skip(1).filter(|it| !it.is_empty()) {
        let fields: Vec<&[u8]> = line.split(|c| *c == b',').collect();
        keys.insert(fields[0].to_vec(), names.len() as u32);
        names.push(String::from_utf8(fields[column].to_vec()).unwrap());
    }
    (keys, names)
}

struct Facts {
    months: Vec<u32>,
    cities: Vec<u32>,
    units: Vec<Option<i64>>,
    prices: Vec<Option<i64>>,
}

fn number(field: &[u8]) -> Option<i64> {
    if field.is_empty() { None } else { Some(std::str::from_utf8(field).unwrap().parse().unwrap()) }
}

fn facts(months: &HashMap<Vec<u8>, u32>, cities: &HashMap<Vec<u8>, u32>) -> Facts {
    let bytes = std::fs::read("sales.csv").unwrap();
    let mut facts = Facts { months: Vec::new(), cities: Vec::new(), units: Vec::new(), prices: Vec::new() };
    for line in bytes.split(|c| *c == b'\n').skip(1).filter(|it| !it.is_empty()) {
        let fields: Vec<&[u8]> = line.split(|c| *c == b',').collect();
        facts.months.push(months[fields[0]]);
        facts.cities.push(cities[fields[1]]);
        facts.units.push(number(fields[2]));
        facts.prices.push(number(fields[3]));
    }
    facts
}

fn add(sum: &mut Option<i128>, value: Option<i64>) {
    if let Some(value) = value {
        *sum = Some(sum.unwrap_or(0) + i128::from(value));
    }
}

fn one(facts: &Facts) -> HashMap<u64, (u64, Option<i128>)> {
    let mut groups = HashMap::new();
    for i in 0..facts.units.len() {
        let group: &mut (u64, Option<i128>) = groups.entry((facts.months[i] as u64) << 32 | facts.cities[i] as u64).or_default();
        group.0 += 1;
        add(&mut group.1, facts.units[i]);
    }
    groups
}

type Three = (u64, Option<i128>, Option<i128>, Option<i64>);

fn three(facts: &Facts) -> HashMap<u64, Three> {
    let mut groups = HashMap::new();
    for i in 0..facts.units.len() {
        let group: &mut Three = groups.entry((facts.months[i] as u64) << 32 | facts.cities[i] as u64).or_default();
        group.0 += 1;
        add(&mut group.1, facts.units[i]);
        add(&mut group.2, facts.prices[i]);
        group.3 = group.3.max(facts.units[i]);
    }
    groups
}

fn text<T: ToString>(value: Option<T>) -> String {
    value.map_or(String::new(), |it| it.to_string())
}

fn main() {
    let words: Vec<usize> = std::env::args().skip(1).map(|word| word.parse().unwrap()).collect();
    let (months, month_names) = table("time.csv", 2);
    let (cities, city_names) = table("store.csv", 1);
    let facts = facts(&months, &cities);
    let mut groups: HashMap<u64, Vec<String>> = HashMap::new();
    for _ in 0..words[1] {
        groups = match words[0] {
            1 => one(&facts).into_iter().map(|(key, (rows, units))| (key, vec![rows.to_string(), text(units)])).collect(),
            _ => three(&facts)
                .into_iter()
                .map(|(key, (rows, units, prices, most))| (key, vec![rows.to_string(), text(units), text(prices), text(most)]))
                .collect(),
        };
    }
    let mut out = Vec::new();
    let header = if words[0] == 1 { "month,city,fact_count,units" } else { "month,city,fact_count,units,price,most" };
    writeln!(out, "{header}").unwrap();
    for (key, fields) in &groups {
        writeln!(out, "{},{},{}", month_names[(key >> 32) as usize], city_names[*key as u32 as usize], fields.join(",")).unwrap();
    }
    std::io::stdout().write_all(&out).unwrap();
}
