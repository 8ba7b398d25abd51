//! The plain program that `olapd run` is measured beside: std alone, no quotes in its files, and a panic at each fault.
//!
//! plain_sales FACTS QUERIES: reads time.csv and store.csv into hash maps by key, and FACTS into columns of numbers, and
//! then folds the units of the year Y1 so many times: the first time over the rows, and then out of a hash map.

use std::collections::HashMap;

/// The places of the records of a table by their keys, and one column of texts.
fn table(file: &str, column: &str) -> (HashMap<Vec<u8>, u32>, Vec<Vec<u8>>) {
    let bytes = std::fs::read(file).unwrap();
    let mut lines = bytes.split(|c| *c == b'\n');
    let header: Vec<&[u8]> = lines.next().unwrap().split(|c| *c == b',').collect();
    let place = header.iter().position(|it| *it == column.as_bytes()).unwrap();
    let (mut keys, mut texts) = (HashMap::new(), Vec::new());
    for line in lines.filter(|it| !it.is_empty()) {
        let fields: Vec<&[u8]> = line.split(|c| *c == b',').collect();
        keys.insert(fields[0].to_vec(), texts.len() as u32);
        texts.push(fields[place].to_vec());
    }
    (keys, texts)
}

fn number(field: &[u8]) -> Option<i64> {
    match field {
        b"" => None,
        field => Some(std::str::from_utf8(field).unwrap().parse().unwrap()),
    }
}

fn main() {
    let words: Vec<String> = std::env::args().skip(1).collect();
    let (times, years) = table("time.csv", "year");
    let (stores, _) = table("store.csv", "state");
    let bytes = std::fs::read(&words[0]).unwrap();
    let (mut time, mut store) = (Vec::new(), Vec::new());
    let (mut units, mut customer): (Vec<Option<i64>>, Vec<Option<i64>>) = (Vec::new(), Vec::new());
    let mut fields = Vec::new();
    for line in bytes.split(|c| *c == b'\n').skip(1).filter(|it| !it.is_empty()) {
        fields.clear();
        fields.extend(line.split(|c| *c == b','));
        assert_eq!(fields.len(), 4);
        time.push(times[fields[0]]);
        store.push(stores[fields[1]]);
        customer.push(number(fields[2]));
        units.push(number(fields[3]));
    }
    drop(bytes);
    assert!(store.len() == units.len() && customer.len() == units.len());
    let mut known: HashMap<&[u8], i128> = HashMap::new();
    for _ in 0..words[1].parse::<u32>().unwrap() {
        let sum = *known.entry(b"Y1").or_insert_with(|| {
            let rows = time.iter().zip(&units).filter(|row| years[*row.0 as usize] == b"Y1");
            rows.filter_map(|row| row.1.map(i128::from)).sum()
        });
        println!("{sum}");
    }
}
