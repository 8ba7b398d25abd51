//! The plain program that olapd is measured beside: std alone, no quotes in its files, and a panic at each fault.
//!
//! plain FILE COLUMN sum|avg|distinct-count [COLUMN FIELD]..

use std::collections::HashSet;

fn main() {
    let words: Vec<String> = std::env::args().skip(1).collect();
    let bytes = std::fs::read(&words[0]).unwrap();
    let mut lines = bytes.split(|c| *c == b'\n');
    let header: Vec<&[u8]> = lines.next().unwrap().split(|c| *c == b',').collect();
    let place = |name: &str| header.iter().position(|it| *it == name.as_bytes()).unwrap();
    let column = place(&words[1]);
    let pairs: Vec<(usize, &[u8])> = words[3..].chunks(2).map(|it| (place(&it[0]), it[1].as_bytes())).collect();
    let is_distinct = words[2] == "distinct-count";

    let (mut rows, mut known, mut sum) = (0, 0, 0i128);
    let mut values = HashSet::new();
    let mut fields = Vec::new();
    for line in lines.filter(|it| !it.is_empty()) {
        fields.clear();
        fields.extend(line.split(|c| *c == b','));
        assert_eq!(fields.len(), header.len());
        let value = match fields[column] {
            b"" => None,
            field => Some(std::str::from_utf8(field).unwrap().parse::<i64>().unwrap()),
        };
        if !pairs.iter().all(|(place, field)| fields[*place] == *field) {
            continue;
        }
        rows += 1;
        if let Some(value) = value {
            known += 1;
            sum += i128::from(value);
            if is_distinct {
                values.insert(value);
            }
        }
    }
    match words[2].as_str() {
        _ if rows == 0 => println!(),
        "distinct-count" => println!("{}", values.len()),
        _ if known == 0 => println!(),
        "sum" => println!("{sum}"),
        "avg" => {
            // In hundredths, and half away from zero.
            let size = (200 * sum.abs() + known) / (2 * known);
            println!("{}{}.{:02}", if sum < 0 { "-" } else { "" }, size / 100, size % 100);
        }
        name => panic!("no aggregator {name}"),
    }
}
