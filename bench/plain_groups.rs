//! The plain program that grids of many groups are measured beside: std alone, no quotes in its files, and a panic at each fault.
//!
//! plain_groups: reads flat.csv and other.csv into hash maps by key, and groups.csv into columns of numbers. Then it answers lines: `ready`;
//! `all` and `few`, the grid of all members, and that of the first ten other members; `one` and `many`, the groups rolled up to the first
//! flat member, and to all flat members. At the first line that asks for numbers it sums the units up by both members, in a hash map by the
//! two members' numbers packed into one. Each grid looks its cells up anew, and each roll goes over the groups anew. Each answer ends with a
//! line of one dot.

use std::collections::HashMap;
use std::io::Write;

fn table(file: &str) -> (HashMap<Vec<u8>, u32>, Vec<String>) {
    let text = std::fs::read(file).unwrap();
    let mut keys = HashMap::new();
    let mut names = Vec::new();
    for line in text.split(|c| *c == b'\n').skip(1).filter(|it| !it.is_empty()) {
        let mut fields = line.split(|c| *c == b',');
        keys.insert(fields.next().unwrap().to_vec(), names.len() as u32);
        names.push(String::from_utf8(fields.next().unwrap().to_vec()).unwrap());
    }
    (keys, names)
}

fn facts(flat: &HashMap<Vec<u8>, u32>, other: &HashMap<Vec<u8>, u32>) -> (Vec<u32>, Vec<u32>, Vec<i64>) {
    let bytes = std::fs::read("groups.csv").unwrap();
    let mut facts = (Vec::new(), Vec::new(), Vec::new());
    let mut fields = Vec::new();
    for line in bytes.split(|c| *c == b'\n').skip(1).filter(|it| !it.is_empty()) {
        fields.clear();
        fields.extend(line.split(|c| *c == b','));
        facts.0.push(flat[fields[0]]);
        facts.1.push(other[fields[1]]);
        facts.2.push(std::str::from_utf8(fields[2]).unwrap().parse().unwrap());
    }
    facts
}

fn grid(sums: &HashMap<u64, i128>, rows: &[String], columns: &[String], out: &mut Vec<u8>) {
    writeln!(out, "GRID 1 {} {}", columns.len(), rows.len()).unwrap();
    for column in columns {
        writeln!(out, "C\t[Other].[{column}]").unwrap();
    }
    for (i, row) in rows.iter().enumerate() {
        write!(out, "R\t[Flat].[{row}]").unwrap();
        for j in 0..columns.len() {
            match sums.get(&((i as u64) << 32 | j as u64)) {
                Some(sum) => write!(out, "\t{sum}").unwrap(),
                None => out.push(b'\t'),
            }
        }
        out.push(b'\n');
    }
    out.extend(b".\n");
}

fn row(names: &[String], values: impl Iterator<Item = Option<i128>>, out: &mut Vec<u8>) {
    writeln!(out, "GRID 1 {} 1", names.len()).unwrap();
    for name in names {
        writeln!(out, "C\t[Flat].[{name}]").unwrap();
    }
    out.extend(b"R\t");
    for value in values {
        match value {
            Some(sum) => write!(out, "\t{sum}").unwrap(),
            None => out.push(b'\t'),
        }
    }
    out.extend(b"\n.\n");
}

fn one(sums: &HashMap<u64, i128>) -> Option<i128> {
    let mut found = None;
    for (key, sum) in sums {
        if key >> 32 == 0 {
            found = Some(found.unwrap_or(0) + sum);
        }
    }
    found
}

fn many(sums: &HashMap<u64, i128>) -> HashMap<u64, i128> {
    let mut cells = HashMap::new();
    for (key, sum) in sums {
        *cells.entry(key >> 32).or_insert(0) += sum;
    }
    cells
}

fn sums(facts: &(Vec<u32>, Vec<u32>, Vec<i64>)) -> HashMap<u64, i128> {
    let mut sums: HashMap<u64, i128> = HashMap::new();
    for ((row, column), units) in facts.0.iter().zip(&facts.1).zip(&facts.2) {
        *sums.entry((*row as u64) << 32 | *column as u64).or_insert(0) += i128::from(*units);
    }
    sums
}

fn answer(asked: &str, sums: &HashMap<u64, i128>, rows: &[String], columns: &[String], out: &mut Vec<u8>) {
    match asked {
        "all" => grid(sums, rows, columns, out),
        "few" => grid(sums, rows, &columns[..10], out),
        "one" => row(&rows[..1], [one(sums)].into_iter(), out),
        "many" => {
            let cells = many(sums);
            row(rows, (0..rows.len() as u64).map(|i| cells.get(&i).copied()), out);
        }
        _ => panic!("{asked}"),
    }
}

fn main() {
    let (flat, rows) = table("flat.csv");
    let (other, columns) = table("other.csv");
    let facts = facts(&flat, &other);
    let mut groups = None;
    for line in std::io::stdin().lines() {
        let mut out = Vec::new();
        match line.unwrap().as_str() {
            "ready" => out.extend(b".\n"),
            asked => answer(asked, groups.get_or_insert_with(|| sums(&facts)), &rows, &columns, &mut out),
        }
        std::io::stdout().write_all(&out).unwrap();
        std::io::stdout().flush().unwrap();
    }
}
