//! The plain program that flushes are measured beside: std alone, no quotes in its files, and a panic at each fault.
//!
//! Its input has the steps of flush_steps.py, as words, one on a line. It reads flat.csv and other.csv into hash maps by key, and
//! groups.csv into columns of numbers. The cells that were asked for stand in a hash map by the two members' numbers packed into one;
//! a flush drops those that it names. A query sums the cells that are not there up in one walk of the rows, and writes its grid.

use std::collections::HashMap;
use std::io::{BufRead, Write};

/// Stands in a cell for a member of a dimension that it has none of.
const NONE: u32 = u32::MAX;

fn table(file: &str) -> (HashMap<Vec<u8>, u32>, Vec<String>) {
    let text = std::fs::read(file).unwrap();
    let mut keys = HashMap::new();
    let mut names = Vec::new();
    for line in text.split(|c| *c == b'\n').skip(1).filter(|it| !it.is_empty()) {
        let mut fields = line.split(|c| *c == b',');
        keys.insert(fields.next().unwrap().to_vec(), names.len() as u32);
        names.push(String::from_utf8(fields.next().unwrap().to_vec()).unwrap());
    }
    (keys, names)
}

fn cell(flat: u32, other: u32) -> u64 {
    u64::from(flat) << 32 | u64::from(other)
}

struct Cache {
    flat: (HashMap<Vec<u8>, u32>, Vec<String>),
    other: (HashMap<Vec<u8>, u32>, Vec<String>),
    /// The flat member, the other member and the units of each row.
    facts: (Vec<u32>, Vec<u32>, Vec<i64>),
    /// The sum of each cell that was asked for, where it has a row.
    cells: HashMap<u64, Option<i128>>,
}

impl Cache {
    fn append(&mut self, file: &str) {
        let bytes = std::fs::read(file).unwrap();
        let mut fields = Vec::new();
        for line in bytes.split(|c| *c == b'\n').skip(1).filter(|it| !it.is_empty()) {
            fields.clear();
            fields.extend(line.split(|c| *c == b','));
            assert_eq!(fields.len(), 3);
            self.facts.0.push(self.flat.0[fields[0]]);
            self.facts.1.push(self.other.0[fields[1]]);
            self.facts.2.push(std::str::from_utf8(fields[2]).unwrap().parse().unwrap());
        }
    }

    /// Drops the cells of an other member. Each cell has one.
    fn flush_side(&mut self, other: u32) {
        self.cells.retain(|key, _| *key as u32 != other);
    }

    /// Drops the cells of a flat member, and those without one.
    fn flush_flat(&mut self, flat: u32) {
        self.cells.retain(|key, _| (*key >> 32) as u32 != flat && (*key >> 32) as u32 != NONE);
    }

    /// Sums up the cells of these flat members that are not there.
    fn load(&mut self, flats: &[u32]) {
        let mut fresh: HashMap<u64, Option<i128>> = HashMap::new();
        for flat in flats {
            for other in 0..self.other.1.len() as u32 {
                if !self.cells.contains_key(&cell(*flat, other)) {
                    fresh.insert(cell(*flat, other), None);
                }
            }
        }
        if fresh.is_empty() {
            return;
        }
        for ((flat, other), units) in self.facts.0.iter().zip(&self.facts.1).zip(&self.facts.2) {
            let flat = if flats[0] == NONE { NONE } else { *flat };
            if let Some(sum) = fresh.get_mut(&cell(flat, *other)) {
                *sum = Some(sum.unwrap_or(0) + i128::from(*units));
            }
        }
        self.cells.extend(fresh);
    }

    fn value(&self, out: &mut Vec<u8>, flat: u32, other: usize) {
        match self.cells[&cell(flat, other as u32)] {
            Some(sum) => write!(out, "\t{sum}").unwrap(),
            None => out.push(b'\t'),
        }
    }

    /// The grid of the other members on the rows.
    fn sides(&mut self) -> Vec<u8> {
        self.load(&[NONE]);
        let mut out = Vec::new();
        write!(out, "GRID 1 1 {}\nC\t[Measures].[Units]\n", self.other.1.len()).unwrap();
        for (i, name) in self.other.1.iter().enumerate() {
            write!(out, "R\t[Other].[{name}]").unwrap();
            self.value(&mut out, NONE, i);
            out.push(b'\n');
        }
        out.extend(b".\n");
        out
    }

    /// The grid of the other members on the columns, and of these flat members on the rows.
    fn rows(&mut self, flats: &[u32]) -> Vec<u8> {
        self.load(flats);
        let mut out = Vec::new();
        writeln!(out, "GRID 1 {} {}", self.other.1.len(), flats.len()).unwrap();
        for name in &self.other.1 {
            writeln!(out, "C\t[Other].[{name}]").unwrap();
        }
        for flat in flats {
            write!(out, "R\t[Flat].[{}]", self.flat.1[*flat as usize]).unwrap();
            for i in 0..self.other.1.len() {
                self.value(&mut out, *flat, i);
            }
            out.push(b'\n');
        }
        out.extend(b".\n");
        out
    }
}

fn main() {
    let (flat, other) = (table("flat.csv"), table("other.csv"));
    let mut cache = Cache { flat, other, facts: Default::default(), cells: HashMap::new() };
    cache.append("groups.csv");
    let mut out = std::io::stdout().lock();
    for line in std::io::stdin().lock().lines() {
        let line = line.unwrap();
        let mut words = line.split(' ');
        let what = words.next().unwrap();
        let key = words.next().unwrap_or("");
        let grid = match what {
            "append" => {
                cache.append(&format!("b{key}.csv"));
                continue;
            }
            "side" => {
                cache.flush_side(cache.other.0[key.as_bytes()]);
                continue;
            }
            "flat" => {
                cache.flush_flat(cache.flat.0[key.as_bytes()]);
                continue;
            }
            "sides" => cache.sides(),
            "all" => cache.rows(&(0..cache.flat.1.len() as u32).collect::<Vec<_>>()),
            "row" => cache.rows(&[cache.flat.0[key.as_bytes()]]),
            _ => panic!("no step: {line}"),
        };
        out.write_all(&grid).unwrap();
    }
}
