//! Finds cells in a list of kept loads by a walk over all of them, for a measure: its input is how many column sets the loads
//! have, and how many times all cells are found. `index/` does the same with the index.
use std::io::Read;

const LOADS: u32 = 1_000;
const CELLS: u32 = 10_000;

struct Load {
    number: u64,
    cube: u16,
    measure: u16,
    columns: Vec<(u16, Option<u32>)>,
}

struct Cell {
    cube: u16,
    measure: u16,
    at: Vec<(u16, u32)>,
}

fn serves(load: &Load, cell: &Cell) -> bool {
    load.cube == cell.cube
        && load.measure == cell.measure
        && load.columns.len() == cell.at.len()
        && cell.at.iter().all(|(column, value)| {
            load.columns
                .iter()
                .any(|(own, allowed)| own == column && allowed.map_or(true, |one| one == *value))
        })
}

fn find(loads: &[Load], cell: &Cell) -> Option<u64> {
    let mut found = None;
    for load in loads {
        if serves(load, cell) && found.map_or(true, |number| number < load.number) {
            found = Some(load.number);
        }
    }
    found
}

fn main() {
    let mut text = String::new();
    std::io::stdin().read_to_string(&mut text).expect("an input");
    let mut words = text.split_whitespace().map(|word| word.parse::<u32>().expect("a number"));
    let (sets, rounds) = (words.next().expect("sets"), words.next().expect("rounds"));
    let of = |i: u32| ((i % sets) as u16, i / sets);
    let loads: Vec<Load> = (0..LOADS)
        .map(|i| {
            let (set, value) = of(i);
            let columns = vec![(set, Some(value)), (set + 32, None)];
            Load { number: u64::from(i) + 1, cube: 0, measure: 0, columns }
        })
        .collect();
    let cells: Vec<Cell> = (0..CELLS)
        .map(|i| {
            let (set, value) = of(i % LOADS);
            Cell { cube: 0, measure: 0, at: vec![(set, value), (set + 32, i)] }
        })
        .collect();
    let mut sum: u64 = 0;
    for _ in 0..rounds {
        for cell in &cells {
            sum = sum.wrapping_add(find(&loads, cell).unwrap_or(0));
        }
    }
    println!("{sum}");
}
