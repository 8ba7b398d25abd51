//! Takes kept loads out of a map, one by one, for a measure: its input is how many. `index/` does the same with the index. A load
//! has here what it has there.
use std::collections::HashMap;
use std::io::Read;
use std::rc::Rc;

const LOADS: u64 = 1_000;
const SETS: u64 = 10;

struct Header {
    cube: u16,
    measure: u16,
    columns: Vec<(u16, Option<Vec<u32>>)>,
}

#[derive(Default)]
struct Tally {
    rows: u64,
    sum: i128,
}

struct Load {
    number: u64,
    version: u64,
    header: Header,
    groups: HashMap<[u32; 2], Tally>,
    shut_by: Vec<Rc<Header>>,
}

fn load(i: u64) -> Load {
    let (set, value) = ((i % SETS) as u16, (i / SETS) as u32);
    let columns = vec![(set, Some(vec![value])), (set + 32, None)];
    let mut groups: HashMap<[u32; 2], Tally> = HashMap::new();
    let tally = groups.entry([value, 0]).or_default();
    tally.rows += 1;
    tally.sum += 1;
    Load { number: i + 1, version: 1, header: Header { cube: 0, measure: 0, columns }, groups, shut_by: Vec::new() }
}

#[inline(never)]
fn evict(loads: &mut HashMap<u64, Load>, evictions: u64) -> u64 {
    let mut sum: u64 = 0;
    for number in 1..=evictions {
        let load = loads.remove(&number).expect("a load");
        sum = sum.wrapping_add(load.number);
    }
    sum
}

// How much the loads that are left hold, so that nothing of them is left out.
fn held(loads: &HashMap<u64, Load>) -> u64 {
    let one = |load: &Load| {
        let header = &load.header;
        let allowed: usize = header.columns.iter().map(|c| c.1.as_ref().map_or(0, Vec::len)).sum();
        let rows: u64 = load.groups.values().map(|tally| tally.rows + tally.sum as u64).sum();
        load.version + u64::from(header.cube + header.measure) + allowed as u64 + rows + load.shut_by.len() as u64
    };
    loads.values().map(one).sum()
}

fn main() {
    let mut text = String::new();
    std::io::stdin().read_to_string(&mut text).expect("an input");
    let evictions: u64 = text.trim().parse().expect("a number");
    let mut loads: HashMap<u64, Load> = (0..LOADS).map(|i| (i + 1, load(i))).collect();
    let sum = evict(&mut loads, evictions);
    assert_eq!(held(&loads), 4 * (LOADS - evictions));
    println!("{sum}");
}
