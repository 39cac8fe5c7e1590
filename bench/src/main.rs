// Measures boards with the library and with a plain program over `BinaryHeap`, compares every record, and prints the times side by side.
mod library;
mod plain;

use library::{Record, Spot, Tables, measure};
use plain::Plain;
use std::time::Instant;

const RUNS: usize = 31;

// A square board with pad 1 in its first cell; heights are 0, or from 0 to 999 by a fixed generator.
fn board(side: usize, rough: bool) -> Vec<Spot> {
    let mut state = 88172645463325252u64;
    let mut height = || {
        state ^= state << 13;
        state ^= state >> 7;
        state ^= state << 17;
        (state % 1000) as u16
    };
    (0..side * side)
        .map(|number| Spot {
            height: if rough { height() } else { 0 },
            pad: (number == 0) as u8,
        })
        .collect()
}

fn median(mut times: Vec<f64>) -> f64 {
    times.sort_by(f64::total_cmp);
    times[times.len() / 2]
}

// Seconds that it takes.
fn timed(work: impl FnOnce()) -> f64 {
    let start = Instant::now();
    work();
    start.elapsed().as_secs_f64()
}

// One board, measured in turn by both: milliseconds of one measuring.
fn compare(side: usize, spots: &[Spot]) -> (f64, f64) {
    let mut records = vec![Record::default(); spots.len()];
    let mut tables = Tables::new(spots.len());
    let mut plain = Plain::new(side, spots);
    let counts = measure(side, spots, 1, &mut tables, &mut records);
    assert_eq!(counts, plain.measure());
    assert!(records == plain.map);
    let batch = (1 << 18) / spots.len();
    let (mut ours, mut theirs) = (Vec::new(), Vec::new());
    for _ in 0..RUNS {
        // What it takes to enter the board and to write the records is taken off.
        let once = timed(|| {
            measure(side, spots, 1, &mut tables, &mut records);
        });
        let more = timed(|| {
            measure(side, spots, 1 + batch, &mut tables, &mut records);
        });
        ours.push((more - once) / batch as f64 * 1e3);
        let all = timed(|| {
            for _ in 0..batch {
                plain.measure();
            }
        });
        theirs.push(all / batch as f64 * 1e3);
    }
    (median(ours), median(theirs))
}

fn main() {
    println!("side  heights   library ms  ns/cell   Rust ms  ns/cell");
    for side in [32, 64, 128, 256] {
        for (name, rough) in [("flat", false), ("0 to 999", true)] {
            let spots = board(side, rough);
            let (ours, theirs) = compare(side, &spots);
            let each = 1e6 / (side * side) as f64;
            println!(
                "{side:4}  {name:8}  {ours:10.3}  {:7.1}  {theirs:8.3}  {:7.1}",
                ours * each,
                theirs * each
            );
        }
    }
}
