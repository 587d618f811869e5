//! How long calls take, and how often they ask, beside `Vec` and `BTreeMap`.
//!
//!     cargo run --release --bin bench
//!
//! Prints tables, and writes docs/PERFORMANCE.md and docs/performance.svg. `quick` as an argument leaves out the
//! largest size and writes nothing.
mod clock;
mod kinds;
mod picture;
mod report;
mod standard;
mod timing;

use kinds::{KINDS, Kind, Shape};
use report::Line;
use timing::Bench;

const SIZES: [u64; 4] = [600, 9_000, 90_000, 1_000_000];

fn main() {
    let quick = std::env::args().any(|a| a == "quick");
    let sizes = if quick { &SIZES[..3] } else { &SIZES[..] };
    let mut lines: Vec<Line> = Vec::new();
    for &size in sizes {
        for of_tables in [false, true] {
            let kinds: Vec<Kind> = KINDS.into_iter().filter(|k| k.of_tables() == of_tables).collect();
            let mut bench = Bench::new(Shape::new(size), of_tables);
            for line in bench.lines(&kinds) {
                println!("{}", report::row(&line));
                lines.push(line);
            }
        }
    }
    println!("\n{}", report::tables(&lines));
    if !quick {
        report::write(&lines);
    }
}
