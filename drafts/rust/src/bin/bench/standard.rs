//! The same calls on `Vec` and `BTreeMap`.
use crate::clock;
use crate::kinds::{Shape, key};
use playback::Op;
use playback::random::Rng;
use std::collections::BTreeMap;
use std::hint::black_box;
use std::time::{Duration, Instant};

/// What takes longer is broken off.
const LONG: Duration = Duration::from_millis(500);

pub struct Standard {
    rows: Vec<Vec<u64>>,
    tables: Vec<BTreeMap<u64, u64>>,
    row: Vec<u64>,
    table: BTreeMap<u64, u64>,
}

impl Standard {
    pub fn new(shape: Shape, of_tables: bool) -> Standard {
        let mut r = Rng::new(3);
        let things = 0..shape.things;
        let (mut rows, mut tables) = (Vec::new(), Vec::new());
        if of_tables {
            tables = things.map(|n| (0..shape.size).map(|j| (key(n, j), j)).collect()).collect();
        } else {
            rows = things.map(|_| (0..shape.size).map(|_| r.word()).collect()).collect();
        }
        Standard { rows, tables, row: Vec::new(), table: BTreeMap::new() }
    }

    /// Nanoseconds for each `unit` of these calls.
    pub fn nanos(&mut self, ops: &[Op], unit: usize) -> f64 {
        let begun = Instant::now();
        let start = clock::now();
        let mut done = 0;
        for chunk in ops.chunks(64) {
            for op in chunk {
                black_box(self.does(*op));
            }
            done += chunk.len();
            if begun.elapsed() > LONG {
                break;
            }
        }
        (clock::now() - start).as_nanos() as f64 * unit as f64 / done as f64
    }

    fn does(&mut self, op: Op) -> u64 {
        match op {
            Op::At(n, i) => self.rows[n as usize][i as usize],
            Op::Set(n, i, x) => std::mem::replace(&mut self.rows[n as usize][i as usize], x),
            Op::Insert(n, i, x) => {
                self.rows[n as usize].insert(i as usize, x);
                0
            }
            Op::Delete(n, i) => self.rows[n as usize].remove(i as usize),
            Op::Split(n, i, _) => {
                self.row = self.rows[n as usize].split_off(i as usize);
                0
            }
            Op::Join(n, _) => {
                self.rows[n as usize].append(&mut self.row);
                0
            }
            _ => self.does_in_table(op),
        }
    }

    fn does_in_table(&mut self, op: Op) -> u64 {
        match op {
            Op::Put(n, k, x) => self.tables[n as usize].insert(k, x).unwrap_or(0),
            Op::Get(n, k) => self.tables[n as usize].get(&k).copied().unwrap_or(0),
            Op::Drop(n, k) => self.tables[n as usize].remove(&k).unwrap_or(0),
            Op::Least(n, k) => self.tables[n as usize].range(k..).next().map_or(0, |(k, _)| *k),
            Op::Count(n, k) => self.tables[n as usize].range(..k).count() as u64,
            Op::Nth(n, i) => self.tables[n as usize].iter().nth(i as usize).map_or(0, |(k, _)| *k),
            Op::Cut(n, k, _) => {
                self.table = self.tables[n as usize].split_off(&k);
                0
            }
            Op::Merge(n, _) => {
                self.tables[n as usize].append(&mut self.table);
                0
            }
            _ => 0,
        }
    }
}
