//! Which calls are timed, and on what.
use playback::Op;
use playback::random::Rng;

/// The name under which parts lie meanwhile, and one where nothing is.
const PART: u32 = 254;
const NOTHING: u32 = 255;

#[derive(Clone, Copy, Debug, PartialEq, Eq)]
pub enum Kind {
    Away,
    At,
    Set,
    Insert,
    Delete,
    SplitJoin,
    Get,
    Least,
    Count,
    Nth,
    Put,
    Drop,
    CutMerge,
}

pub const KINDS: [Kind; 13] = [
    Kind::Away,
    Kind::At,
    Kind::Set,
    Kind::Insert,
    Kind::Delete,
    Kind::SplitJoin,
    Kind::Get,
    Kind::Least,
    Kind::Count,
    Kind::Nth,
    Kind::Put,
    Kind::Drop,
    Kind::CutMerge,
];

/// So many rows or tables, each of this size.
#[derive(Clone, Copy)]
pub struct Shape {
    pub things: u32,
    pub size: u64,
}

impl Shape {
    /// As many as have 120,000 items together, or one.
    pub fn new(size: u64) -> Shape {
        Shape { things: (120_000 / size).max(1) as u32, size }
    }

    pub fn items(self) -> u64 {
        self.things as u64 * self.size
    }

    /// Blocks enough, and some more.
    pub fn blocks(self, of_tables: bool) -> usize {
        let each = if of_tables { 12 } else { 24 };
        (self.items() * 5 / 4 / each + 4 * self.things as u64 + 200) as usize
    }
}

impl Kind {
    pub fn name(self) -> &'static str {
        match self {
            Kind::Away => "turned away",
            Kind::At => "at",
            Kind::Set => "set",
            Kind::Insert => "insert",
            Kind::Delete => "delete",
            Kind::SplitJoin => "split + join",
            Kind::Get => "get",
            Kind::Least => "least",
            Kind::Count => "count",
            Kind::Nth => "nth",
            Kind::Put => "put",
            Kind::Drop => "drop",
            Kind::CutMerge => "cut + merge",
        }
    }

    pub fn of_tables(self) -> bool {
        !matches!(self, Kind::Away | Kind::At | Kind::Set | Kind::Insert | Kind::Delete | Kind::SplitJoin)
    }

    /// How often it is done: what changes the size, for a tenth of it.
    fn times(self, shape: Shape) -> u64 {
        match self {
            Kind::Insert | Kind::Delete | Kind::Put | Kind::Drop => shape.items() / 10,
            Kind::SplitJoin | Kind::CutMerge => 10_000,
            _ => shape.items().max(200_000),
        }
    }

    /// How many calls are one of this kind.
    pub fn unit(self) -> usize {
        if matches!(self, Kind::SplitJoin | Kind::CutMerge) { 2 } else { 1 }
    }

    /// The calls, at random.
    pub fn batch(self, shape: Shape, r: &mut Rng) -> Vec<Op> {
        let mut sizes = vec![shape.size; shape.things as usize];
        (0..self.times(shape)).flat_map(|j| self.one(shape, j, &mut sizes, r)).collect()
    }

    fn one(self, shape: Shape, j: u64, sizes: &mut [u64], r: &mut Rng) -> Vec<Op> {
        let n = (j % shape.things as u64) as u32;
        let nth = j / shape.things as u64;
        let size = sizes[n as usize];
        let x = r.word();
        match self {
            Kind::Away => vec![Op::Length(NOTHING)],
            Kind::At => vec![Op::At(n, r.below(size))],
            Kind::Set => vec![Op::Set(n, r.below(size), x)],
            Kind::Insert => {
                sizes[n as usize] += 1;
                vec![Op::Insert(n, r.below(size + 1), x)]
            }
            Kind::Delete => {
                sizes[n as usize] -= 1;
                vec![Op::Delete(n, r.below(size))]
            }
            Kind::SplitJoin => vec![Op::Split(n, r.below(size + 1), PART), Op::Join(n, PART)],
            Kind::Get => vec![Op::Get(n, key(n, r.below(size)))],
            Kind::Least => vec![Op::Least(n, x)],
            Kind::Count => vec![Op::Count(n, x)],
            Kind::Nth => vec![Op::Nth(n, r.below(size))],
            Kind::Put => vec![Op::Put(n, key(n, shape.size + nth), x)],
            Kind::Drop => vec![Op::Drop(n, key(n, nth))],
            Kind::CutMerge => vec![Op::Cut(n, x, PART), Op::Merge(n, PART)],
        }
    }
}

/// The j-th key of a table: no two are one, and they come as at random.
pub fn key(n: u32, j: u64) -> u64 {
    let mut z = ((n as u64) << 40 | j).wrapping_mul(0x9e37_79b9_7f4a_7c15);
    z = (z ^ (z >> 30)).wrapping_mul(0xbf58_476d_1ce4_e5b9);
    z = (z ^ (z >> 27)).wrapping_mul(0x94d0_49bb_1331_11eb);
    z ^ (z >> 31)
}

/// What stands before the calls that are timed: words at random places, or random keys.
pub fn setup(shape: Shape, of_tables: bool, r: &mut Rng) -> Vec<Op> {
    let mut ops = Vec::new();
    for n in 0..shape.things {
        ops.push(if of_tables { Op::Table(n) } else { Op::Row(n) });
        for j in 0..shape.size {
            let x = r.word();
            ops.push(if of_tables { Op::Put(n, key(n, j), x) } else { Op::Insert(n, r.below(j + 1), x) });
        }
    }
    ops
}
