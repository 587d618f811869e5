//! The calls and the answers.

/// How many names there are.
pub const NAMES: usize = 256;

/// A call; names first.
#[derive(Clone, Copy, Debug, PartialEq, Eq)]
pub enum Op {
    Row(u32),
    Table(u32),
    Free(u32),
    Length(u32),
    At(u32, u64),
    Set(u32, u64, u64),
    Insert(u32, u64, u64),
    Delete(u32, u64),
    Split(u32, u64, u32),
    Join(u32, u32),
    Put(u32, u64, u64),
    Get(u32, u64),
    Drop(u32, u64),
    Least(u32, u64),
    Count(u32, u64),
    Nth(u32, u64),
    Cut(u32, u64, u32),
    Merge(u32, u32),
}

#[derive(Clone, Copy, Debug, PartialEq, Eq)]
pub enum Answer {
    Done,
    Word(u64),
    Pair(u64, u64),
    No(u32),
    Full,
}

impl Op {
    /// The words of the calls, in the order of their codes.
    pub const WORDS: [&'static str; 18] = [
        "row", "table", "free", "length", "at", "set", "insert", "delete", "split", "join", "put", "get", "drop",
        "least", "count", "nth", "cut", "merge",
    ];

    /// The place in `WORDS`.
    pub fn code(self) -> usize {
        match self {
            Op::Row(..) => 0,
            Op::Table(..) => 1,
            Op::Free(..) => 2,
            Op::Length(..) => 3,
            Op::At(..) => 4,
            Op::Set(..) => 5,
            Op::Insert(..) => 6,
            Op::Delete(..) => 7,
            Op::Split(..) => 8,
            Op::Join(..) => 9,
            Op::Put(..) => 10,
            Op::Get(..) => 11,
            Op::Drop(..) => 12,
            Op::Least(..) => 13,
            Op::Count(..) => 14,
            Op::Nth(..) => 15,
            Op::Cut(..) => 16,
            Op::Merge(..) => 17,
        }
    }

    /// Whether it may change anything.
    pub fn changes(self) -> bool {
        !matches!(self.code(), 3 | 4 | 11 | 13..=15)
    }

    /// Whether a block may be wanted for it, so that it may be answered full.
    pub fn may_fill(self) -> bool {
        matches!(self.code(), 0 | 1 | 6 | 8 | 9 | 10 | 16 | 17)
    }
}
