//! Rows and tables under 256 names, in blocks of 64 words, by scripts of calls.
//!
//! A script is played from nothing on memory that [`Playback`] lends, each call with the blocks that it is to be
//! refused, and in the end everything is given back. What is promised of it is proved in Rattle
//! (`crates/playback`); this crate only hands over slices.

mod calls;
pub mod model;
pub mod random;
mod raw;

pub use calls::{Answer, NAMES, Op};
pub use raw::Call;

/// How many words a block has.
pub const BLOCK_WORDS: usize = 64;

/// Why a script wasn't played; then nothing was done.
#[derive(Clone, Copy, Debug, PartialEq, Eq)]
pub enum Refused {
    /// The code of some call is of none.
    Code,
    /// There is too little room for what is noted.
    Room,
}

/// What came of a call.
#[derive(Clone, Copy, Debug, PartialEq, Eq)]
pub struct Told {
    pub answer: Answer,
    /// Whether a block was refused during the call.
    pub refused: bool,
    /// How many blocks were held after it.
    pub held: u64,
    /// How often it asked for, gave back, read or wrote in blocks.
    pub asks: u64,
}

/// Blocks, and room for what is noted while a script is played on them. It is kept from script to script.
pub struct Playback {
    words: Vec<u64>,
    free: Vec<u32>,
    draft: Vec<raw::Note>,
    replies: Vec<raw::Reply>,
    asks: Vec<u64>,
}

/// A script that was played.
pub struct Played<'a> {
    replies: &'a [raw::Reply],
    asks: &'a [u64],
    /// Whether all came to its end, with nothing held.
    pub over: bool,
}

impl Playback {
    /// With so many blocks, at most 1,048,576.
    pub fn new(blocks: usize) -> Playback {
        Playback {
            words: vec![0; blocks * BLOCK_WORDS],
            free: vec![0; blocks],
            draft: Vec::new(),
            replies: Vec::new(),
            asks: Vec::new(),
        }
    }

    /// Makes room for scripts of so many calls.
    pub fn make_room(&mut self, calls: usize) {
        if self.replies.len() < calls {
            self.draft.resize(calls, raw::Note::default());
            self.replies.resize(calls, raw::Reply::default());
            self.asks.resize(calls, 0);
        }
    }

    /// The calls, one after another, from nothing to nothing.
    pub fn play(&mut self, calls: &[Call]) -> Result<Played<'_>, Refused> {
        self.make_room(calls.len());
        let outcome =
            raw::play(&mut self.words, &mut self.free, calls, &mut self.draft, &mut self.replies, &mut self.asks);
        match outcome.refused {
            0 => {
                let told = outcome.told as usize;
                Ok(Played { replies: &self.replies[..told], asks: &self.asks[..told], over: outcome.over == 1 })
            }
            1 => Err(Refused::Code),
            _ => Err(Refused::Room),
        }
    }
}

impl Played<'_> {
    /// How many calls were told.
    pub fn len(&self) -> usize {
        self.replies.len()
    }

    pub fn is_empty(&self) -> bool {
        self.replies.is_empty()
    }

    /// What came of call j.
    pub fn told(&self, j: usize) -> Told {
        let r = &self.replies[j];
        Told { answer: r.answer(), refused: r.refused == 1, held: r.held, asks: self.asks[j] }
    }

    /// How often the calls of a range asked, together.
    pub fn asks(&self, range: std::ops::Range<usize>) -> u64 {
        self.asks[range].iter().sum()
    }
}

/// The first call whose code is of none, or how many calls there are.
pub fn first_unknown(calls: &[Call]) -> usize {
    raw::first_unknown(calls)
}
