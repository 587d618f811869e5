//! What crosses: numbers and slices, as `crates/playback` has them.
use crate::calls::{Answer, Op};

#[repr(C)]
#[derive(Clone, Copy, Debug, Default)]
pub(crate) struct Asked {
    code: u32,
    name: u32,
    other: u32,
    at: u64,
    word: u64,
}

/// A call, and which blocks it is refused.
#[repr(C)]
#[derive(Clone, Copy, Debug)]
pub struct Call {
    asked: Asked,
    refuse: u64,
    room: u64,
}

#[repr(C)]
#[derive(Clone, Copy, Debug, Default)]
pub(crate) struct Reply {
    tag: u32,
    reason: u32,
    a: u64,
    b: u64,
    pub(crate) refused: u64,
    pub(crate) held: u64,
}

#[repr(C)]
#[derive(Clone, Copy, Debug, Default)]
pub(crate) struct Note {
    asked: Asked,
    reply: Reply,
}

#[repr(C)]
pub(crate) struct Outcome {
    pub(crate) refused: u32,
    pub(crate) over: u32,
    pub(crate) told: u64,
}

unsafe extern "C" {
    fn playback_first_unknown(calls: *const Call, calls_len: usize) -> usize;

    fn playback_play(
        words: *mut u64,
        words_len: usize,
        free: *mut u32,
        free_len: usize,
        calls: *const Call,
        calls_len: usize,
        draft: *mut Note,
        draft_len: usize,
        replies: *mut Reply,
        replies_len: usize,
        asks: *mut u64,
        asks_len: usize,
    ) -> Outcome;
}

impl Call {
    /// A call that is refused nothing.
    pub fn new(op: Op) -> Call {
        let (name, other, at, word) = match op {
            Op::Row(n) | Op::Table(n) | Op::Free(n) | Op::Length(n) => (n, 0, 0, 0),
            Op::At(n, i) | Op::Delete(n, i) | Op::Nth(n, i) => (n, 0, i, 0),
            Op::Get(n, k) | Op::Drop(n, k) | Op::Least(n, k) | Op::Count(n, k) => (n, 0, k, 0),
            Op::Set(n, i, x) | Op::Insert(n, i, x) | Op::Put(n, i, x) => (n, 0, i, x),
            Op::Split(n, i, m) | Op::Cut(n, i, m) => (n, m, i, 0),
            Op::Join(n, m) | Op::Merge(n, m) => (n, m, 0, 0),
        };
        let code = op.code() as u32;
        Call { asked: Asked { code, name, other, at, word }, refuse: 0, room: 0 }
    }

    /// The k-th block that it asks for is refused; 0: none.
    pub fn refuse(self, k: u64) -> Call {
        Call { refuse: k, ..self }
    }

    /// Every block is refused while n or more are held; 0: none.
    pub fn room(self, n: u64) -> Call {
        Call { room: n, ..self }
    }

    /// By any code, so also by one of no call.
    pub fn with_code(self, code: u32) -> Call {
        Call { asked: Asked { code, ..self.asked }, ..self }
    }
}

impl Reply {
    pub(crate) fn answer(&self) -> Answer {
        match self.tag {
            0 => Answer::Done,
            1 => Answer::Word(self.a),
            2 => Answer::Pair(self.a, self.b),
            3 => Answer::No(self.reason),
            _ => Answer::Full,
        }
    }
}

pub(crate) fn first_unknown(calls: &[Call]) -> usize {
    // SAFETY: a slice is a pointer and then a length.
    unsafe { playback_first_unknown(calls.as_ptr(), calls.len()) }
}

pub(crate) fn play(
    words: &mut [u64],
    free: &mut [u32],
    calls: &[Call],
    draft: &mut [Note],
    replies: &mut [Reply],
    asks: &mut [u64],
) -> Outcome {
    // SAFETY: six slices, none of which overlaps another that is written.
    unsafe {
        playback_play(
            words.as_mut_ptr(),
            words.len(),
            free.as_mut_ptr(),
            free.len(),
            calls.as_ptr(),
            calls.len(),
            draft.as_mut_ptr(),
            draft.len(),
            replies.as_mut_ptr(),
            replies.len(),
            asks.as_mut_ptr(),
            asks.len(),
        )
    }
}
