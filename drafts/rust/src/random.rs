//! Random scripts: calls that mostly hit something, with refusals.
use crate::calls::{NAMES, Op};
use crate::model::{Model, Thing};
use crate::raw::Call;
use std::collections::VecDeque;

/// Numbers by xorshift; the same seed, the same numbers.
pub struct Rng(u64);

impl Rng {
    pub fn new(seed: u64) -> Rng {
        let mut r = Rng(seed.wrapping_mul(0x9e37_79b9_7f4a_7c15) | 1);
        for _ in 0..8 {
            r.word();
        }
        r
    }

    pub fn word(&mut self) -> u64 {
        self.0 ^= self.0 << 13;
        self.0 ^= self.0 >> 7;
        self.0 ^= self.0 << 17;
        self.0.wrapping_mul(0x2545_f491_4f6c_dd1d)
    }

    /// Below n.
    pub fn below(&mut self, n: u64) -> u64 {
        ((self.word() as u128 * n as u128) >> 64) as u64
    }

    /// In so many of a thousand.
    pub fn chance(&mut self, permille: u64) -> bool {
        self.below(1000) < permille
    }

    pub fn one_of<T: Copy>(&mut self, xs: &[T]) -> T {
        xs[self.below(xs.len() as u64) as usize]
    }
}

/// What a call wants under a name.
#[derive(Clone, Copy)]
enum Kind {
    Nothing,
    Row,
    Table,
}

/// Which calls come how often, by their codes.
type Weights = [u64; 18];

//                     row table free len at set ins del split join put get drop least count nth cut merge
const GROW: Weights = [2, 2, 0, 1, 3, 3, 60, 6, 1, 1, 60, 3, 6, 2, 2, 2, 1, 1];
const SHRINK: Weights = [1, 1, 0, 1, 3, 3, 6, 60, 1, 1, 6, 3, 60, 2, 2, 2, 1, 1];
const LOOK: Weights = [2, 2, 1, 8, 20, 10, 5, 5, 2, 2, 5, 20, 5, 15, 15, 15, 2, 2];
const PART: Weights = [4, 4, 3, 2, 3, 3, 20, 10, 20, 20, 20, 3, 10, 2, 2, 2, 20, 20];

/// Writes a script. It knows what things come to, as if nothing were refused since `follow`.
pub struct Writer {
    rng: Rng,
    model: Model,
    blocks: u64,
    names: Vec<u32>,
    keys: u64,
    refusals: u64,
    phase: u64,
    weights: Weights,
    room: u64,
    left: u64,
    next: VecDeque<Op>,
}

impl Writer {
    pub fn new(seed: u64, calls: usize, blocks: usize) -> Writer {
        let mut rng = Rng::new(seed);
        let count = rng.one_of(&[1, 2, 3, 6, 40]);
        let refusals = rng.one_of(if calls < 20_000 { &[0, 10, 100, 400] } else { &[0, 2, 10, 50] });
        Writer {
            names: (0..count).map(|_| rng.below(NAMES as u64) as u32).collect(),
            keys: rng.one_of(&[50, 1000, 20_000, 1 << 20, u64::MAX]),
            rng,
            model: Model::default(),
            blocks: blocks as u64,
            refusals,
            phase: (calls as u64 / 4).max(40),
            weights: GROW,
            room: 0,
            left: 0,
            next: VecDeque::new(),
        }
    }

    /// From here on things are as in the model.
    pub fn follow(&mut self, model: &Model) {
        self.model = model.clone();
    }

    /// The next call, and what it is in numbers.
    pub fn call(&mut self) -> (Op, Call) {
        let emptied = self.weights[7] > self.weights[6] && self.model.items() == 0;
        if self.left == 0 || emptied {
            self.begin_phase();
        }
        self.left -= 1;
        let op = match self.next.pop_front() {
            Some(op) if self.rng.chance(700) => op,
            _ => self.any(),
        };
        self.suppose(op);
        let mut call = Call::new(op).room(self.room);
        if self.rng.chance(self.refusals) {
            call = call.refuse(self.rng.one_of(&[1, 1, 1, 2, 2, 3, 4, 7]));
        }
        (op, call)
    }

    fn begin_phase(&mut self) {
        self.left = 1 + self.rng.below(self.phase);
        self.weights = self.rng.one_of(&[GROW, GROW, SHRINK, LOOK, PART]);
        self.room = if self.rng.chance(850) { 0 } else { self.rng.one_of(&[1, 5, 30, 200, 2000]) };
    }

    /// What the call comes to, unless there is about as much as there are blocks for, at 40 words to a block.
    fn suppose(&mut self, op: Op) {
        let most = if self.room == 0 { self.blocks } else { self.blocks.min(self.room) };
        let scarce = matches!(op, Op::Insert(..) | Op::Put(..)) && self.model.items() / 40 >= most;
        if scarce || !op.changes() || self.model.expected(op).is_err() {
            return;
        }
        self.model.apply(op);
        match op {
            Op::Split(n, _, m) if self.rng.chance(600) => self.next.push_back(Op::Join(n, m)),
            Op::Cut(n, _, m) if self.rng.chance(600) => self.next.push_back(Op::Merge(n, m)),
            _ => {}
        }
    }

    /// Which call, by the weights.
    fn code(&mut self) -> usize {
        let mut at = self.rng.below(self.weights.iter().sum());
        let mut code = 0;
        while at >= self.weights[code] {
            at -= self.weights[code];
            code += 1;
        }
        code
    }

    /// A call and its first name, mostly one where it finds what it wants.
    fn code_and_name(&mut self) -> (usize, u32) {
        for _ in 0..3 {
            let code = self.code();
            let kind = match code {
                0 | 1 => Kind::Nothing,
                2 | 3 => self.rng.one_of(&[Kind::Row, Kind::Table]),
                4..=9 => Kind::Row,
                _ => Kind::Table,
            };
            let n = self.name(kind);
            // what is long is seldom freed
            let freed = code == 2 && self.model.thing(n).len() > 200 && !self.rng.chance(10);
            if self.is(kind, n) && !freed {
                return (code, n);
            }
        }
        (self.code(), self.rng.one_of(&self.names))
    }

    fn is(&self, kind: Kind, n: u32) -> bool {
        matches!(
            (kind, self.model.thing(n)),
            (Kind::Nothing, Thing::Nothing) | (Kind::Row, Thing::Row(_)) | (Kind::Table, Thing::Table(_))
        )
    }

    fn any(&mut self) -> Op {
        let (code, n) = self.code_and_name();
        let x = self.rng.word();
        match code {
            0 => Op::Row(n),
            1 => Op::Table(n),
            2 => Op::Free(n),
            3 => Op::Length(n),
            4 => Op::At(n, self.place(n)),
            5 => Op::Set(n, self.place(n), x),
            6 => Op::Insert(n, self.place(n), x),
            7 => Op::Delete(n, self.place(n)),
            8 => Op::Split(n, self.place(n), self.name(Kind::Nothing)),
            9 => Op::Join(n, self.name(Kind::Row)),
            10 => Op::Put(n, self.key(n), x),
            11 => Op::Get(n, self.key(n)),
            12 => Op::Drop(n, self.key(n)),
            13 => Op::Least(n, self.key(n)),
            14 => Op::Count(n, self.key(n)),
            15 => Op::Nth(n, self.place(n)),
            16 => Op::Cut(n, self.key(n), self.name(Kind::Nothing)),
            _ => Op::Merge(n, self.name(Kind::Table)),
        }
    }

    /// A name under which this is, mostly.
    fn name(&mut self, kind: Kind) -> u32 {
        if self.rng.chance(5) {
            return self.rng.one_of(&[255, 256, 300, u32::MAX]);
        }
        for _ in 0..8 {
            let n = match kind {
                Kind::Nothing if self.rng.chance(300) => self.rng.below(NAMES as u64) as u32,
                _ => self.rng.one_of(&self.names),
            };
            if self.is(kind, n) {
                return n;
            }
        }
        self.rng.one_of(&self.names)
    }

    fn place(&mut self, n: u32) -> u64 {
        let size = self.model.thing(n).len();
        match self.rng.below(20) {
            0 => 0,
            1 => size,
            2 => size.saturating_sub(1),
            3 if self.rng.chance(100) => self.rng.word(),
            _ => self.rng.below(size + 1),
        }
    }

    /// A key, often one that is there.
    fn key(&mut self, n: u32) -> u64 {
        let k = match self.rng.below(200) {
            0 => u64::MAX,
            1 => 0,
            _ => self.rng.below(self.keys),
        };
        match self.model.thing(n) {
            Thing::Table(ps) if self.rng.chance(500) => ps.range(k..).next().map_or(k, |(k, _)| *k),
            _ => k,
        }
    }
}
