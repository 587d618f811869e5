//! Random scripts, each answer held to the rules over `Vec` and `BTreeMap`.
//!
//!     cargo run --release --bin beside [CALLS] [SEED]
//!
//! 1,000,000 calls in all, if nothing else is said. Each script's seed is printed.
use playback::model::Model;
use playback::random::{Rng, Writer};
use playback::{Answer, Call, Op, Playback, Told};
use std::process::ExitCode;

/// What was seen of each call.
#[derive(Default)]
struct Seen {
    done: u64,
    no: u64,
    full: u64,
    most_asks: u64,
}

impl Seen {
    fn note(&mut self, told: Told) {
        self.most_asks = self.most_asks.max(told.asks);
        match told.answer {
            Answer::No(_) => self.no += 1,
            Answer::Full => self.full += 1,
            _ => self.done += 1,
        }
    }
}

/// How long a script is, and on how many blocks it is played.
fn shape(seed: u64, left: usize) -> (usize, usize) {
    let mut r = Rng::new(seed ^ 0x5eed);
    let calls = match r.below(10) {
        0..=4 => 1 + r.below(200),
        5..=7 => 1000 + r.below(9000),
        _ => 50_000 + r.below(150_000),
    } as usize;
    let blocks = match r.below(5) {
        0 if calls < 20_000 => r.below(4) as usize,
        1 => 20 + r.below(100) as usize,
        _ => 64 + calls / 10,
    };
    (calls.min(left), blocks)
}

/// A script while it is written and played. It is written in parts, each of which knows what came of those before.
struct Round<'a> {
    writer: Writer,
    model: Model,
    playback: Playback,
    ops: Vec<Op>,
    script: Vec<Call>,
    held: u64,
    most: u64,
    full: u64,
    seen: &'a mut [Seen],
}

impl Round<'_> {
    /// So many calls more: the whole script is played again, and what is new is held to the rules.
    fn part(&mut self, calls: usize) -> Result<(), String> {
        let from = self.ops.len();
        for _ in 0..calls {
            let (op, call) = self.writer.call();
            self.ops.push(op);
            self.script.push(call);
        }
        let played = self.playback.play(&self.script).map_err(|e| format!("refused: {e:?}"))?;
        if played.len() != self.ops.len() {
            return Err(format!("{} of {} calls were told", played.len(), self.ops.len()));
        }
        for j in from..self.ops.len() {
            let (op, told) = (self.ops[j], played.told(j));
            self.model.check(op, told, self.held).map_err(|e| format!("call {j}: {e}"))?;
            self.held = told.held;
            self.most = self.most.max(told.held);
            self.full += u64::from(told.answer == Answer::Full);
            self.seen[op.code()].note(told);
        }
        if !played.over {
            return Err(String::from("something is held in the end"));
        }
        self.writer.follow(&self.model);
        Ok(())
    }
}

/// Plays one script; what came of it, or what is wrong.
fn round(seed: u64, calls: usize, blocks: usize, seen: &mut [Seen]) -> Result<String, String> {
    let mut round = Round {
        writer: Writer::new(seed, calls, blocks),
        model: Model::default(),
        playback: Playback::new(blocks),
        ops: Vec::new(),
        script: Vec::new(),
        held: 0,
        most: 0,
        full: 0,
        seen,
    };
    while round.ops.len() < calls {
        let done = round.ops.len();
        round.part((done / 4).max(50).min(calls - done))?;
    }
    Ok(format!("{calls} calls on {blocks} blocks, {} full, at most {} held", round.full, round.most))
}

fn main() -> ExitCode {
    let mut args = std::env::args().skip(1).map(|a| a.parse::<u64>().expect("a number"));
    let calls = args.next().unwrap_or(1_000_000) as usize;
    let mut seed = args.next().unwrap_or(1);
    let mut seen: Vec<Seen> = (0..18).map(|_| Seen::default()).collect();
    let mut left = calls;
    while left > 0 {
        let (count, blocks) = shape(seed, left);
        match round(seed, count, blocks, &mut seen) {
            Ok(text) => println!("seed {seed}: {text}"),
            Err(text) => {
                println!("seed {seed}: {count} calls on {blocks} blocks: {text}");
                return ExitCode::FAILURE;
            }
        }
        left -= count;
        seed += 1;
    }
    println!("{:8} {:>10} {:>10} {:>8} {:>10}", "call", "answered", "no", "full", "most asks");
    for (word, s) in Op::WORDS.iter().zip(&seen) {
        println!("{word:8} {:>10} {:>10} {:>8} {:>10}", s.done, s.no, s.full, s.most_asks);
    }
    println!("{calls} calls, each answer right, and nothing held in the end");
    ExitCode::SUCCESS
}
