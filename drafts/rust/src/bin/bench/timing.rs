//! Times a kind of call: a script with the calls, less the same script without them.
use crate::clock;
use crate::kinds::{Kind, Shape, setup};
use crate::report::Line;
use crate::standard::Standard;
use playback::random::Rng;
use playback::{Answer, Call, Op, Playback};
use std::time::Duration;

/// How often each script is played; the shortest time counts.
fn plays(shape: Shape) -> usize {
    if shape.items() > 200_000 { 5 } else { 15 }
}

/// A kind of call, how often it was done, and how long the script took with it.
struct Timed {
    kind: Kind,
    count: usize,
    with: Duration,
    asks: u64,
    standard: f64,
}

impl Timed {
    fn line(self, size: u64, without: Duration) -> Line {
        Line {
            kind: self.kind,
            size,
            nanos: self.with.saturating_sub(without).as_nanos() as f64 / self.count as f64,
            asks: self.asks as f64 / self.count as f64,
            standard: (self.kind != Kind::Away).then_some(self.standard),
        }
    }
}

pub struct Bench {
    shape: Shape,
    of_tables: bool,
    playback: Playback,
    script: Vec<Call>,
    setup: usize,
    without: Duration,
}

fn calls(ops: &[Op]) -> Vec<Call> {
    ops.iter().map(|o| Call::new(*o)).collect()
}

impl Bench {
    /// Memory is touched, and the setup played, before anything is timed.
    pub fn new(shape: Shape, of_tables: bool) -> Bench {
        let script = calls(&setup(shape, of_tables, &mut Rng::new(1)));
        let mut playback = Playback::new(shape.blocks(of_tables));
        let room = script.len() + shape.items().max(200_000) as usize;
        playback.make_room(room);
        let setup = script.len();
        let mut bench = Bench { shape, of_tables, playback, script, setup, without: Duration::MAX };
        bench.play(setup);
        bench
    }

    /// The first `calls` calls of the script.
    fn play(&mut self, calls: usize) -> Duration {
        let start = clock::now();
        let played = self.playback.play(&self.script[..calls]).expect("a script");
        let took = clock::now() - start;
        assert!(played.over && played.len() == calls);
        took
    }

    /// What is measured of these; the shortest time without the calls is of all plays.
    pub fn lines(&mut self, kinds: &[Kind]) -> Vec<Line> {
        let timed: Vec<Timed> = kinds.iter().map(|k| self.timed(*k)).collect();
        let without = self.without;
        timed.into_iter().map(|t| t.line(self.shape.size, without)).collect()
    }

    fn timed(&mut self, kind: Kind) -> Timed {
        let batch = kind.batch(self.shape, &mut Rng::new(2));
        self.script.extend(calls(&batch));
        let mut with = Duration::MAX;
        for _ in 0..plays(self.shape) {
            with = with.min(self.play(self.script.len()));
            self.without = self.without.min(self.play(self.setup));
        }
        let asks = self.asks();
        self.script.truncate(self.setup);
        let standard = Standard::new(self.shape, self.of_tables).nanos(&batch, kind.unit());
        Timed { kind, count: batch.len() / kind.unit(), with, asks, standard }
    }

    /// How often the calls that were timed asked; none was refused.
    fn asks(&mut self) -> u64 {
        let end = self.script.len();
        let played = self.playback.play(&self.script).expect("a script");
        assert!((self.setup..end).all(|j| played.told(j).answer != Answer::Full));
        played.asks(self.setup..end)
    }
}
