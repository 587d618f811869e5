//! The rules once more, over `Vec` and `BTreeMap`.
use crate::Told;
use crate::calls::{Answer, NAMES, Op};
use std::collections::BTreeMap;

/// What is under a name.
#[derive(Clone, Debug, Default)]
pub enum Thing {
    #[default]
    Nothing,
    Row(Vec<u64>),
    Table(BTreeMap<u64, u64>),
}

/// Things under all names, how many words and pairs there are, and how many blocks may be held for them.
#[derive(Clone)]
pub struct Model {
    things: Vec<Thing>,
    items: u64,
    weight: u64,
}

impl Thing {
    pub fn len(&self) -> u64 {
        match self {
            Thing::Nothing => 0,
            Thing::Row(xs) => xs.len() as u64,
            Thing::Table(ps) => ps.len() as u64,
        }
    }

    pub fn is_empty(&self) -> bool {
        self.len() == 0
    }

    fn weight(&self) -> u64 {
        match self {
            Thing::Nothing => 0,
            Thing::Row(_) => 2 + self.len() / 24,
            Thing::Table(_) => 2 + self.len() / 12,
        }
    }
}

/// An answer, or a number by which a call is turned away.
pub type Outcome = Result<Answer, u32>;

impl Default for Model {
    /// Nothing under any name.
    fn default() -> Model {
        Model { things: vec![Thing::Nothing; NAMES], items: 0, weight: 0 }
    }
}

impl Model {
    /// What is under a name; nothing under what is none.
    pub fn thing(&self, n: u32) -> &Thing {
        self.things.get(n as usize).unwrap_or(&Thing::Nothing)
    }

    /// How many words and pairs there are.
    pub fn items(&self) -> u64 {
        self.items
    }

    /// So many blocks may be held.
    pub fn may_hold(&self) -> u64 {
        8 + self.weight
    }

    /// What was told is held to the rules, and done.
    pub fn check(&mut self, op: Op, told: Told, held_before: u64) -> Result<(), String> {
        let expected = self.expected(op);
        let right = match (told.answer, expected) {
            (Answer::Full, Ok(_)) => op.may_fill() && told.refused,
            (answer, Ok(a)) => answer == a,
            (answer, Err(k)) => answer == Answer::No(k),
        };
        if !right {
            return Err(format!("{op:?}: told {:?} (refused {}), expected {expected:?}", told.answer, told.refused));
        }
        if expected.is_ok() && told.answer != Answer::Full {
            self.apply(op);
        }
        if told.held > self.may_hold() {
            return Err(format!("{op:?}: {} blocks are held, {} may be", told.held, self.may_hold()));
        }
        let most = 16384 + if let Op::Free(_) = op { 128 * held_before } else { 0 };
        if told.asks > most {
            return Err(format!("{op:?}: {} askings, {most} may be", told.asks));
        }
        Ok(())
    }

    fn at(&self, n: u32) -> Result<&Thing, u32> {
        match self.things.get(n as usize) {
            None => Err(1),
            Some(Thing::Nothing) => Err(3),
            Some(t) => Ok(t),
        }
    }

    fn row(&self, n: u32) -> Result<&Vec<u64>, u32> {
        match self.at(n)? {
            Thing::Row(xs) => Ok(xs),
            _ => Err(4),
        }
    }

    fn table(&self, n: u32) -> Result<&BTreeMap<u64, u64>, u32> {
        match self.at(n)? {
            Thing::Table(ps) => Ok(ps),
            _ => Err(4),
        }
    }

    fn vacant(&self, n: u32) -> Result<(), u32> {
        match self.things.get(n as usize) {
            None => Err(1),
            Some(Thing::Nothing) => Ok(()),
            Some(_) => Err(2),
        }
    }

    /// What a call is to be answered where no block is wanting, or by which number it is turned away.
    pub fn expected(&self, op: Op) -> Outcome {
        match op {
            Op::Row(n) | Op::Table(n) => self.vacant(n).map(|_| Answer::Done),
            Op::Free(n) => self.at(n).map(|_| Answer::Done),
            Op::Length(n) => self.at(n).map(|t| Answer::Word(t.len())),
            Op::At(n, i) | Op::Delete(n, i) => word_at(self.row(n)?, i).map(Answer::Word),
            Op::Set(n, i, _) => word_at(self.row(n)?, i).map(|_| Answer::Done),
            Op::Insert(n, i, _) => place(self.row(n)?, i),
            Op::Split(n, i, m) => {
                let xs = self.row(n)?;
                self.vacant(m)?;
                place(xs, i)
            }
            Op::Join(n, m) => {
                self.row(n)?;
                self.row(m)?;
                if n == m { Err(2) } else { Ok(Answer::Done) }
            }
            Op::Put(n, _, _) => self.table(n).map(|_| Answer::Done),
            Op::Get(n, k) | Op::Drop(n, k) => self.table(n)?.get(&k).map(|x| Answer::Word(*x)).ok_or(7),
            Op::Least(n, k) => pair(self.table(n)?.range(k..).next()),
            Op::Count(n, k) => Ok(Answer::Word(self.table(n)?.range(..k).count() as u64)),
            Op::Nth(n, i) => {
                let ps = self.table(n)?;
                if i >= ps.len() as u64 { Err(7) } else { pair(ps.iter().nth(i as usize)) }
            }
            Op::Cut(n, _, m) => {
                self.table(n)?;
                self.vacant(m).map(|_| Answer::Done)
            }
            Op::Merge(n, m) => {
                let ps = self.table(n)?;
                let qs = self.table(m)?;
                let apart = match (ps.last_key_value(), qs.first_key_value()) {
                    (Some((p, _)), Some((q, _))) => p < q,
                    _ => true,
                };
                if n == m {
                    Err(2)
                } else if !apart {
                    Err(6)
                } else {
                    Ok(Answer::Done)
                }
            }
        }
    }

    fn take(&mut self, n: u32) -> Thing {
        let t = std::mem::take(&mut self.things[n as usize]);
        self.weight -= t.weight();
        self.items -= t.len();
        t
    }

    fn lay(&mut self, n: u32, t: Thing) {
        self.weight += t.weight();
        self.items += t.len();
        self.things[n as usize] = t;
    }

    /// Does a call that is not turned away.
    pub fn apply(&mut self, op: Op) {
        match op {
            Op::Row(n) => self.lay(n, Thing::Row(Vec::new())),
            Op::Table(n) => self.lay(n, Thing::Table(BTreeMap::new())),
            Op::Free(n) => drop(self.take(n)),
            Op::Set(n, ..) | Op::Insert(n, ..) | Op::Delete(n, ..) | Op::Put(n, ..) | Op::Drop(n, ..) => {
                let mut t = self.take(n);
                change(&mut t, op);
                self.lay(n, t);
            }
            Op::Split(n, _, m) | Op::Cut(n, _, m) => {
                let mut t = self.take(n);
                let rest = part(&mut t, op);
                self.lay(n, t);
                self.lay(m, rest);
            }
            Op::Join(n, m) | Op::Merge(n, m) => {
                let (a, b) = (self.take(n), self.take(m));
                self.lay(n, together(a, b));
            }
            _ => {}
        }
    }
}

fn word_at(xs: &[u64], i: u64) -> Result<u64, u32> {
    if i < xs.len() as u64 { Ok(xs[i as usize]) } else { Err(5) }
}

fn place(xs: &[u64], i: u64) -> Outcome {
    if i <= xs.len() as u64 { Ok(Answer::Done) } else { Err(5) }
}

fn pair(p: Option<(&u64, &u64)>) -> Outcome {
    p.map(|(k, x)| Answer::Pair(*k, *x)).ok_or(7)
}

fn change(t: &mut Thing, op: Op) {
    match (t, op) {
        (Thing::Row(xs), Op::Set(_, i, x)) => xs[i as usize] = x,
        (Thing::Row(xs), Op::Insert(_, i, x)) => xs.insert(i as usize, x),
        (Thing::Row(xs), Op::Delete(_, i)) => drop(xs.remove(i as usize)),
        (Thing::Table(ps), Op::Put(_, k, x)) => drop(ps.insert(k, x)),
        (Thing::Table(ps), Op::Drop(_, k)) => drop(ps.remove(&k)),
        (t, op) => panic!("{op:?} on {t:?}"),
    }
}

fn part(t: &mut Thing, op: Op) -> Thing {
    match (t, op) {
        (Thing::Row(xs), Op::Split(_, i, _)) => Thing::Row(xs.split_off(i as usize)),
        (Thing::Table(ps), Op::Cut(_, k, _)) => Thing::Table(ps.split_off(&k)),
        (t, op) => panic!("{op:?} on {t:?}"),
    }
}

fn together(a: Thing, b: Thing) -> Thing {
    match (a, b) {
        (Thing::Row(mut xs), Thing::Row(mut ys)) => {
            xs.append(&mut ys);
            Thing::Row(xs)
        }
        (Thing::Table(mut ps), Thing::Table(mut qs)) => {
            ps.append(&mut qs);
            Thing::Table(ps)
        }
        (a, b) => panic!("{a:?} and {b:?}"),
    }
}
