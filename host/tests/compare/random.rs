//! Programs and bytes made at random, the same for the same seed.

use std::ops::Range;

use crate::program::{Expr, Fun, Program};

/// The generator splitmix64.
pub struct Random(u64);

impl Random {
    pub fn new(seed: u64) -> Random {
        Random(seed)
    }

    pub fn word(&mut self) -> u64 {
        self.0 = self.0.wrapping_add(0x9e37_79b9_7f4a_7c15);
        let z = (self.0 ^ (self.0 >> 30)).wrapping_mul(0xbf58_476d_1ce4_e5b9);
        let z = (z ^ (z >> 27)).wrapping_mul(0x94d0_49bb_1331_11eb);
        z ^ (z >> 31)
    }

    pub fn below(&mut self, n: usize) -> usize {
        (self.word() % n as u64) as usize
    }

    /// True in so many of a hundred cases.
    pub fn percent(&mut self, n: usize) -> bool {
        self.below(100) < n
    }

    pub fn pick<T: Copy>(&mut self, from: &[T]) -> T {
        from[self.below(from.len())]
    }
}

/// A program whose calls often pass an argument on in its place, or a part of it, so that many have the reason.
pub fn program(random: &mut Random) -> Program {
    let count = 1 + random.pick(&[0, 0, 0, 1, 1, 1, 2, 2, 3, 5]);
    let size = random.pick(&[4, 8, 12, 20]);
    program_of(random, count, size, count)
}

/// A program of so many functions, each with so many larger expressions, that call those at most so far away.
pub fn program_of(random: &mut Random, count: usize, size: usize, reach: usize) -> Program {
    let arities: Vec<usize> = (0..count).map(|_| random.pick(&[0, 1, 1, 1, 2, 2, 2, 2, 3, 3, 4, 8])).collect();
    let shuffle = random.pick(&[0, 0, 10, 40]);
    let turn = random.pick(&[0, 0, 1]);
    let mut program = Vec::new();
    for (own, &args) in arities.iter().enumerate() {
        let near = own.saturating_sub(reach)..(own + reach + 1).min(count);
        let mut maker = Maker { random, arities: &arities, near, left: size, shuffle, turn };
        let view = (0..args).map(|i| Some((i, false))).collect();
        program.push(Fun { args, body: maker.last(view) });
    }
    program
}

/// What is known of a variable: the argument, and whether it is a part of it.
type Known = Option<(usize, bool)>;

struct Maker<'a> {
    random: &'a mut Random,
    arities: &'a [usize],
    /// The functions that may be called.
    near: Range<usize>,
    /// How many larger expressions may still be made.
    left: usize,
    /// In how many of a hundred cases a call's argument is any variable.
    shuffle: usize,
    /// By how many places arguments move in most calls.
    turn: usize,
}

impl Maker<'_> {
    fn spend(&mut self) -> bool {
        let some = self.left > 0;
        self.left = self.left.saturating_sub(1);
        some
    }

    /// An expression in last place; `view` has the newest variable first.
    fn last(&mut self, view: Vec<Known>) -> Expr {
        if !self.spend() {
            return self.small(&view);
        }
        match self.random.below(100) {
            0..45 if !view.is_empty() => self.parts(&view),
            45..55 => self.bind(&view),
            55..85 => self.call(&view),
            _ => self.inside(&view),
        }
    }

    fn parts(&mut self, view: &[Known]) -> Expr {
        let i = self.random.below(view.len());
        let a = if self.random.percent(70) { self.small(view) } else { self.last(view.to_vec()) };
        let part = view[i].map(|(arg, _)| (arg, true));
        Expr::Parts(i, a.into(), self.last([&[part, part], view].concat()).into())
    }

    fn bind(&mut self, view: &[Known]) -> Expr {
        let a = self.inside(view);
        let known = if let Expr::Var(i) = a { view[i] } else { None };
        Expr::Bind(a.into(), self.last([&[known], view].concat()).into())
    }

    fn call(&mut self, view: &[Known]) -> Expr {
        let f = self.near.start + self.random.below(self.near.len());
        let arity = self.arities[f];
        let turn = if self.random.percent(80) { self.turn } else { 0 };
        let args = (0..arity).map(|j| self.argument(view, (j + turn) % arity)).collect();
        Expr::Call(f, args)
    }

    /// An argument of a call: mostly what comes from the caller's argument j.
    fn argument(&mut self, view: &[Known], j: usize) -> Expr {
        let shuffle = self.shuffle;
        if self.random.percent(shuffle) && !view.is_empty() {
            return Expr::Var(self.random.below(view.len()));
        }
        let from = |part| (0..view.len()).filter(|&i| view[i] == Some((j, part))).collect::<Vec<_>>();
        let (same, parts) = (from(false), from(true));
        match self.random.below(10) {
            0..6 if !parts.is_empty() => Expr::Var(self.random.pick(&parts)),
            0..8 if !same.is_empty() => Expr::Var(self.random.pick(&same)),
            _ => self.inside(view),
        }
    }

    /// An expression that need not be last.
    fn inside(&mut self, view: &[Known]) -> Expr {
        if !self.spend() {
            return self.small(view);
        }
        match self.random.below(100) {
            0..25 => Expr::Node(self.inside(view).into(), self.inside(view).into()),
            25..45 => self.call(view),
            45..55 if !view.is_empty() => self.parts(view),
            55..60 => self.bind(view),
            _ => self.small(view),
        }
    }

    fn small(&mut self, view: &[Known]) -> Expr {
        match self.random.below(10) {
            0..7 if !view.is_empty() => Expr::Var(self.random.below(view.len())),
            7 => Expr::Node(Expr::Leaf.into(), Expr::Leaf.into()),
            _ => Expr::Leaf,
        }
    }
}

/// Bytes of which one is a little more or less: often another program.
pub fn nudged(random: &mut Random, bytes: &[u8]) -> Vec<u8> {
    let mut bytes = bytes.to_vec();
    let at = random.below(bytes.len());
    bytes[at] = if random.percent(50) { bytes[at].wrapping_add(1) } else { bytes[at].wrapping_sub(1) };
    bytes
}

/// Bytes changed in one to three places.
pub fn damaged(random: &mut Random, bytes: &[u8]) -> Vec<u8> {
    let mut bytes = bytes.to_vec();
    for _ in 0..1 + random.below(3) {
        let at = random.below(bytes.len() + 1);
        let byte = if random.percent(90) { random.below(9) as u8 } else { random.word() as u8 };
        match random.below(4) {
            0 => bytes.insert(at, byte),
            1 => bytes.truncate(at),
            _ if at == bytes.len() => bytes.push(byte),
            2 => drop(bytes.remove(at)),
            _ => bytes[at] = byte,
        }
    }
    bytes
}

/// Bytes of which many begin an expression.
pub fn bytes(random: &mut Random) -> Vec<u8> {
    let len = if random.percent(95) { random.below(40) } else { random.below(4200) };
    let kinds = random.pick(&[2, 6, 9, 256]);
    (0..len).map(|_| random.below(kinds) as u8).collect()
}
