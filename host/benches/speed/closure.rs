//! A plain closure of size-change graphs with hash chains, as a Rust programmer would write it: what judging is compared with.

/// A step or a way: a graph by bits (8 × from + to) between two functions, caller × 64 + callee.
#[derive(Clone, Copy, PartialEq, Eq)]
pub struct Edge {
    pub any: u64,
    pub part: u64,
    pub ends: u32,
}

struct Row {
    edge: Edge,
    link: u32,
}

/// All ways, each once, found by hash chains.
pub struct Ways {
    rows: Vec<Row>,
    heads: Vec<u32>,
}

fn product(x: u64, y: u64) -> u64 {
    let mut all = 0;
    for k in 0..8 {
        all |= ((x >> k) & 0x0101_0101_0101_0101).wrapping_mul((y >> (8 * k)) & 0xff);
    }
    all
}

impl Edge {
    fn caller(self) -> u32 {
        self.ends / 64
    }

    fn callee(self) -> u32 {
        self.ends % 64
    }

    fn then(self, next: Edge) -> Edge {
        let part = product(self.part, next.any) | product(self.any, next.part);
        Edge { any: product(self.any, next.any), part, ends: 64 * self.caller() + next.callee() }
    }

    fn fails(self) -> bool {
        self.caller() == self.callee() && self.then(self) == self && self.part & 0x8040_2010_0804_0201 == 0
    }

    fn chain(self, heads: usize) -> usize {
        let any = self.any.wrapping_mul(0x9E37_79B9_7F4A_7C15);
        let part = self.part.wrapping_mul(0xC2B2_AE3D_27D4_EB4F);
        let ends = u64::from(self.ends).wrapping_mul(0x1656_67B1_9E37_79F9);
        let mixed = any.wrapping_add(part).wrapping_add(ends);
        ((mixed >> 32) * heads as u64 >> 32) as usize
    }
}

/// What closing a call graph found, and what it took.
#[derive(Clone, Copy, Debug, PartialEq, Eq)]
pub struct Closed {
    pub ways: usize,
    /// Ways composed with a step and looked up.
    pub tries: usize,
    /// Rows of chains looked at.
    pub looks: usize,
    pub reason: bool,
}

impl Ways {
    /// Memory for so many ways, to be used again and again.
    pub fn new(most: usize) -> Ways {
        Ways { rows: Vec::with_capacity(most + 1), heads: vec![0; 2 * most + 64] }
    }

    fn add(&mut self, edge: Edge, looks: &mut usize) {
        let chain = edge.chain(self.heads.len());
        let mut at = self.heads[chain];
        while at != 0 {
            let row = &self.rows[at as usize - 1];
            *looks += 1;
            if row.edge == edge {
                return;
            }
            at = row.link;
        }
        self.rows.push(Row { edge, link: self.heads[chain] });
        self.heads[chain] = self.rows.len() as u32;
    }

    /// All ways along these steps, if they are not more than so many.
    pub fn close(&mut self, steps: &[Edge], most: usize) -> Option<Closed> {
        self.rows.clear();
        self.heads.fill(0);
        let (mut tries, mut looks) = (0, 0);
        for &step in steps {
            self.add(step, &mut looks);
            if self.rows.len() > most {
                return None;
            }
        }
        // those that lead alike are kept once
        let mut from = vec![Vec::new(); 64];
        self.rows.iter().for_each(|row| from[row.edge.caller() as usize].push(row.edge));
        let mut k = 0;
        while k < self.rows.len() {
            let way = self.rows[k].edge;
            for &step in &from[way.callee() as usize] {
                tries += 1;
                self.add(way.then(step), &mut looks);
                if self.rows.len() > most {
                    return None;
                }
            }
            k += 1;
        }
        let reason = !self.rows.iter().any(|row| row.edge.fails());
        Some(Closed { ways: self.rows.len(), tries, looks, reason })
    }
}
