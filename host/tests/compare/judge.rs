//! A second judge: whole lists of ways, each a set of arcs, followed by every step until nothing new comes.

use std::collections::{BTreeMap, HashSet};

use crate::program::{self, Expr, Fun};

#[derive(Clone, Copy, Debug, PartialEq, Eq, PartialOrd, Ord, Hash)]
pub enum How {
    Same,
    Part,
}

/// From which place to which, and how.
pub type Arcs = BTreeMap<(usize, usize), How>;

#[derive(Clone, Debug, PartialEq, Eq, Hash)]
pub struct Way {
    pub from: usize,
    pub to: usize,
    pub arcs: Arcs,
}

type Known = Option<(usize, How)>;

pub fn steps(program: &[Fun]) -> Vec<Way> {
    let mut found = Vec::new();
    for (f, fun) in program.iter().enumerate() {
        let known: Vec<Known> = (0..fun.args).map(|i| Some((i, How::Same))).collect();
        steps_of(f, &known, &fun.body, &mut found);
    }
    found
}

/// `known` says what each variable in view is, the newest first.
fn steps_of(f: usize, known: &[Known], e: &Expr, found: &mut Vec<Way>) {
    match e {
        Expr::Var(_) | Expr::Leaf => {}
        Expr::Node(a, b) => {
            steps_of(f, known, a, found);
            steps_of(f, known, b, found);
        }
        Expr::Parts(i, a, b) => {
            steps_of(f, known, a, found);
            let part = known[*i].map(|(arg, _)| (arg, How::Part));
            steps_of(f, &[&[part, part], known].concat(), b, found);
        }
        Expr::Bind(a, b) => {
            steps_of(f, known, a, found);
            steps_of(f, &[&[origin(known, a)], known].concat(), b, found);
        }
        Expr::Call(g, es) => {
            let arcs = es.iter().enumerate().filter_map(|(j, e)| origin(known, e).map(|(i, how)| ((i, j), how))).collect();
            found.push(Way { from: f, to: *g, arcs });
            es.iter().for_each(|e| steps_of(f, known, e, found));
        }
    }
}

fn origin(known: &[Known], e: &Expr) -> Known {
    match e {
        Expr::Var(i) => known[*i],
        _ => None,
    }
}

pub fn compose(first: &Arcs, second: &Arcs) -> Arcs {
    let mut arcs = Arcs::new();
    for (&(i, k), &how) in first {
        for (&(l, j), &then) in second {
            if k == l {
                let how = how.max(then);
                arcs.entry((i, j)).and_modify(|h| *h = how.max(*h)).or_insert(how);
            }
        }
    }
    arcs
}

/// All the ways, those that lead alike once; or none if they are more than `most`.
pub fn ways(program: &[Fun], most: usize) -> Option<Vec<Way>> {
    let steps = steps(program);
    let mut list: Vec<Way> = Vec::new();
    let mut seen = HashSet::new();
    for step in &steps {
        if seen.insert(step.clone()) {
            list.push(step.clone());
        }
    }
    let mut next = 0;
    while next < list.len() && list.len() <= most {
        let way = list[next].clone();
        for step in steps.iter().filter(|step| step.from == way.to) {
            let longer = Way { from: way.from, to: step.to, arcs: compose(&way.arcs, &step.arcs) };
            if seen.insert(longer.clone()) {
                list.push(longer);
            }
        }
        next += 1;
    }
    (list.len() <= most).then_some(list)
}

pub fn has_reason(ways: &[Way]) -> bool {
    let mut round = ways.iter().filter(|way| way.from == way.to && compose(&way.arcs, &way.arcs) == way.arcs);
    round.all(|way| way.arcs.iter().any(|(&(i, j), &how)| i == j && how == How::Part))
}

#[derive(Clone, Copy, Debug, PartialEq, Eq)]
pub enum Judged {
    Ends,
    NoReason,
    NoProgram,
    Many,
}

pub fn judge(bytes: &[u8], most: usize) -> Judged {
    let Some(program) = program::read(bytes) else { return Judged::NoProgram };
    match ways(&program, most) {
        None => Judged::Many,
        Some(ways) if has_reason(&ways) => Judged::Ends,
        Some(_) => Judged::NoReason,
    }
}
