//! Scripts made from their call graphs.

use std::fmt;
use std::str::FromStr;

use crate::closure::Edge;
use crate::random::Random;

/// What is given to a call as an argument: an argument of the caller or a part of it, or something else.
type Given = Option<(u8, bool)>;

/// Calls of function 0 to itself, each with as many arguments as it takes.
#[derive(Clone)]
pub struct Loops {
    pub args: u8,
    pub calls: Vec<Vec<Given>>,
}

impl Loops {
    pub fn random(random: &mut Random, args: u8, calls: usize) -> Loops {
        let call = |random: &mut Random| (0..args).map(|_| given(random, args)).collect();
        Loops { args, calls: (0..calls).map(|_| call(random)).collect() }
    }

    /// The script: takes its arguments apart as far as parts are given, and then makes nodes of its calls.
    pub fn bytes(&self) -> Vec<u8> {
        let mut bytes = vec![self.args];
        let apart: Vec<u8> = (0..self.args).filter(|&i| self.calls.iter().flatten().any(|&g| g == Some((i, true)))).collect();
        for (opened, i) in apart.iter().enumerate() {
            bytes.extend([3, i + 2 * opened as u8, 1]);
        }
        let opened = apart.len() as u8;
        for (n, call) in self.calls.iter().enumerate() {
            if n + 1 < self.calls.len() {
                bytes.push(2);
            }
            bytes.extend([5, 0, self.args]);
            for given in call {
                match given {
                    Some((i, false)) => bytes.extend([0, i + 2 * opened]),
                    Some((i, true)) => {
                        let place = apart.iter().position(|a| a == i).expect("taken apart") as u8;
                        bytes.extend([0, 2 * (opened - 1 - place)]);
                    }
                    None => bytes.push(1),
                }
            }
        }
        bytes
    }

    pub fn steps(&self) -> Vec<Edge> {
        self.calls.iter().map(|call| edge(call)).collect()
    }

    /// The same with one argument of one call given otherwise.
    pub fn changed(&self, random: &mut Random) -> Loops {
        let mut changed = self.clone();
        let call = random.below(changed.calls.len());
        let place = random.below(self.args as usize);
        changed.calls[call][place] = given(random, self.args);
        changed
    }
}

/// A call a line, an argument a word: its number, with a ' for a part of it, or a dot for something else.
impl fmt::Display for Loops {
    fn fmt(&self, f: &mut fmt::Formatter<'_>) -> fmt::Result {
        for call in &self.calls {
            let words: Vec<String> = call.iter().map(|given| given.map_or(".".to_owned(), |(i, part)| format!("{i}{}", if part { "'" } else { "" }))).collect();
            writeln!(f, "{}", words.join(" "))?;
        }
        Ok(())
    }
}

impl FromStr for Loops {
    type Err = std::num::ParseIntError;

    fn from_str(text: &str) -> Result<Loops, Self::Err> {
        let given = |word: &str| match word {
            "." => Ok(None),
            word => word.trim_end_matches('\'').parse().map(|i| Some((i, word.ends_with('\'')))),
        };
        let calls: Vec<Vec<Given>> = text.lines().map(|line| line.split(' ').map(given).collect()).collect::<Result<_, _>>()?;
        Ok(Loops { args: calls.first().map_or(0, |call| call.len() as u8), calls })
    }
}

fn given(random: &mut Random, args: u8) -> Given {
    let i = random.below(args as usize) as u8;
    match random.below(8) {
        0 => None,
        1 | 2 => Some((i, true)),
        _ => Some((i, false)),
    }
}

fn edge(call: &[Given]) -> Edge {
    let mut edge = Edge { any: 0, part: 0, ends: 0 };
    for (j, given) in call.iter().enumerate() {
        if let Some((i, part)) = *given {
            let arc = 1 << (8 * i as usize + j);
            edge.any |= arc;
            edge.part |= if part { arc } else { 0 };
        }
    }
    edge
}
