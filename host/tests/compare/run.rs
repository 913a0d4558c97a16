//! A second runner: walks the expressions, with trees that are owned together.

use std::rc::Rc;

use crate::program::{Expr, Fun};

#[derive(Clone, Debug)]
pub struct Tree(Option<Rc<(Tree, Tree)>>);

impl Drop for Tree {
    /// Without recursion, since trees may be deep.
    fn drop(&mut self) {
        let Some(both) = self.0.take_if(|both| Rc::strong_count(both) == 1) else { return };
        let mut waiting = vec![both];
        while let Some(both) = waiting.pop() {
            if let Some((mut left, mut right)) = Rc::into_inner(both) {
                waiting.extend(left.0.take());
                waiting.extend(right.0.take());
            }
        }
    }
}

impl Tree {
    pub fn leaf() -> Tree {
        Tree(None)
    }

    pub fn node(left: Tree, right: Tree) -> Tree {
        Tree(Some(Rc::new((left, right))))
    }

    /// As many trees as the bytes are, if they are trees.
    pub fn read(bytes: &[u8]) -> Option<Vec<Tree>> {
        let mut trees = Vec::new();
        for byte in bytes.iter().rev() {
            let tree = match byte {
                0 => Tree::leaf(),
                1 => Tree::node(trees.pop()?, trees.pop()?),
                _ => return None,
            };
            trees.push(tree);
        }
        trees.reverse();
        Some(trees)
    }

    /// Its bytes, if they are at most so many. A tree whose parts are shared may have far more than there are nodes in memory.
    pub fn bytes(&self, most: usize) -> Option<Vec<u8>> {
        let mut bytes = Vec::new();
        let mut waiting = vec![self];
        while let Some(tree) = waiting.pop() {
            if bytes.len() == most {
                return None;
            }
            bytes.push(u8::from(tree.0.is_some()));
            if let Some((left, right)) = tree.0.as_deref() {
                waiting.extend([right, left]);
            }
        }
        Some(bytes)
    }

    /// Every tree of so many nodes.
    pub fn all(nodes: usize) -> Vec<Tree> {
        if nodes == 0 {
            return vec![Tree::leaf()];
        }
        let mut trees = Vec::new();
        for left in 0..nodes {
            for l in Tree::all(left) {
                trees.extend(Tree::all(nodes - 1 - left).into_iter().map(|r| Tree::node(l.clone(), r)));
            }
        }
        trees
    }
}

#[derive(Clone, Copy, Debug, PartialEq, Eq)]
pub enum Bad {
    Full,
    Deep,
    /// It took more steps than a comparison waits for.
    Long,
}

/// A value, the room left, and the most calls that were open inside.
#[derive(Debug)]
pub struct Value {
    pub tree: Tree,
    pub room: u32,
    pub open: u32,
}

#[derive(Clone, Copy, PartialEq, Eq)]
enum Mode {
    Tail,
    Inner,
}

struct Run<'p> {
    program: &'p [Fun],
    /// How many steps it may still take; for the comparison alone.
    steps: u64,
    least_depth: u32,
}

/// Calls a function that is there, with as many trees as it takes.
pub fn call(program: &[Fun], function: usize, args: &[Tree], depth: u32, room: u32, steps: u64) -> Result<Value, Bad> {
    let mut run = Run { program, steps, least_depth: depth };
    let env = args.iter().rev().cloned().collect();
    let (tree, room) = run.eval(Mode::Tail, depth, env, &program[function].body, room)?;
    Ok(Value { tree, room, open: depth - run.least_depth })
}

impl<'p> Run<'p> {
    /// `depth` is how many further calls may be opened; `env` has the newest variable last.
    fn eval(&mut self, mut mode: Mode, mut depth: u32, mut env: Vec<Tree>, mut e: &'p Expr, mut room: u32) -> Result<(Tree, u32), Bad> {
        loop {
            self.steps = self.steps.checked_sub(1).ok_or(Bad::Long)?;
            match e {
                Expr::Var(i) => return Ok((env[env.len() - 1 - i].clone(), room)),
                Expr::Leaf => return Ok((Tree::leaf(), room)),
                Expr::Node(a, b) => {
                    let (left, room) = self.eval(Mode::Inner, depth, env.clone(), a, room)?;
                    let (right, room) = self.eval(Mode::Inner, depth, env, b, room)?;
                    return Ok((Tree::node(left, right), room.checked_sub(1).ok_or(Bad::Full)?));
                }
                Expr::Parts(i, a, b) => match env[env.len() - 1 - i].0.as_deref().cloned() {
                    None => e = a,
                    Some((left, right)) => {
                        env.extend([left, right]);
                        e = b;
                    }
                },
                Expr::Bind(a, b) => {
                    let (value, left) = self.eval(Mode::Inner, depth, env.clone(), a, room)?;
                    env.push(value);
                    room = left;
                    e = b;
                }
                Expr::Call(f, es) => {
                    let mut values = Vec::new();
                    for e in es {
                        let (value, left) = self.eval(Mode::Inner, depth, env.clone(), e, room)?;
                        values.push(value);
                        room = left;
                    }
                    if mode == Mode::Inner {
                        depth = depth.checked_sub(1).ok_or(Bad::Deep)?;
                        self.least_depth = self.least_depth.min(depth);
                        mode = Mode::Tail;
                    }
                    values.reverse();
                    env = values;
                    e = &self.program[*f].body;
                }
            }
        }
    }
}
