//! Trees of several shapes, as bytes.

use crate::random::Random;

/// A tree of so many nodes, each split of them as likely as another.
pub fn random(random: &mut Random, nodes: usize) -> Vec<u8> {
    let (mut bytes, mut to_come) = (Vec::with_capacity(2 * nodes + 1), vec![nodes]);
    while let Some(nodes) = to_come.pop() {
        bytes.push(u8::from(nodes > 0));
        if nodes > 0 {
            let left = random.below(nodes);
            to_come.extend([nodes - 1 - left, left]);
        }
    }
    bytes
}

/// Leaning to the right: a list of leaves, or a number.
pub fn right(nodes: usize) -> Vec<u8> {
    let mut bytes = [1, 0].repeat(nodes);
    bytes.push(0);
    bytes
}

/// Leaning to the left.
pub fn left(nodes: usize) -> Vec<u8> {
    let mut bytes = vec![1; nodes];
    bytes.extend(vec![0; nodes + 1]);
    bytes
}

/// All paths equally long, as far as the nodes go.
pub fn balanced(nodes: usize) -> Vec<u8> {
    let (mut bytes, mut to_come) = (Vec::with_capacity(2 * nodes + 1), vec![nodes]);
    while let Some(nodes) = to_come.pop() {
        bytes.push(u8::from(nodes > 0));
        if nodes > 0 {
            to_come.extend([(nodes - 1) / 2, nodes / 2]);
        }
    }
    bytes
}

/// A list of numbers below some number.
pub fn numbers(random: &mut Random, nodes: usize, below: usize) -> Vec<u8> {
    let (mut bytes, mut left) = (Vec::new(), nodes);
    while left > below {
        let number = random.below(below);
        bytes.push(1);
        bytes.extend(right(number));
        left -= number + 1;
    }
    bytes.push(0);
    bytes
}
