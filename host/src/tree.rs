//! Binary trees, owned, and their bytes.

use std::cmp::Ordering;
use std::error::Error;
use std::fmt;
use std::hash::{Hash, Hasher};

/// A binary tree: a leaf, or a node with a left and a right tree.
///
/// A tree may be as deep as memory allows: nothing here recurses, not even dropping one.
///
/// ```
/// use pegsienna::Tree;
///
/// let three = Tree::number(3);
/// let list = Tree::list([Tree::number(1), three.clone()]);
/// assert_eq!(list.to_string(), "[1 3]");
/// assert_eq!("(. (. (. .)))".parse(), Ok(three));
/// assert_eq!(Tree::from_bytes(&[1, 0, 0]), Ok(Tree::number(1)));
/// ```
#[derive(Default)]
pub struct Tree(Option<Box<(Tree, Tree)>>);

/// Why bytes are no tree, or not as many as were asked for.
#[derive(Clone, Copy, Debug, PartialEq, Eq)]
pub struct BadBytes {
    /// Where the fault is found, counted in bytes from 0.
    pub at: usize,
    /// What is wrong there.
    pub why: BadByte,
}

/// What is wrong with a byte of a tree.
#[derive(Clone, Copy, Debug, PartialEq, Eq)]
pub enum BadByte {
    /// A byte other than 0 and 1.
    Unknown(u8),
    /// The bytes end inside a tree.
    Missing,
    /// Bytes are left over after the tree.
    LeftOver,
}

impl Tree {
    /// A leaf, which is also the number 0 and the empty list.
    pub const fn leaf() -> Tree {
        Tree(None)
    }

    /// A node.
    pub fn node(left: Tree, right: Tree) -> Tree {
        Tree(Some(Box::new((left, right))))
    }

    /// A number: as many nodes leaning right, with leaves to the left.
    pub fn number(n: usize) -> Tree {
        (0..n).fold(Tree::leaf(), |before, _| Tree::node(Tree::leaf(), before))
    }

    /// A list: nodes leaning right with the items to the left.
    pub fn list<I>(items: I) -> Tree
    where
        I: IntoIterator<Item = Tree, IntoIter: DoubleEndedIterator>,
    {
        items.into_iter().rev().fold(Tree::leaf(), |rest, item| Tree::node(item, rest))
    }

    /// Whether it is a leaf.
    pub fn is_leaf(&self) -> bool {
        self.0.is_none()
    }

    /// The left and the right part, if it is a node.
    pub fn parts(&self) -> Option<(&Tree, &Tree)> {
        self.0.as_deref().map(|(left, right)| (left, right))
    }

    /// The left and the right part, owned, if it is a node.
    pub fn into_parts(mut self) -> Option<(Tree, Tree)> {
        self.0.take().map(|both| *both)
    }

    /// How many nodes it has.
    pub fn nodes(&self) -> usize {
        self.prefix().filter(|tree| !tree.is_leaf()).count()
    }

    /// The items of the list that it is; every tree is one.
    pub fn items(&self) -> impl Iterator<Item = &Tree> {
        let mut rest = self;
        std::iter::from_fn(move || {
            let (item, next) = rest.parts()?;
            rest = next;
            Some(item)
        })
    }

    /// The number that it is, if it is one.
    pub fn as_number(&self) -> Option<usize> {
        self.items().try_fold(0, |n, item| item.is_leaf().then_some(n + 1))
    }

    /// It and all trees in it: a node before its left tree, and that before the right one.
    pub(crate) fn prefix(&self) -> impl Iterator<Item = &Tree> {
        let mut waiting = vec![self];
        std::iter::from_fn(move || {
            let tree = waiting.pop()?;
            if let Some((left, right)) = tree.parts() {
                waiting.extend([right, left]);
            }
            Some(tree)
        })
    }

    fn heads(&self) -> impl Iterator<Item = u8> {
        self.prefix().map(|tree| u8::from(!tree.is_leaf()))
    }

    /// Its bytes: 0 for a leaf, 1 for a node, followed by the left and the right tree.
    pub fn to_bytes(&self) -> Vec<u8> {
        self.heads().collect()
    }

    /// Appends its bytes.
    pub fn write_bytes(&self, bytes: &mut Vec<u8>) {
        bytes.extend(self.heads());
    }

    /// Reads one tree, which takes all the bytes.
    pub fn from_bytes(bytes: &[u8]) -> Result<Tree, BadBytes> {
        let end = end_of_tree(bytes, 0)?;
        if end < bytes.len() {
            return Err(BadBytes { at: end, why: BadByte::LeftOver });
        }
        Ok(built(bytes).pop().unwrap_or_default())
    }

    /// Reads trees until the bytes end.
    pub fn all_from_bytes(bytes: &[u8]) -> Result<Vec<Tree>, BadBytes> {
        let mut end = 0;
        while end < bytes.len() {
            end = end_of_tree(bytes, end)?;
        }
        let mut trees = built(bytes);
        trees.reverse();
        Ok(trees)
    }
}

/// Where the tree that begins at `start` ends.
fn end_of_tree(bytes: &[u8], start: usize) -> Result<usize, BadBytes> {
    let mut open = 1usize;
    for (at, &byte) in bytes.iter().enumerate().skip(start) {
        match byte {
            0 => open -= 1,
            1 => open += 1,
            _ => return Err(BadBytes { at, why: BadByte::Unknown(byte) }),
        }
        if open == 0 {
            return Ok(at + 1);
        }
    }
    Err(BadBytes { at: bytes.len(), why: BadByte::Missing })
}

/// The trees that the bytes are, the last one first. From the last byte to the first both parts of a node are there when it comes.
fn built(bytes: &[u8]) -> Vec<Tree> {
    let mut trees = Vec::new();
    for &byte in bytes.iter().rev() {
        let tree = if byte == 0 {
            Tree::leaf()
        } else {
            let left = trees.pop().unwrap_or_default();
            Tree::node(left, trees.pop().unwrap_or_default())
        };
        trees.push(tree);
    }
    trees
}

impl Drop for Tree {
    fn drop(&mut self) {
        let mut waiting = Vec::new();
        let mut next = self.0.take();
        while let Some(both) = next {
            let (mut left, mut right) = *both;
            waiting.extend(left.0.take());
            next = right.0.take().or_else(|| waiting.pop());
        }
    }
}

impl Clone for Tree {
    fn clone(&self) -> Tree {
        built(&self.to_bytes()).pop().unwrap_or_default()
    }
}

impl PartialEq for Tree {
    fn eq(&self, other: &Tree) -> bool {
        self.heads().eq(other.heads())
    }
}

impl Eq for Tree {}

impl PartialOrd for Tree {
    fn partial_cmp(&self, other: &Tree) -> Option<Ordering> {
        Some(self.cmp(other))
    }
}

/// By their bytes.
impl Ord for Tree {
    fn cmp(&self, other: &Tree) -> Ordering {
        self.heads().cmp(other.heads())
    }
}

impl Hash for Tree {
    fn hash<H: Hasher>(&self, state: &mut H) {
        for head in self.heads() {
            state.write_u8(head);
        }
    }
}

impl fmt::Debug for Tree {
    fn fmt(&self, f: &mut fmt::Formatter<'_>) -> fmt::Result {
        write!(f, "Tree({self})")
    }
}

impl fmt::Display for BadBytes {
    fn fmt(&self, f: &mut fmt::Formatter<'_>) -> fmt::Result {
        write!(f, "byte {}: ", self.at)?;
        match self.why {
            BadByte::Unknown(byte) => write!(f, "{byte} stands where a tree begins (0 is a leaf, 1 a node)"),
            BadByte::Missing => f.write_str("the bytes end inside a tree"),
            BadByte::LeftOver => f.write_str("bytes are left over after the tree"),
        }
    }
}

impl Error for BadBytes {}

#[cfg(test)]
mod tests {
    use super::*;

    const MANY: usize = 1_000_000;

    fn leaning_left(n: usize) -> Tree {
        (0..n).fold(Tree::leaf(), |before, _| Tree::node(before, Tree::leaf()))
    }

    #[test]
    fn deep_trees_do_not_need_stack() {
        for tree in [Tree::number(MANY), leaning_left(MANY)] {
            assert_eq!(tree.nodes(), MANY);
            let copy = tree.clone();
            assert_eq!(copy, tree);
            assert_ne!(Tree::node(copy.clone(), Tree::leaf()), tree);
            assert_eq!(Tree::from_bytes(&tree.to_bytes()), Ok(copy));
        }
        assert_ne!(Tree::number(MANY), leaning_left(MANY));
    }

    #[test]
    fn bytes_of_small_trees() {
        let tree = Tree::node(Tree::number(1), Tree::leaf());
        assert_eq!(tree.to_bytes(), [1, 1, 0, 0, 0]);
        assert_eq!(Tree::all_from_bytes(&[0, 1, 0, 0, 0]), Ok(vec![Tree::leaf(), Tree::number(1), Tree::leaf()]));
        assert_eq!(Tree::all_from_bytes(&[]), Ok(vec![]));
        assert!(Tree::leaf() < Tree::number(1) && Tree::number(2) < tree);
    }

    #[test]
    fn bad_bytes_say_where() {
        let fault = |at, why| Err(BadBytes { at, why });
        assert_eq!(Tree::from_bytes(&[]), fault(0, BadByte::Missing));
        assert_eq!(Tree::from_bytes(&[1, 0]), fault(2, BadByte::Missing));
        assert_eq!(Tree::from_bytes(&[1, 0, 2]), fault(2, BadByte::Unknown(2)));
        assert_eq!(Tree::from_bytes(&[0, 0]), fault(1, BadByte::LeftOver));
        assert_eq!(Tree::all_from_bytes(&[0, 1, 0]), Err(BadBytes { at: 3, why: BadByte::Missing }));
    }

    #[test]
    fn parts_and_numbers() {
        assert_eq!(Tree::number(7).as_number(), Some(7));
        assert_eq!(Tree::list([Tree::number(1)]).as_number(), None);
        let (left, right) = Tree::node(Tree::number(2), Tree::leaf()).into_parts().unwrap();
        assert_eq!((left.as_number(), right.is_leaf()), (Some(2), true));
        assert_eq!(Tree::list((0..4).map(Tree::number)).items().filter_map(Tree::as_number).collect::<Vec<_>>(), [0, 1, 2, 3]);
    }
}
