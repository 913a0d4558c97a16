//! Trees of a million nodes, a million calls in last place, deep calls, deep nesting, and values that share their parts.

use pegsienna::slices::Stop;
use pegsienna::{Limits, Script, Tree};

const MILLION: usize = 1_000_000;

/// f(x) = x
const IDENTITY: [u8; 3] = [1, 0, 0];
/// f(x): a leaf if x is one, else f(right part of x)
const DOWN: [u8; 9] = [1, 3, 0, 1, 5, 0, 1, 0, 0];
/// f(x, y): y if x is a leaf, else f(right part of x, node(leaf, y))
const LEANING_RIGHT: [u8; 14] = [2, 3, 0, 0, 1, 5, 0, 2, 0, 0, 2, 1, 0, 3];
/// f(x, y): y if x is a leaf, else f(right part of x, node(y, leaf))
const LEANING_LEFT: [u8; 14] = [2, 3, 0, 0, 1, 5, 0, 2, 0, 0, 2, 0, 3, 1];
/// f(x, y): y if x is a leaf, else f(right part of x, node(y, y))
const DOUBLING: [u8; 15] = [2, 3, 0, 0, 1, 5, 0, 2, 0, 0, 2, 0, 3, 0, 3];
/// f(x): a leaf if x is one, else node(leaf, f(right part of x))
const COPY: [u8; 11] = [1, 3, 0, 1, 2, 1, 5, 0, 1, 0, 0];

fn leaning_left(n: usize) -> Tree {
    (0..n).fold(Tree::leaf(), |before, _| Tree::node(before, Tree::leaf()))
}

#[test]
fn trees_of_a_million_nodes() {
    let limits = Limits { depth: 0, room: 0 };
    for tree in [Tree::number(MILLION), leaning_left(MILLION)] {
        let value = Script::new(IDENTITY).call(0, std::slice::from_ref(&tree), limits).unwrap();
        assert!(value.tree == tree);
    }
}

#[test]
fn a_million_calls_in_last_place() {
    let million = Tree::number(MILLION);
    let limits = |room| Limits { depth: 0, room };
    assert!(Script::new(DOWN).call(0, std::slice::from_ref(&million), limits(0)).unwrap().tree.is_leaf());
    let args = [million, Tree::leaf()];
    let left = Script::new(LEANING_LEFT);
    assert!(left.call(0, &args, limits(MILLION as u32)).unwrap().tree == leaning_left(MILLION));
    assert_eq!(left.call(0, &args, limits(MILLION as u32 - 1)), Err(Stop::Full));
    assert!(Script::new(LEANING_RIGHT).call(0, &args, limits(MILLION as u32)).unwrap().tree == args[0]);
}

#[test]
fn deep_calls() {
    let copy = Script::new(COPY);
    for depth in [1u32, 10, 1000, 20_000] {
        let tree = Tree::number(depth as usize);
        let limits = |depth| Limits { depth, room: depth + 9 };
        assert!(copy.call(0, std::slice::from_ref(&tree), limits(depth)).unwrap().tree == tree);
        assert_eq!(copy.call(0, &[tree], limits(depth - 1)), Err(Stop::Deep));
    }
}

#[test]
fn a_depth_that_cannot_be_had_is_refused() {
    let stop = Script::new(COPY).call(0, &[Tree::leaf()], Limits { depth: u32::MAX, room: 0 }).unwrap_err();
    assert!(matches!(stop, Stop::NoStack { .. } | Stop::Small), "{stop:?}");
}

/// A script of 4,096 bytes whose one expression stands in 2,047 others, to the left or to the right.
fn nested(left: bool) -> Vec<u8> {
    let nodes = 2047;
    if left { [vec![0], vec![2; nodes], vec![1; nodes + 1]].concat() } else { [vec![0], [2, 1].repeat(nodes), vec![1]].concat() }
}

#[test]
fn deep_nesting() {
    for (left, tree) in [(true, leaning_left(2047)), (false, Tree::number(2047))] {
        let script = Script::new(nested(left));
        assert!(script.call(0, &[], Limits { depth: 0, room: 2047 }).unwrap().tree == tree);
        assert_eq!(script.call(0, &[], Limits { depth: 0, room: 2046 }), Err(Stop::Full));
    }
}

/// Deep calls out of deep nesting: f(x): a leaf if x is one, else 1,000 nodes around f(right part of x).
#[test]
fn deep_calls_out_of_deep_nesting() {
    let nodes = 1000;
    let script = Script::new([vec![1, 3, 0, 1], [2, 1].repeat(nodes), vec![5, 0, 1, 0, 0]].concat());
    for depth in [1u32, 30, 300] {
        let limits = Limits { depth, room: 1_000_000 };
        let value = script.call(0, &[Tree::number(depth as usize)], limits).unwrap();
        assert!(value.tree == Tree::number(nodes * depth as usize));
        assert_eq!(value.room, 1_000_000 - (nodes as u32) * depth);
    }
}

#[test]
fn values_that_share_their_parts() {
    let doubling = Script::new(DOUBLING);
    let call = |n| doubling.call(0, &[Tree::number(n), Tree::leaf()], Limits { depth: 0, room: 100 });
    let value = call(15).unwrap();
    assert_eq!((value.tree.nodes(), value.room), ((1 << 15) - 1, 85));
    assert_eq!(call(100), Err(Stop::OutFull));
}
