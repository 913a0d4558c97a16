//! Worked scripts, and reasonings that failed: what is known of each, by hand.

use pegsienna::slices::{Call, Stop, Verdict};
use pegsienna::{Limits, Listing, Script, Tree};

use crate::machine::{Machine, with_stack};
use crate::{judge, program, second};

macro_rules! example {
    ($name:literal) => {
        include_bytes!(concat!("../../../examples/", $name, ".script")).as_slice()
    };
}

use Verdict::{Ends, NoReason};

/// A script, its verdict and its number of ways.
const WORKED: &[(&[u8], Verdict, u32)] = &[
    (example!("ack"), Ends, 2),
    (example!("swap_shrink"), Ends, 3),
    (example!("swap"), NoReason, 2),
    (example!("in_turn"), Ends, 5),
    (example!("in_turn_grow"), NoReason, 5),
    (example!("forever"), NoReason, 1),
    (example!("once"), Ends, 1),
    (example!("bound"), Ends, 1),
    (example!("turn_three"), Ends, 5),
    (example!("sort"), Ends, 7),
    // no functions
    (&[], Ends, 0),
    // the sum of the arguments gets smaller, no argument does: f(x, y): if x is a leaf, leaf, else f(node(y, leaf), left of left of x)
    (&[2, 3, 0, 1, 3, 1, 1, 5, 0, 2, 2, 0, 5, 1, 0, 1], NoReason, 2),
    // a part of a bound value that isn't known: f(x) = bind node(x, x) in parts of it: leaf, else f(its right part)
    (&[1, 4, 2, 0, 0, 0, 0, 3, 0, 1, 5, 0, 1, 0, 0], NoReason, 1),
    // three arguments that change places
    (&[3, 3, 0, 1, 5, 0, 3, 0, 3, 0, 4, 0, 2], NoReason, 3),
    // one way makes an argument smaller, a second makes it larger again: f(x): g(right of x); g(x): f(node(leaf, x))
    (&[1, 3, 0, 1, 5, 1, 1, 0, 0, 1, 5, 0, 1, 2, 1, 0, 0], NoReason, 5),
    // compared with the wrong one of two functions' arguments: f(x, y): g(y, right of x); g(x, y): f(node(x, x), y)
    (&[2, 3, 0, 1, 5, 1, 2, 0, 3, 0, 0, 2, 5, 0, 2, 2, 0, 0, 0, 0, 0, 1], NoReason, 9),
    // a call that can't be reached still counts: f(x) = bind leaf in parts of it: leaf, else f(x)
    (&[1, 4, 1, 3, 0, 1, 5, 0, 1, 0, 3], NoReason, 1),
];

#[test]
fn worked_scripts_and_traps() {
    with_stack(|| {
        let mut machine = Machine::default();
        for &(script, verdict, ways) in WORKED {
            let program = program::read(script).expect("a program");
            let listing = Listing::of(script).unwrap();
            let second = judge::ways(&program, 4096).unwrap().len() as u32;
            assert_eq!(machine.judge(script, 4096), verdict, "{listing}");
            assert_eq!(second::judge(script, 4096), verdict, "{listing}");
            assert_eq!((machine.number_of_ways(script, 4096), second), (Some(ways), ways), "{listing}");
        }
    });
}

#[test]
fn ackermann_as_proved() {
    let ack = Script::new(example!("ack"));
    let call = |m, n, depth, room| ack.call(0, &[Tree::number(m), Tree::number(n)], Limits { depth, room }).map(|value| (value.tree.as_number(), value.room));
    assert_eq!(call(0, 0, 0, 1), Ok((Some(1), 0)));
    assert_eq!(call(0, 0, 0, 0), Err(Stop::Full));
    assert_eq!(call(1, 0, 0, 2), Ok((Some(2), 0)));
    assert_eq!(call(1, 1, 0, 9), Err(Stop::Deep));
    assert_eq!(call(1, 1, 1, 3), Ok((Some(3), 0)));
    assert_eq!(call(2, 3, 100, 1000).unwrap().0, Some(9));
    assert_eq!(call(3, 3, 100, 10_000).unwrap().0, Some(61));
}

#[test]
fn sorting() {
    let sort = Script::new(example!("sort"));
    for (given, sorted) in [("[]", "."), ("[0 0]", "2"), ("[3 1 2 0 5 1]", "[0 1 1 2 3 5]"), ("[9 8 7 6 5 4 3 2 1]", "[1 2 3 4 5 6 7 8 9]")] {
        let value = sort.call(0, &[given.parse().unwrap()], Limits::default()).unwrap();
        assert_eq!(value.tree.to_string(), sorted);
    }
}

#[test]
fn bad_calls_and_unproved_scripts() {
    let limits = Limits { depth: 1, room: 1 };
    let once = Script::new(example!("once"));
    assert_eq!(once.call(1, &[], limits).unwrap().tree, Tree::leaf());
    assert_eq!(once.call(2, &[], limits), Err(Stop::BadCall));
    assert_eq!(once.call(usize::MAX, &[], limits), Err(Stop::BadCall));
    assert_eq!(once.call(0, &[Tree::leaf()], limits), Err(Stop::BadCall));
    assert_eq!(once.clone().with_ways(0).call(0, &[], limits), Err(Stop::Unproved));
    assert_eq!(Script::new(example!("swap")).call(7, &[], limits), Err(Stop::Unproved));
    assert_eq!(Script::new([9]).call(0, &[], limits), Err(Stop::Unproved));
    assert_eq!(Script::new([]).call(0, &[], limits), Err(Stop::BadCall));
    let mut machine = Machine::default();
    let identity = [1, 0, 0];
    for (args, answer) in
        [(&[0][..], Ok((vec![0], 0))), (&[], Err(Stop::BadCall)), (&[0, 0], Err(Stop::BadCall)), (&[1, 0], Err(Stop::BadCall)), (&[2], Err(Stop::BadCall))]
    {
        assert_eq!(machine.go(&identity, 0, Call { function: 0, args, depth: 0, room: 0 }, 1), answer);
    }
}

/// A program has at most 4,096 bytes, 64 functions and 8 arguments each.
#[test]
fn the_limits_of_a_program() {
    with_stack(|| {
        let mut machine = Machine::default();
        let nodes = |args: u8, count: usize| [vec![args], vec![2; count], vec![1; count + 1]].concat();
        let padded = |bytes: &[u8]| [bytes, &[0, 1]].concat();
        for (script, verdict) in [
            (nodes(0, 2047), Ends),
            (padded(&nodes(0, 2046)), Ends),
            (padded(&nodes(0, 2047)), Verdict::NoProgram),
            ([0, 0x4].iter().copied().chain([1; 4096]).collect(), Verdict::NoProgram),
            ([0, 1].repeat(64), Ends),
            ([0, 1].repeat(65), Verdict::NoProgram),
            (vec![8, 0, 7], Ends),
            (vec![8, 0, 8], Verdict::NoProgram),
            (vec![9, 0, 7], Verdict::NoProgram),
            (vec![1, 3, 0, 0, 0, 0, 2], Ends),
            (vec![1, 3, 0, 0, 0, 0, 3], Verdict::NoProgram),
            (vec![1, 3, 0, 0, 1, 0, 2], Verdict::NoProgram),
            (vec![1, 4, 0, 1, 1], Verdict::NoProgram),
            (vec![1, 4, 1, 0, 1], Ends),
            (vec![0, 5, 63, 0], Verdict::NoProgram),
            (vec![0, 5, 0, 1, 1], Verdict::NoProgram),
        ] {
            assert_eq!(machine.judge(&script, 4096), verdict, "{script:?}");
            assert_eq!(second::judge(&script, 4096), verdict, "{script:?}");
        }
    });
}

/// With neither depth nor room, what comes first decides: a call inside is deep, a node is full.
#[test]
fn from_left_to_right() {
    let (call, node) = (&[5, 1, 0][..], &[2, 1, 1][..]);
    let leaf: &[u8] = &[1];
    let (one, two): (&[u8], &[u8]) = (&[0, 1], &[2, 1]);
    for (parts, stop) in [
        (&[&[0, 2], call, node][..], Stop::Deep),
        (&[&[0, 2], node, call], Stop::Full),
        (&[&[0, 4], call, node], Stop::Deep),
        (&[&[0, 4], node, call], Stop::Full),
        (&[&[0, 5, 2, 2], call, node], Stop::Deep),
        (&[&[0, 5, 2, 2], node, call], Stop::Full),
        // a node's own room is taken last, and a call opens last
        (&[&[0, 2], call, leaf], Stop::Deep),
        (&[&[0, 2], leaf, &[5, 2, 2], node, leaf], Stop::Full),
    ] {
        let script = [parts.concat().as_slice(), one, two].concat();
        assert_eq!(Script::new(script).call(0, &[], Limits { depth: 0, room: 0 }), Err(stop), "{parts:?}");
    }
}
