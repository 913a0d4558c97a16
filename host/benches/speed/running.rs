//! Scripts that run, against other languages and against plain Rust.

use pegsienna::slices::{Call, go, go_words, judge, judge_words};

use crate::clock::{Samples, Timed, shown};
use crate::native::{self, Native, Nodes};
use crate::peers::{Peer, check};
use crate::random::Random;
use crate::shapes;
use crate::targets::Targets;

const WAYS: u32 = 4096;
const DEPTH: u32 = 1_000;
const ROOM: u32 = 2_000_000;

/// A script's function 0 with its arguments, and the same in plain Rust.
struct Task {
    label: &'static str,
    name: &'static str,
    script: &'static [u8],
    args: Vec<Vec<u8>>,
    native: Native,
    /// Whether its trees are so large that bringing them in and out has to be told apart.
    carries: bool,
}

fn number(n: usize) -> Vec<u8> {
    let mut bytes = [1, 0].repeat(n);
    bytes.push(0);
    bytes
}

fn numbers(random: &mut Random, count: usize, below: usize) -> Vec<u8> {
    let mut bytes = Vec::new();
    for _ in 0..count {
        bytes.push(1);
        bytes.extend(number(random.below(below)));
    }
    bytes.push(0);
    bytes
}

fn tasks() -> Vec<Task> {
    let ack = include_bytes!("../../../examples/ack.script");
    let sort = include_bytes!("../../../examples/sort.script");
    let random = &mut Random::new(8);
    let task = |label, name, script: &'static [u8], args, native, carries| Task { label, name, script, args, native, carries };
    vec![
        task("ack(2,100)", "ack", ack, vec![number(2), number(100)], native::ack as Native, false),
        task("ack(3,5)", "ack", ack, vec![number(3), number(5)], native::ack, false),
        task("sort,60<40", "sort", sort, vec![numbers(random, 60, 40)], native::sort, false),
        task("sort,100<64", "sort", sort, vec![numbers(random, 100, 64)], native::sort, false),
        task("mirror,2^16", "mirror", include_bytes!("../../../examples/mirror.script"), vec![shapes::random(random, 1 << 16)], native::mirror, true),
        task("reverse,10^6", "reverse", include_bytes!("../../../examples/reverse.script"), vec![number(1_000_000), vec![0]], native::reverse, true),
        task("turn,8x10^4", "turn", include_bytes!("../../../examples/turn_eight.script"), vec![number(10_000); 8], native::turn, true),
    ]
}

/// The time of running alone, and its ratios to plain Rust and to each peer.
struct Ran {
    time: f64,
    to_native: f64,
    to_peers: Vec<f64>,
}

/// Memory for calls, kept.
pub struct Memory {
    work: Vec<u32>,
    out: Vec<u8>,
}

impl Memory {
    pub fn new(args: usize) -> Memory {
        Memory { work: vec![0; go_words(4096, WAYS, args, DEPTH, ROOM)], out: vec![0; 8_000_000] }
    }

    /// Calls function 0: the value's bytes.
    pub fn call(&mut self, script: &[u8], args: &[u8]) -> &[u8] {
        let call = Call { function: 0, args, depth: DEPTH, room: ROOM };
        let written = go(script, WAYS, call, &mut self.out, &mut self.work).expect("a value");
        &self.out[..written.bytes]
    }
}

fn measure(task: &Task, peers: &[Peer]) -> Ran {
    let args: Vec<u8> = task.args.concat();
    let (mut memory, mut brought) = (Memory::new(args.len()), Memory::new(args.len()));
    let mut nodes = Nodes::new(args.len() + ROOM as usize);
    let roots: Vec<u32> = task.args.iter().map(|bytes| nodes.read(bytes)).collect();
    let given = nodes.used();
    // what all of them have to give
    let value = memory.call(task.script, &args).to_vec();
    let root = (task.native)(&mut nodes, &roots);
    assert_eq!(nodes.write(root), value, "{}: plain Rust", task.label);
    for peer in peers {
        peer.load(task.label, task.name, &task.args);
        assert_eq!(peer.run(task.label, 1), check(&value), "{}: {}", task.label, peer.name);
    }
    let mut judging = vec![0; judge_words(task.script.len(), WAYS)];
    // as many arguments, the first of which is the value
    let first = [task.args.len() as u8, 0, 0];
    let mut timed = vec![
        Timed::each(|| memory.call(task.script, &args).len()),
        Timed::each(|| judge(task.script, WAYS, &mut judging)),
        Timed::each(|| brought.call(&first, &args).len()),
        Timed::each(|| {
            nodes.keep(given);
            (task.native)(&mut nodes, &roots)
        }),
    ];
    timed.extend(peers.iter().map(|peer| {
        Timed::new(|turns| {
            peer.run(task.label, turns);
        })
    }));
    let samples = Samples::of(&mut timed);
    let run = |round: &[f64]| round[0] - if task.carries { round[2] } else { round[1] };
    let ratio = |other: usize| samples.median(|round| run(round) / round[other]);
    Ran { time: samples.median(run), to_native: ratio(3), to_peers: (4..4 + peers.len()).map(ratio).collect() }
}

/// Prints the table of ratios, and notes what was aimed at.
pub fn print(peers: &[Peer], targets: &mut Targets) {
    println!("\n## Running\n\nTimes of `go` less judging, as ratios to others' times; for the last three less bringing the trees in and out, too.\n");
    let names: Vec<&str> = peers.iter().map(|p| p.name).collect();
    println!("| script | time | {} | × plain Rust |", names.iter().map(|n| format!("× {n}")).collect::<Vec<_>>().join(" | "));
    println!("|---|---|{}---|", "---|".repeat(peers.len()));
    for task in tasks() {
        let Ran { time, to_native, to_peers } = measure(&task, peers);
        let ratios: Vec<String> = to_peers.iter().map(|ratio| format!("{ratio:.2}")).collect();
        println!("| {} | {} | {} | {to_native:.1} |", task.label, shown(time), ratios.join(" | "));
        let to = |name| names.iter().position(|&n| n == name).map(|i| to_peers[i]);
        if task.name == "ack" || task.name == "sort" {
            targets.at_most(format!("{}, × ocamlrun", task.label), 0.75, to("ocamlrun"));
            targets.at_most(format!("{}, × plain Rust", task.label), 7.0, to_native);
        }
        if task.name == "ack" {
            targets.at_most(format!("{}, × lua", task.label), 0.2, to("lua"));
        }
    }
}
