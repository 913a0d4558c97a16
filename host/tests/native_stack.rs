//! What calls use of the native stack, measured: never more than the host gives them.
#![cfg(target_os = "linux")]

use std::fs;

use pegsienna::memory::Memory;
use pegsienna::outline::Outline;
use pegsienna::slices::{self, Call};
use pegsienna::{Tree, stack};

/// How many bytes of this thread's stack were ever touched, from the system's map of the memory around a local variable.
fn touched() -> usize {
    let local = 0u8;
    let here = &raw const local as usize;
    let map = fs::read_to_string("/proc/self/smaps").unwrap();
    let mut inside = false;
    for line in map.lines() {
        let range = line.split(' ').next().and_then(|word| word.split_once('-'));
        if let Some((from, to)) = range.and_then(|(from, to)| Some((usize::from_str_radix(from, 16).ok()?, usize::from_str_radix(to, 16).ok()?))) {
            inside = (from..to).contains(&here);
        } else if let Some(size) = line.strip_prefix("Rss:").filter(|_| inside) {
            return 1024 * size.trim().trim_end_matches(" kB").parse::<usize>().unwrap();
        }
    }
    panic!("the stack isn't in the map")
}

struct Use {
    before: usize,
    after: usize,
    given: usize,
    levels: usize,
}

/// Calls function 0 of a script with a number, on a fresh thread with more stack than the host would give it, so that using too much is seen.
fn used(script: &[u8], depth: u32, number: usize, room: u32) -> Use {
    let nesting = Outline::of(script).unwrap().nesting;
    let args = Tree::number(number).to_bytes();
    let call = Call { function: 0, args: &args, depth, room };
    let mut memory = Memory::default();
    let (work, out) = memory.words_and_bytes(slices::go_words(script.len(), 99, args.len(), depth, room), 1 << 24);
    let given = stack::bytes(nesting, depth);
    let (before, after) = stack::with(4 * given, || {
        let before = touched();
        slices::go(script, 99, call, out, work).expect("a value");
        (before, touched())
    })
    .unwrap();
    Use { before, after, given, levels: (depth as usize + 1) * (nesting + 1) }
}

/// So many expressions, each the second of a node, around what is last.
fn within_nodes(count: usize, last: &[u8]) -> Vec<u8> {
    [[2, 1].repeat(count), last.to_vec()].concat()
}

#[test]
fn calls_stay_within_the_stack_they_are_given() {
    // f(right part of x), where x was taken apart
    let again = [5, 0, 1, 0, 0];
    let down = |body: Vec<u8>| [vec![1, 3, 0, 1], body].concat();
    let shapes = [
        ("a call in a node", down(within_nodes(1, &again)), 20_000),
        ("a call that is bound", down([vec![4], again.to_vec(), vec![2, 1, 0, 0]].concat()), 20_000),
        ("a call that is an argument", down([vec![5, 1, 1], again.to_vec(), vec![1, 2, 1, 0, 0]].concat()), 20_000),
        ("a call in parts in a node", down([vec![2, 1, 3, 2, 1], vec![5, 0, 1, 0, 2]].concat()), 20_000),
        ("a call in ten nodes", down(within_nodes(10, &again)), 10_000),
        ("a call in a thousand nodes", down(within_nodes(1000, &again)), 300),
        ("a call in a thousand calls", [vec![1, 3, 0, 1], [5, 1, 1].repeat(1000), again.to_vec(), vec![1, 2, 1, 0, 0]].concat(), 300),
        ("a call in a thousand binds", [vec![1, 3, 0, 1], vec![4; 1000], again.to_vec(), [0, 0].repeat(1000)].concat(), 300),
    ];
    for (shape, script, depth) in shapes {
        // one more may be open in the functions called
        let room = 2_000_000;
        let used = used(&script, depth + 1, depth as usize, room);
        let bytes = used.after - used.before;
        println!(
            "{shape}: {bytes} bytes for a depth of {depth}, {} for each open call and {} for each level; given {}",
            bytes / depth as usize,
            bytes / used.levels,
            used.given
        );
        assert!(used.after <= used.given - stack::BASE_BYTES / 2, "{shape}");
    }
}
