//! A small script judged and run once, from a host that is warm.

use pegsienna::slices::{Call, go, go_words};
use pegsienna::{Calls, Limits, Script, Tree, WAYS};

use crate::clock::{Samples, Timed, shown};
use crate::targets::Targets;

pub fn print(targets: &mut Targets) {
    println!(
        "\n## A small script, judged and run once\n\nFrom a host that is warm: `slices::go` in memory that is lent, and `Calls::call` from trees to a tree. `Script::call` starts a thread for the call.\n"
    );
    println!("| script | `slices::go` | `Calls::call` | `Script::call` |\n|---|---|---|---|");
    let ack = include_bytes!("../../../examples/ack.script");
    let sort = include_bytes!("../../../examples/sort.script");
    let list = Tree::list([3, 1, 2].map(Tree::number));
    for (name, bytes, trees) in [("ack(1, 1)", &ack[..], vec![Tree::number(1), Tree::number(1)]), ("sort [3 1 2]", sort, vec![list])] {
        let [go, warm, cold] = measure(bytes, &trees);
        println!("| {name} | {} | {} | {} |", shown(go), shown(warm), shown(cold));
        targets.at_most(format!("{name} by `slices::go`, µs"), 10.0, go / 1e3);
        targets.at_most(format!("{name} by `Calls::call`, µs"), 10.0, warm / 1e3);
    }
}

fn measure(bytes: &[u8], trees: &[Tree]) -> [f64; 3] {
    let limits = Limits::default();
    let mut args = Vec::new();
    trees.iter().for_each(|tree| tree.write_bytes(&mut args));
    let call = Call { function: 0, args: &args, depth: limits.depth, room: limits.room };
    let mut work = vec![0; go_words(bytes.len(), WAYS, args.len(), call.depth, call.room)];
    let mut out = vec![0; 4096];
    let (warm, cold) = (Script::new(bytes), Script::new(bytes));
    let timed = |calls: &mut Calls<'_>| {
        let mut timed =
            [Timed::each(|| go(bytes, WAYS, call, &mut out, &mut work)), Timed::each(|| calls.call(0, trees)), Timed::each(|| cold.call(0, trees, limits))];
        Samples::of(&mut timed).medians().try_into().expect("three times")
    };
    warm.calls(limits, timed).expect("a thread")
}
