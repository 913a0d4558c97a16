//! Scripts and trees read, trees written, by the byte.

use pegsienna::slices::{Verdict, judge, judge_words};

use crate::clock::{Samples, Timed};
use crate::random::Random;
use crate::running::Memory;
use crate::shapes;
use crate::targets::Targets;

pub fn print(targets: &mut Targets) {
    println!(
        "\n## Reading and writing\n\nNanoseconds a byte. Scripts of 4,096 bytes in which a variable of the last function isn't there, so that reading is all that is done.\n"
    );
    println!("| script | reading |\n|---|---|");
    let mut slowest: f64 = 0.0;
    for (name, bytes) in scripts() {
        let mut work = vec![0; judge_words(bytes.len(), 0)];
        assert_eq!(judge(&bytes, 0, &mut work), Verdict::NoProgram);
        let time = Samples::of(&mut [Timed::each(|| judge(&bytes, 0, &mut work))]).median(|round| round[0]);
        let each = time / bytes.len() as f64;
        println!("| {name} | {each:.2} |");
        slowest = slowest.max(each);
    }
    targets.at_most("reading a script, ns a byte", 3.0, slowest);
    trees(targets);
}

/// Functions of 8 arguments whose bodies are nodes of one kind of expression, as many as fit; then a body with a variable too far.
fn scripts() -> Vec<(&'static str, Vec<u8>)> {
    let random = &mut Random::new(4);
    let call: Vec<u8> = [5, 0, 8].into_iter().chain([0, 1].repeat(8)).collect();
    let small: [&[u8]; 5] = [&[0, 1], &[1], &call, &[3, 2, 1, 0, 0], &[4, 0, 3, 1]];
    let of = |expressions: &[&[u8]], random: &mut Random| {
        let mut bytes = vec![8];
        while bytes.len() + 30 < 4096 {
            bytes.push(2);
            bytes.extend(expressions[random.below(expressions.len())]);
        }
        bytes.push(1);
        while bytes.len() + 2 < 4096 - 3 && bytes.len() < 4000 {
            bytes.extend([0, 1]);
        }
        bytes.extend([0, 0, 0]);
        bytes
    };
    vec![
        ("leaves", of(&small[1..2], random)),
        ("variables", of(&small[..1], random)),
        ("calls of eight", of(&small[2..3], random)),
        ("parts", of(&small[3..4], random)),
        ("all kinds, at random", of(&small, random)),
    ]
}

fn trees(targets: &mut Targets) {
    println!("\n| tree | nodes | reading | writing |\n|---|---|---|---|");
    let random = &mut Random::new(2);
    let (mut read_slowest, mut write_slowest): (f64, f64) = (0.0, 0.0);
    for nodes in [1 << 10, 1 << 16, 1 << 20] {
        let shapes = [
            ("leaning right", shapes::right(nodes)),
            ("leaning left", shapes::left(nodes)),
            ("balanced", shapes::balanced(nodes)),
            ("a list of numbers below 40", shapes::numbers(random, nodes, 40)),
            ("at random", shapes::random(random, nodes)),
        ];
        for (name, bytes) in shapes {
            let (mut reading, mut both) = (Memory::new(bytes.len()), Memory::new(bytes.len()));
            assert_eq!(both.call(&[1, 0, 0], &bytes), bytes);
            let samples = Samples::of(&mut [Timed::each(|| reading.call(&[1, 1], &bytes).len()), Timed::each(|| both.call(&[1, 0, 0], &bytes).len())]);
            let each = |of: fn(&[f64]) -> f64| samples.median(of) / bytes.len() as f64;
            let (read, write) = (each(|round| round[0]), each(|round| round[1] - round[0]));
            println!("| {name} | {nodes} | {read:.2} | {write:.2} |");
            read_slowest = read_slowest.max(read);
            write_slowest = write_slowest.max(write);
        }
    }
    targets.at_most("reading trees, ns a byte", 3.0, read_slowest);
    targets.at_most("writing trees, ns a byte", 3.0, write_slowest);
}
