//! Judging against the number of ways, and against a plain closure.

use pegsienna::slices::{Verdict, judge, judge_words};

use crate::clock::{Samples, Timed, shown};
use crate::closure::{Closed, Ways};
use crate::graphs::Loops;
use crate::random::Random;
use crate::targets::Targets;

/// The most ways of the family.
const MOST: usize = 1 << 17;

/// For each power of two from 2^4 to 2^16 a script of three calls with as many ways or somewhat fewer.
fn family(ways: &mut Ways) -> Vec<(Loops, Closed)> {
    let random = &mut Random::new(16);
    (4..=16).map(|power| of_about(random, ways, 1 << power)).collect()
}

fn of_about(random: &mut Random, ways: &mut Ways, wanted: usize) -> (Loops, Closed) {
    let args = match wanted {
        0..=64 => 3,
        65..=2_048 => 4,
        2_049..=16_384 => 5,
        _ => 6,
    };
    loop {
        let loops = Loops::random(random, args, 3);
        match ways.close(&loops.steps(), wanted) {
            Some(closed) if closed.ways > 3 * wanted / 4 && closed.tries == 3 * closed.ways => return (loops, closed),
            _ => {}
        }
    }
}

/// The time of judging, that of the closure alone, and its ratio to the plain closure.
fn measure(loops: &Loops, closed: Closed, allowed: u32) -> [f64; 3] {
    let (bytes, steps) = (loops.bytes(), loops.steps());
    let words = judge_words(bytes.len(), allowed);
    let (mut work, mut before) = (vec![0; words], vec![0; words]);
    let mut plain = Ways::new(allowed as usize);
    let verdict = if closed.reason { Verdict::Ends } else { Verdict::NoReason };
    assert_eq!(judge(&bytes, closed.ways as u32, &mut work), verdict);
    assert_eq!(judge(&bytes, closed.ways as u32 - 1, &mut work), Verdict::Many);
    let samples = Samples::of(&mut [
        Timed::each(|| judge(&bytes, allowed, &mut work)),
        // with no way allowed it ends at the first
        Timed::each(|| judge(&bytes, 0, &mut before)),
        Timed::each(|| plain.close(&steps, allowed as usize)),
    ]);
    let closing = |round: &[f64]| round[0] - round[1];
    [samples.median(|round| round[0]), samples.median(closing), samples.median(|round| closing(round) / round[2])]
}

pub fn print(targets: &mut Targets) {
    println!(
        "\n## Judging\n\nScripts of one function with three calls of itself. A try composes a way with a step and looks the result up; its time is that of judging less reading.\n"
    );
    println!("| ways | tries | judging | ns a try | × plain Rust |\n|---|---|---|---|---|");
    let mut of_a_try = Vec::new();
    let mut to_plain_rust = Vec::new();
    for (loops, closed) in family(&mut Ways::new(MOST)) {
        let [judging, closing, to_plain] = measure(&loops, closed, closed.ways as u32);
        let each = closing / closed.tries as f64;
        println!("| {} | {} | {} | {each:.1} | {to_plain:.2} |", closed.ways, closed.tries, shown(judging));
        of_a_try.push(each);
        to_plain_rust.push(to_plain);
    }
    let largest = of_a_try.iter().copied().fold(0.0, f64::max);
    let smallest = of_a_try.iter().copied().fold(f64::MAX, f64::min);
    targets.at_most("the longest try of 2^4 to 2^16 ways, × the shortest", 2.0, largest / smallest);
    targets.at_most("judging, × plain Rust, worst of 2^4 to 2^16 ways", 1.5, to_plain_rust.into_iter().fold(0.0, f64::max));
    worst(targets);
}

/// The worst script of 512 bytes with 4,096 ways at most that was found.
fn worst(targets: &mut Targets) {
    let loops = worst_found();
    let closed = Ways::new(4096).close(&loops.steps(), 4096).expect("4,096 ways at most");
    let [judging, _, to_plain] = measure(&loops, closed, 4096);
    let Closed { ways, tries, looks, .. } = closed;
    println!(
        "\nThe worst script found, {} bytes: {ways} ways, {tries} tries, {looks} rows looked at, {} ({to_plain:.2} × plain Rust).",
        loops.bytes().len(),
        shown(judging)
    );
    targets.at_most("the worst script of 512 bytes found, 4,096 ways, ms", 10.0, judging / 1e6);
}

/// The worst of the searches with many seeds and every number of arguments: `cargo bench --bench speed -- worst`.
fn worst_found() -> Loops {
    include_str!("../worst.txt").parse().expect("calls")
}

/// What a script costs: composing takes about as long as three looks at a row. Nothing if it is too long or has too many ways.
fn cost(loops: &Loops, ways: &mut Ways) -> usize {
    match ways.close(&loops.steps(), 4096) {
        Some(closed) if loops.bytes().len() <= 512 => 3 * closed.tries + closed.looks,
        _ => 0,
    }
}

/// Looks for scripts that take long, and prints each that is worse than those before.
pub fn search() {
    let random = &mut Random::new(512);
    let ways = &mut Ways::new(4096);
    let mut most = cost(&worst_found(), ways);
    println!("{most} is the cost of the one that is kept; a worse one is printed");
    for seed in 0..SEARCHES {
        let (found, cost) = climb(random, ways, 3 + (seed % 6) as u8);
        if cost > most {
            most = cost;
            println!("{cost}, {} bytes\n{found}", found.bytes().len());
        }
    }
}

const SEARCHES: usize = 3_000;

/// A script made at random and changed as long as it gets worse.
fn climb(random: &mut Random, ways: &mut Ways, args: u8) -> (Loops, usize) {
    let mut here = Loops::random(random, args, 60);
    while here.bytes().len() > 512 {
        here.calls.pop();
    }
    let keep = 4 + random.below(here.calls.len());
    here.calls.truncate(keep);
    let mut at = cost(&here, ways);
    for _ in 0..40 {
        let next = here.changed(random);
        let then = cost(&next, ways);
        if then >= at {
            (here, at) = (next, then);
        }
    }
    (here, at)
}
