//! Measures how long judging takes against the number of ways, for two families of programs:
//! functions of k arguments with two calls, one that turns the arguments and one that changes the first two,
//! without parts (as many ways as permutations) and with a part at one place (as many as permutations with parts).
//!
//! `cargo run --release --example judging`

use std::time::Instant;

use pegsienna::slices::{Verdict, judge, judge_words};

/// f(x0, .., xk): if x0 is a leaf, leaf, else a node of f(x1, .., xk, x0 or its right part) and f(x1, x0, x2, ..).
fn program(k: u8, part: bool) -> Vec<u8> {
    let last = if part { 0 } else { 2 };
    let mut bytes = vec![k, 3, 0, 1, 2];
    bytes.extend([5, 0, k]);
    for i in 1..k {
        bytes.extend([0, i + 2]);
    }
    bytes.extend([0, last]);
    bytes.extend([5, 0, k, 0, 3, 0, 2]);
    for i in 2..k {
        bytes.extend([0, i + 2]);
    }
    bytes
}

/// The fewest ways allowed with which the program is not said to have too many.
fn ways(bytes: &[u8], work: &mut [u32]) -> u32 {
    let (mut low, mut high) = (0, 1 << 17);
    while low < high {
        let middle = (low + high) / 2;
        if judge(bytes, middle, work) == Verdict::Many {
            low = middle + 1;
        } else {
            high = middle;
        }
    }
    low
}

/// The median time of judging with just enough ways, in nanoseconds.
fn time(bytes: &[u8], ways: u32, work: &mut [u32]) -> f64 {
    let turns = (200_000 / (ways as usize + 1)).clamp(1, 2000);
    let mut times: Vec<f64> = (0..9)
        .map(|_| {
            let start = Instant::now();
            for _ in 0..turns {
                std::hint::black_box(judge(bytes, ways, work));
            }
            start.elapsed().as_nanos() as f64 / turns as f64
        })
        .collect();
    times.sort_by(f64::total_cmp);
    times[times.len() / 2]
}

fn main() {
    println!("| arguments | a part | ways | tries | time, µs | ns a try |");
    println!("|---|---|---|---|---|---|");
    for (k, part) in [(3, false), (3, true), (4, false), (5, false), (4, true), (6, false), (5, true), (7, false), (8, false), (6, true)] {
        let bytes = program(k, part);
        let mut work = vec![0; judge_words(bytes.len(), 1 << 17)];
        let ways = ways(&bytes, &mut work);
        let tries = 2 * ways;
        let time = time(&bytes, ways, &mut work);
        println!("| {k} | {} | {ways} | {tries} | {:.1} | {:.1} |", if part { "yes" } else { "no" }, time / 1000.0, time / f64::from(tries));
    }
}
