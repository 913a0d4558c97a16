//! Measures the proved calls against other languages, plain Rust and what was aimed at, and prints the tables of docs/PERFORMANCE.md.
//!
//! `./bench` at the repository's top, or `cargo bench --bench speed`. A word names a part: running, judging, reading, small; `worst` looks for scripts that take long to judge.

mod clock;
mod closure;
mod graphs;
mod judging;
mod native;
mod peers;
mod random;
mod reading;
mod running;
mod shapes;
mod small;
mod targets;

use targets::Targets;

/// Native stack for the deepest calls that are measured.
const STACK: usize = 512 << 20;

fn main() {
    let asked: Vec<String> = std::env::args().skip(1).filter(|word| !word.starts_with('-')).collect();
    let thread = std::thread::Builder::new().stack_size(STACK).spawn(move || measure(&asked)).expect("a thread");
    thread.join().expect("all is measured");
}

fn measure(asked: &[String]) {
    let wanted = |part: &str| asked.is_empty() || asked.iter().any(|word| word == part);
    if asked.iter().any(|word| word == "worst") {
        return judging::search();
    }
    let mut targets = Targets::default();
    if wanted("running") {
        running::print(&peers::all(), &mut targets);
    }
    if wanted("judging") {
        judging::print(&mut targets);
    }
    if wanted("reading") {
        reading::print(&mut targets);
    }
    if wanted("small") {
        small::print(&mut targets);
    }
    targets.print();
}
