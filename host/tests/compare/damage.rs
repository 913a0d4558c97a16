//! Damaged programs, damaged trees and random bytes.

use pegsienna::outline::Outline;
use pegsienna::slices::{Call, Stop, Verdict};

use crate::machine::{Machine, for_each};
use crate::random::{self, Random};
use crate::{program, second};

const CASES: u64 = 150_000;

#[derive(Default, Debug)]
struct Counts {
    cases: usize,
    no_program: usize,
    ends: usize,
    no_reason: usize,
    many: usize,
    called: usize,
    bad_calls: usize,
    too_long: usize,
}

#[test]
fn damaged_programs_and_random_bytes() {
    let seeds: Vec<u64> = (0..CASES).collect();
    let counts = for_each(&seeds, |machine, counts: &mut Counts, &seed| one(machine, counts, seed));
    let total = |field: fn(&Counts) -> usize| counts.iter().map(field).sum::<usize>();
    println!(
        "damaged: {} cases: {} no program, {} ends, {} no reason, {} many; {} called ({} bad calls), {} too long",
        total(|c| c.cases),
        total(|c| c.no_program),
        total(|c| c.ends),
        total(|c| c.no_reason),
        total(|c| c.many),
        total(|c| c.called),
        total(|c| c.bad_calls),
        total(|c| c.too_long),
    );
    assert!(total(|c| c.cases) >= 100_000 && total(|c| c.ends) > 1000 && total(|c| c.no_program) > 10_000);
}

fn one(machine: &mut Machine, counts: &mut Counts, seed: u64) {
    let mut random = Random::new(1000 + seed);
    let script = if seed.is_multiple_of(5) {
        random::bytes(&mut random)
    } else {
        let whole = program::write(&random::program(&mut random));
        if seed % 5 < 3 { random::nudged(&mut random, &whole) } else { random::damaged(&mut random, &whole) }
    };
    let ways = random.pick(&[0, 1, 2, 7, 60, 300]);
    let verdict = second::judge(&script, ways);
    assert_eq!(machine.judge(&script, ways), verdict, "{script:?} with {ways} ways");
    let read = program::read(&script);
    assert_eq!(Outline::of(&script).is_ok(), read.is_some(), "{script:?}");
    counts.cases += 1;
    match verdict {
        Verdict::NoProgram => counts.no_program += 1,
        Verdict::Ends => counts.ends += 1,
        Verdict::NoReason => counts.no_reason += 1,
        _ => counts.many += 1,
    }
    called(machine, counts, &mut random, &script, ways, read.filter(|_| verdict == Verdict::Ends));
}

/// A call of the script with trees that may be damaged too; `program` is there if it ends.
fn called(machine: &mut Machine, counts: &mut Counts, random: &mut Random, script: &[u8], ways: u32, program: Option<program::Program>) {
    let functions = program.as_ref().map_or(0, Vec::len);
    let function = if random.percent(95) { random.below(functions.max(1)) } else { random.below(70) };
    let takes = program.as_ref().and_then(|program| program.get(function)).map_or(1, |fun| fun.args);
    let mut args: Vec<u8> = (0..takes).flat_map(|_| tree(random)).collect();
    if random.percent(15) {
        args = random::damaged(random, &args);
    }
    let call = Call { function, args: &args, depth: random.below(6) as u32, room: random.below(40) as u32 };
    let out = random.below(30);
    let expected = match &program {
        None => Some(Err(Stop::Unproved)),
        Some(program) => second::run(program, call, out, 20_000),
    };
    let Some(expected) = expected else {
        counts.too_long += 1;
        return;
    };
    assert_eq!(machine.go(script, ways, call, out), expected, "{script:?} {call:?} out {out}");
    counts.called += usize::from(program.is_some());
    counts.bad_calls += usize::from(expected == Err(Stop::BadCall));
}

/// A tree of a few nodes, as bytes.
fn tree(random: &mut Random) -> Vec<u8> {
    let mut bytes = Vec::new();
    let mut open = 1;
    while open > 0 {
        let node = bytes.len() < 8 && random.percent(50);
        bytes.push(u8::from(node));
        open = if node { open + 1 } else { open - 1 };
    }
    bytes
}
