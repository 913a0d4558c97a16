//! Programs made at random: verdicts, numbers of ways, and what they come to on all small trees.

use pegsienna::slices::{Call, Stop, Verdict};

use crate::judge::{self, How};
use crate::machine::{Answer, Machine, for_each};
use crate::program::{self, Expr, Fun, Program};
use crate::random::{self, Random};
use crate::run::{self, Tree};
use crate::second;

/// The most ways that are counted.
const MOST_WAYS: u32 = 2000;
const DEPTH: u32 = 30;
const ROOM: u32 = 2000;
const OUT: usize = 5000;
/// The second runner's steps. What takes more isn't compared: with the reason it ends, but not while anyone waits.
const STEPS: u64 = 20_000;

struct Case {
    script: Vec<u8>,
    program: Program,
    verdict: Verdict,
    ways: Option<u32>,
    /// Some way goes round.
    round: bool,
    /// Some way goes round on which no argument becomes a part of itself, so that single arguments don't show the reason.
    turning: bool,
}

fn case(random: &mut Random) -> Case {
    let program = random::program(random);
    let script = program::write(&program);
    let ways = judge::ways(&program, MOST_WAYS as usize);
    let verdict = second::judge(&script, MOST_WAYS);
    let mut rounds = ways.iter().flatten().filter(|way| way.from == way.to).peekable();
    let round = rounds.peek().is_some();
    let turning = rounds.any(|way| !way.arcs.iter().any(|(&(i, j), &how)| i == j && how == How::Part));
    Case { script, program, verdict, ways: ways.map(|ways| ways.len() as u32), round, turning }
}

/// So many programs with the reason and ways that go round, of which some turn, without it, with too many ways, and with no way that goes round.
fn cases() -> Vec<Case> {
    let mut wanted = [500, 250, 300, 30, 60];
    let mut random = Random::new(1);
    let mut cases = Vec::new();
    while wanted.iter().any(|&n| n > 0) {
        let case = case(&mut random);
        let kind = match case.verdict {
            Verdict::Ends if case.turning => 1,
            Verdict::Ends if case.round => 0,
            Verdict::NoReason => 2,
            Verdict::Many => 3,
            _ => 4,
        };
        if wanted[kind] > 0 {
            wanted[kind] -= 1;
            cases.push(case);
        }
    }
    cases
}

#[derive(Default, Debug)]
struct Counts {
    programs: usize,
    with_reason_and_round: usize,
    with_reason_and_turning: usize,
    most_ways: u32,
    trees: usize,
    calls: usize,
    values: usize,
    full: usize,
    deep: usize,
    out_full: usize,
    too_long: usize,
}

impl Counts {
    fn add(&mut self, other: Counts) {
        self.programs += other.programs;
        self.with_reason_and_round += other.with_reason_and_round;
        self.with_reason_and_turning += other.with_reason_and_turning;
        self.most_ways = self.most_ways.max(other.most_ways);
        self.trees += other.trees;
        self.calls += other.calls;
        self.values += other.values;
        self.full += other.full;
        self.deep += other.deep;
        self.out_full += other.out_full;
        self.too_long += other.too_long;
    }

    fn answer(&mut self, answer: &Answer) {
        self.calls += 1;
        match answer {
            Ok(_) => self.values += 1,
            Err(Stop::Full) => self.full += 1,
            Err(Stop::Deep) => self.deep += 1,
            Err(Stop::OutFull) => self.out_full += 1,
            Err(_) => {}
        }
    }
}

#[test]
fn programs_at_random() {
    let cases = crate::machine::with_stack(cases);
    let small: Vec<Vec<u8>> = (0..=4).flat_map(Tree::all).map(|tree| tree.bytes(9).unwrap()).collect();
    assert_eq!(small.len(), 23);
    let counts = for_each(&cases, |machine, counts: &mut Counts, case| {
        verdict_and_ways(machine, counts, case);
        if case.verdict == Verdict::Ends {
            Runs { machine, counts, case, random: Random::new(2) }.all(&small);
        }
    });
    let mut all = Counts::default();
    counts.into_iter().for_each(|counts| all.add(counts));
    println!("programs at random: {all:?}");
    assert!(all.programs >= 400 && 2 * all.with_reason_and_round >= all.programs);
}

/// Programs of up to 64 functions and 4,096 bytes, judged only: half of them made at once, half joined of small ones that nearly all end.
#[test]
fn large_programs_at_random() {
    let seeds: Vec<u64> = (0..300).collect();
    let counts = for_each(&seeds, |machine, counts: &mut Vec<(usize, u32, Verdict)>, &seed| {
        let mut random = Random::new(5000 + seed);
        let program = if seed % 2 == 0 {
            let (count, size) = (8 + random.below(57), 3 + random.below(40));
            random::program_of(&mut random, count, size, 1)
        } else {
            joined(&mut random)
        };
        let script = program::write(&program);
        let verdict = second::judge(&script, 4096);
        let ways = judge::ways(&program, 4096).map(|ways| ways.len() as u32);
        assert_eq!(machine.judge(&script, 4096), verdict, "{script:?}");
        if verdict != Verdict::NoProgram {
            assert_eq!(machine.number_of_ways(&script, 4096), ways, "{script:?}");
        }
        counts.push((script.len(), ways.unwrap_or(0), verdict));
    });
    let all: Vec<_> = counts.into_iter().flatten().collect();
    let ending = all.iter().filter(|(_, _, verdict)| *verdict == Verdict::Ends).count();
    let (bytes, ways) = all.iter().fold((0, 0), |(bytes, ways), case| (case.0.max(bytes), case.1.max(ways)));
    println!("large programs: {} programs of up to {bytes} bytes and {ways} ways, {ending} end", all.len());
    assert!(ending > 50 && bytes > 2000);
}

/// Small programs one after the other, until there are about so many functions; rarely one without the reason.
fn joined(random: &mut Random) -> Program {
    let mut program = Program::new();
    let most = 20 + random.below(45);
    loop {
        let next = case(random);
        let length = program::write(&program).len() + next.script.len();
        if program.len() + next.program.len() > most || length > 4096 {
            return program;
        }
        if next.verdict == Verdict::Ends || random.percent(1) {
            let by = program.len();
            program.extend(next.program.into_iter().map(|fun| Fun { args: fun.args, body: shifted(fun.body, by) }));
        }
    }
}

/// The same expression with every function's number so much higher.
fn shifted(e: Expr, by: usize) -> Expr {
    let shift = |e: Box<Expr>| Box::new(shifted(*e, by));
    match e {
        Expr::Var(_) | Expr::Leaf => e,
        Expr::Node(a, b) => Expr::Node(shift(a), shift(b)),
        Expr::Parts(i, a, b) => Expr::Parts(i, shift(a), shift(b)),
        Expr::Bind(a, b) => Expr::Bind(shift(a), shift(b)),
        Expr::Call(f, es) => Expr::Call(f + by, es.into_iter().map(|e| shifted(e, by)).collect()),
    }
}

fn verdict_and_ways(machine: &mut Machine, counts: &mut Counts, case: &Case) {
    counts.programs += 1;
    counts.with_reason_and_round += usize::from(case.round && case.verdict == Verdict::Ends);
    counts.with_reason_and_turning += usize::from(case.turning && case.verdict == Verdict::Ends);
    counts.most_ways = counts.most_ways.max(case.ways.unwrap_or(0));
    assert_eq!(machine.judge(&case.script, MOST_WAYS), case.verdict, "{:?}", case.script);
    assert_eq!(machine.number_of_ways(&case.script, MOST_WAYS), case.ways, "{:?}", case.script);
}

struct Runs<'a> {
    machine: &'a mut Machine,
    counts: &'a mut Counts,
    case: &'a Case,
    random: Random,
}

impl Runs<'_> {
    /// Each function on all small trees, or on a sample of them if it takes more than three.
    fn all(&mut self, small: &[Vec<u8>]) {
        for (function, fun) in self.case.program.iter().enumerate() {
            let all = small.len().pow(fun.args.min(3) as u32);
            let tried = if fun.args <= 3 { all } else { 500 };
            for nth in 0..tried {
                let mut rest = nth;
                let mut args = Vec::new();
                for _ in 0..fun.args {
                    let choice = if fun.args <= 3 { rest % small.len() } else { self.random.below(small.len()) };
                    rest /= small.len();
                    args.extend(&small[choice]);
                }
                let tight = nth < 30 || self.random.percent(20);
                self.one(function, &args, tight);
            }
        }
    }

    /// One call with generous limits and just those that it needs; if `tight`, with one less of each as well.
    fn one(&mut self, function: usize, args: &[u8], tight: bool) {
        let trees = Tree::read(args).unwrap();
        let call = |depth, room| Call { function, args, depth, room };
        match run::call(&self.case.program, function, &trees, DEPTH, ROOM, STEPS) {
            Err(run::Bad::Long) => self.counts.too_long += 1,
            Err(_) => {
                self.counts.trees += 1;
                self.compare(call(DEPTH, ROOM), OUT);
                if tight {
                    let (depth, room) = (self.random.below(DEPTH as usize) as u32, self.random.below(ROOM as usize) as u32);
                    self.compare(call(depth, room), OUT);
                }
            }
            Ok(value) => {
                self.counts.trees += 1;
                self.compare(call(DEPTH, ROOM), OUT);
                let (depth, room) = (value.open, ROOM - value.room);
                self.compare(call(depth, room), OUT);
                if tight {
                    self.tight(call, depth, room, value.tree.bytes(OUT).map_or(OUT, |bytes| bytes.len()));
                }
            }
        }
    }

    /// Depth, room and out just enough, and one less of one of them.
    fn tight<'c>(&mut self, call: impl Fn(u32, u32) -> Call<'c>, depth: u32, room: u32, out: usize) {
        self.compare(call(depth, room), out);
        self.compare(call(depth, room), out - 1);
        if depth > 0 {
            self.compare(call(depth - 1, room), out);
        }
        if room > 0 {
            self.compare(call(depth, room - 1), out);
        }
        // with too little of both, the order in which things are done decides
        if depth > 0 && room > 0 {
            self.compare(call(depth - 1, room - 1), out);
            let (depth, room) = (self.random.below(depth as usize) as u32, self.random.below(room as usize) as u32);
            self.compare(call(depth, room), out);
        }
    }

    fn compare(&mut self, call: Call<'_>, out: usize) {
        let case = self.case;
        let Some(expected) = second::run(&case.program, call, out, 2 * STEPS) else {
            self.counts.too_long += 1;
            return;
        };
        let ways = case.ways.unwrap_or(MOST_WAYS);
        let answer = self.machine.go(&case.script, ways, call, out);
        assert_eq!(answer, expected, "{:?} {call:?} out {out}", case.script);
        self.counts.answer(&answer);
    }
}
