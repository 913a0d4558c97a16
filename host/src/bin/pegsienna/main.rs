//! Judges, runs and shows scripts.

mod batch;
mod options;

use std::fs;
use std::io::{self, BufWriter, Read, Write};
use std::process::ExitCode;

use options::{Command, Run};
use pegsienna::outline::Outline;
use pegsienna::{Listing, Script, Stop, Tree, Verdict};

/// Something was asked for that can't be done as it is: a message that says what to do.
type Usage = String;

/// Whether the answer was the good one.
type Good = bool;

fn main() -> ExitCode {
    let done = match options::read(std::env::args().skip(1)) {
        Ok(command) => does(command),
        Err(usage) => Err(usage),
    };
    match done {
        Ok(true) => ExitCode::SUCCESS,
        Ok(false) => ExitCode::from(1),
        Err(usage) => {
            eprintln!("pegsienna: {usage}");
            ExitCode::from(2)
        }
    }
}

fn does(command: Command) -> Result<Good, Usage> {
    match command {
        Command::Help => print(options::HELP).map(|()| true),
        Command::Judge { file, ways } => judge(&file, ways),
        Command::Run(run) => call(run),
        Command::Show { file } => show(&file),
        Command::Batch => batch::run(io::stdin().lock(), io::stdout().lock()).map_err(|e| format!("reading cases or writing answers: {e}")),
    }
}

fn script(file: &str) -> Result<Script, Usage> {
    let bytes = fs::read(file).map_err(|e| format!("{file}: {e}; give the path of a script, a file of its bytes"))?;
    Ok(Script::new(bytes))
}

fn print(text: impl std::fmt::Display) -> Result<(), Usage> {
    let mut out = BufWriter::new(io::stdout().lock());
    write!(out, "{text}").and_then(|()| out.flush()).map_err(|e| format!("writing the answer: {e}"))
}

fn judge(file: &str, ways: u32) -> Result<Good, Usage> {
    let script = script(file)?;
    let verdict = script.judge(ways);
    print(format_args!("{verdict}\n"))?;
    if let Some(more) = explained(&script, verdict, ways) {
        eprintln!("{more}");
    }
    Ok(verdict == Verdict::Ends)
}

/// What a verdict that is a refusal comes from, and what to do.
fn explained(script: &Script, verdict: Verdict, ways: u32) -> Option<String> {
    match verdict {
        Verdict::Ends | Verdict::NoReason => None,
        Verdict::NoProgram => Outline::of(script.bytes()).err().map(|fault| fault.to_string()),
        Verdict::Many => Some(format!("it has more than {ways} ways; allow more with --ways")),
        Verdict::Few => Some(format!("there isn't memory for {ways} ways; allow fewer with --ways")),
    }
}

fn call(run: Run) -> Result<Good, Usage> {
    let script = script(&run.file)?.with_ways(run.ways);
    let takes = Outline::of(script.bytes()).ok().and_then(|outline| outline.functions.get(run.function).map(|f| usize::from(f.arguments)));
    let trees = match (&run.trees[..], takes) {
        ([], Some(1..)) => from_input()?,
        (given, _) => given.iter().map(|text| text.parse().map_err(|e| format!("tree `{text}`: {e}"))).collect::<Result<_, _>>()?,
    };
    match script.call(run.function, &trees, run.limits) {
        Ok(value) => print(format_args!("{}\n", value.tree)).map(|()| true),
        Err(stop) => {
            eprintln!("{stop}: {}", advice(&script, &run, takes, trees.len(), stop));
            Ok(false)
        }
    }
}

fn from_input() -> Result<Vec<Tree>, Usage> {
    let mut text = String::new();
    io::stdin().read_to_string(&mut text).map_err(|e| format!("reading trees from standard input: {e}"))?;
    Tree::read_all(&text).map_err(|e| format!("trees from standard input: {e}"))
}

fn advice(script: &Script, run: &Run, takes: Option<usize>, given: usize, stop: Stop) -> String {
    let Run { function, limits, ways, .. } = run;
    match stop {
        Stop::Full => format!("the room of {} nodes was used up; give more with --room", limits.room),
        Stop::Deep => format!("{} calls were open inside; allow more with --depth", limits.depth),
        Stop::Unproved => {
            let verdict = script.judge(*ways);
            let more = explained(script, verdict, *ways).map(|more| format!(" ({more})")).unwrap_or_default();
            format!("only scripts that are judged `ends` are run; this one is judged `{verdict}`{more}")
        }
        Stop::BadCall => match takes {
            Some(takes) => format!("function {function} takes {takes} trees, and {given} were given"),
            None => format!("there is no function {function}; `show` lists them"),
        },
        Stop::OutFull => format!("the value has more than {} bytes", pegsienna::MOST_VALUE_BYTES),
        Stop::Small => "there isn't memory for these limits; lower --depth, --room or --ways".to_owned(),
        Stop::NoStack { .. } => "no thread with as much can be had for this depth; lower --depth".to_owned(),
    }
}

fn show(file: &str) -> Result<Good, Usage> {
    let script = script(file)?;
    match Listing::of(script.bytes()) {
        Ok(listing) => print(listing).map(|()| true),
        Err(fault) => {
            eprintln!("no program: {fault}");
            Ok(false)
        }
    }
}
