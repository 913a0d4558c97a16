//! What the words on the command line ask for.

use std::str::FromStr;

use pegsienna::{Limits, WAYS};

pub const HELP: &str = "\
usage: pegsienna judge FILE [--ways N]
       pegsienna run FILE [--function N] [--depth N] [--room N] [--ways N] [TREE..]
       pegsienna show FILE
       pegsienna batch

judge   says of a script: ends, no reason, no program, many (ways) or few (memory)
run     calls a function of a script that ends and prints the value
show    prints a script's functions in readable form
batch   reads a case a line from standard input and writes an answer a line:
          judge HEX WAYS WORDS
          go HEX WAYS FUNCTION ARGSHEX DEPTH ROOM OUT WORDS
        where - is empty hex, and for WORDS just as many as it takes

A TREE is . (a leaf), (l r) (a node), [a b c] (a list) or a number; without one they
are read from standard input. A script is a file of its bytes.

--function N   which function (0)
--depth N      how many calls may be open inside (1000)
--room N       how many nodes may be made (1000000)
--ways N       how many ways the script may have (4096)

Status: 0 for ends, a value or a listing; 1 for another answer, or a case of a batch that
can't be read; 2 for bad usage.
";

pub enum Command {
    Help,
    Judge { file: String, ways: u32 },
    Run(Run),
    Show { file: String },
    Batch,
}

pub struct Run {
    pub file: String,
    pub function: usize,
    pub limits: Limits,
    pub ways: u32,
    pub trees: Vec<String>,
}

/// The words that are no options, and the options by name.
struct Words {
    plain: Vec<String>,
    options: Vec<(String, String)>,
}

pub fn read(mut words: impl Iterator<Item = String>) -> Result<Command, String> {
    let command = words.next().ok_or_else(|| format!("say what to do\n{HELP}"))?;
    if matches!(command.as_str(), "help" | "--help" | "-h") {
        return Ok(Command::Help);
    }
    let mut words = Words::read(words)?;
    let command = match command.as_str() {
        "judge" => Command::Judge { ways: words.option("ways", WAYS)?, file: words.file("judge FILE")? },
        "run" => Command::Run(words.run()?),
        "show" => Command::Show { file: words.file("show FILE")? },
        "batch" => Command::Batch,
        other => return Err(format!("no command `{other}`; there are judge, run, show and batch")),
    };
    words.nothing_left()?;
    Ok(command)
}

impl Words {
    fn read(mut words: impl Iterator<Item = String>) -> Result<Words, String> {
        let mut read = Words { plain: Vec::new(), options: Vec::new() };
        while let Some(word) = words.next() {
            let Some(name) = word.strip_prefix("--") else {
                read.plain.push(word);
                continue;
            };
            if name.is_empty() {
                read.plain.extend(words);
                break;
            }
            let (name, value) = match name.split_once('=') {
                Some((name, value)) => (name.to_owned(), value.to_owned()),
                None => (name.to_owned(), words.next().ok_or_else(|| format!("--{name} takes a number"))?),
            };
            read.options.push((name, value));
        }
        Ok(read)
    }

    fn run(&mut self) -> Result<Run, String> {
        let usual = Limits::default();
        let limits = Limits { depth: self.option("depth", usual.depth)?, room: self.option("room", usual.room)? };
        let (function, ways) = (self.option("function", 0)?, self.option("ways", WAYS)?);
        let file = self.file("run FILE [TREE..]")?;
        Ok(Run { file, function, limits, ways, trees: std::mem::take(&mut self.plain) })
    }

    /// The first word.
    fn file(&mut self, usage: &str) -> Result<String, String> {
        if self.plain.is_empty() {
            return Err(format!("name a script: pegsienna {usage}"));
        }
        Ok(self.plain.remove(0))
    }

    /// The number of an option, the last one if it stands twice.
    fn option<T: FromStr>(&mut self, name: &str, usual: T) -> Result<T, String> {
        let mut number = usual;
        for (_, value) in self.options.extract_if(.., |(given, _)| given == name) {
            number = value.parse().map_err(|_| format!("--{name} takes a number, not `{value}`"))?;
        }
        Ok(number)
    }

    fn nothing_left(&self) -> Result<(), String> {
        if let Some((name, _)) = self.options.first() {
            return Err(format!("--{name} is no option here; `pegsienna help` lists them"));
        }
        match self.plain.first() {
            Some(word) => Err(format!("`{word}` is one word too many; `pegsienna help` says what each command takes")),
            None => Ok(()),
        }
    }
}
