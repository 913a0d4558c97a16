//! A case a line, an answer a line, for other programs to drive.

use std::fmt::Write as _;
use std::io::{self, BufRead, Write};
use std::str::FromStr;

use pegsienna::memory::Memory;
use pegsienna::outline::Outline;
use pegsienna::slices::{self, Call};
use pegsienna::stack;

/// What stands in `out` before a call.
const UNTOUCHED: u8 = 0xa5;

/// Answers every line. Says whether each could be.
pub fn run(mut cases: impl BufRead, mut answers: impl Write) -> io::Result<bool> {
    let mut memory = Memory::default();
    let mut good = true;
    let mut line = Vec::new();
    while cases.read_until(b'\n', &mut line)? > 0 {
        let answer = answer(&line, &mut memory).unwrap_or_else(|fault| {
            good = false;
            format!("error: {fault}")
        });
        writeln!(answers, "{answer}")?;
        answers.flush()?;
        line.clear();
    }
    Ok(good)
}

fn answer(line: &[u8], memory: &mut Memory) -> Result<String, String> {
    let line = str::from_utf8(line).map_err(|_| "the line is no text")?;
    let words: Vec<&str> = line.split_ascii_whitespace().collect();
    match words[..] {
        ["judge", script, ways, words] => judge(&hex(script)?, number("WAYS", ways)?, words, memory),
        ["go", script, ways, function, args, depth, room, out, words] => {
            let args = hex(args)?;
            let call = Call { function: number("FUNCTION", function)?, args: &args, depth: number("DEPTH", depth)?, room: number("ROOM", room)? };
            go(&hex(script)?, number("WAYS", ways)?, call, number("OUT", out)?, words, memory)
        }
        ["judge", ..] => Err("write judge HEX WAYS WORDS".to_owned()),
        ["go", ..] => Err("write go HEX WAYS FUNCTION ARGSHEX DEPTH ROOM OUT WORDS".to_owned()),
        [] => Err("the line is empty; write judge .. or go ..".to_owned()),
        [other, ..] => Err(format!("no case `{other}`; write judge .. or go ..")),
    }
}

fn judge(script: &[u8], ways: u32, words: &str, memory: &mut Memory) -> Result<String, String> {
    let count = word_count(words, slices::judge_words(script.len(), ways))?;
    let work = memory.words(count);
    had("words", count, work.len())?;
    Ok(slices::judge(script, ways, work).to_string())
}

fn go(script: &[u8], ways: u32, call: Call<'_>, out_len: usize, words: &str, memory: &mut Memory) -> Result<String, String> {
    let floor = slices::go_words(script.len(), ways, call.args.len(), call.depth, call.room);
    // where nodes can't be numbered the answer is the same with any number of words
    let nodes = call.args.len() as u64 + u64::from(call.room);
    let count = word_count(words, if nodes >> 32 == 0 { floor } else { 0 })?;
    let (work, out) = memory.words_and_bytes(count, out_len);
    had("words", count, work.len())?;
    had("bytes", out_len, out.len())?;
    // with fewer words nothing is run
    let stack = match Outline::of(script) {
        Ok(outline) if count >= floor => stack::bytes(outline.nesting, call.depth),
        _ => stack::BASE_BYTES,
    };
    out.fill(UNTOUCHED);
    let ran = stack::with(stack, || slices::go(script, ways, call, out, work)).map_err(|stop| stop.to_string())?;
    let (value, others) = out.split_at(ran.map_or(0, |written| written.bytes));
    if others.iter().any(|&byte| byte != UNTOUCHED) {
        return Err("bytes of out were changed that are not the value's".to_owned());
    }
    Ok(match ran {
        Ok(written) => format!("value {} {}", to_hex(value), written.room),
        Err(stop) => stop.to_string(),
    })
}

/// As many words as said, or as it takes.
fn word_count(words: &str, floor: usize) -> Result<usize, String> {
    if words == "-" { Ok(floor) } else { number("WORDS", words) }
}

fn had(what: &str, asked: usize, got: usize) -> Result<(), String> {
    if got == asked { Ok(()) } else { Err(format!("there is no memory for {asked} {what}")) }
}

fn number<T: FromStr>(name: &str, word: &str) -> Result<T, String> {
    word.parse().map_err(|_| format!("{name} is a number that fits its type, not `{word}`"))
}

fn hex(word: &str) -> Result<Vec<u8>, String> {
    if word == "-" {
        return Ok(Vec::new());
    }
    let digits: Option<Vec<u8>> = word.chars().map(|c| c.to_digit(16).map(|digit| digit as u8)).collect();
    match digits {
        Some(digits) if digits.len() % 2 == 0 => Ok(digits.chunks_exact(2).map(|pair| pair[0] << 4 | pair[1]).collect()),
        _ => Err("hex is two digits a byte, or - for none".to_owned()),
    }
}

fn to_hex(bytes: &[u8]) -> String {
    let mut text = String::with_capacity(2 * bytes.len());
    for byte in bytes {
        // writing to a string doesn't fail
        let _ = write!(text, "{byte:02x}");
    }
    text
}
