//! The command line: what it prints, and its status.

use std::io::Write;
use std::path::{Path, PathBuf};
use std::process::{Command, Stdio};

struct Done {
    out: String,
    message: String,
    status: Option<i32>,
}

fn pegsienna(words: &[&str], input: &[u8]) -> Done {
    let mut process = Command::new(env!("CARGO_BIN_EXE_pegsienna"))
        .args(words)
        .current_dir(Path::new(env!("CARGO_MANIFEST_DIR")).parent().unwrap())
        .stdin(Stdio::piped())
        .stdout(Stdio::piped())
        .stderr(Stdio::piped())
        .spawn()
        .unwrap();
    let mut to = process.stdin.take().unwrap();
    let input = input.to_vec();
    // while it writes: a pipe holds only so much. A command that reads nothing may have ended.
    let writer = std::thread::spawn(move || drop(to.write_all(&input)));
    let done = process.wait_with_output().unwrap();
    writer.join().unwrap();
    Done { out: String::from_utf8(done.stdout).unwrap(), message: String::from_utf8(done.stderr).unwrap(), status: done.status.code() }
}

fn file(name: &str, bytes: &[u8]) -> PathBuf {
    let path = Path::new(env!("CARGO_TARGET_TMPDIR")).join(name);
    std::fs::write(&path, bytes).unwrap();
    path
}

#[track_caller]
fn prints(words: &[&str], input: &str, out: &str) {
    let done = pegsienna(words, input.as_bytes());
    assert_eq!((done.out.as_str(), done.status), (out, Some(0)), "{}", done.message);
}

/// A status other than 0, with a message that has these words.
#[track_caller]
fn refuses(words: &[&str], status: i32, message: &str) {
    let done = pegsienna(words, b"");
    assert_eq!(done.status, Some(status), "{}", done.message);
    assert!(done.message.contains(message), "{}", done.message);
}

#[test]
fn judges() {
    prints(&["judge", "examples/ack.script"], "", "ends\n");
    prints(&["judge", "examples/ack.script", "--ways", "2"], "", "ends\n");
    for (words, answer) in [
        (&["judge", "examples/swap.script"][..], "no reason\n"),
        (&["judge", "examples/ack.script", "--ways=1"], "many\n"),
        (&["judge", "README.md"], "no program\n"),
        (&["judge", "examples/ack.script", "--ways", "4294967295"], "few\n"),
    ] {
        let done = pegsienna(words, b"");
        assert_eq!((done.out.as_str(), done.status), (answer, Some(1)));
    }
    let bad = file("bad.script", &[1, 0, 1]);
    refuses(&["judge", bad.to_str().unwrap()], 1, "byte 1: variable 1, where 1 are in view");
}

#[test]
fn runs() {
    prints(&["run", "examples/ack.script", "2", "3"], "", "9\n");
    prints(&["run", "examples/ack.script"], "2\n3\n", "9\n");
    prints(&["run", "examples/sort.script", "[3 1 2]"], "", "[1 2 3]\n");
    prints(&["run", "--function", "2", "examples/sort.script", "3", "[[] 0 .]"], "", "1\n");
    prints(&["run", "examples/once.script"], "1 2 3", ".\n");
    prints(&["run", "examples/ack.script", "--depth", "1", "--room", "3", "--", "1", "1"], "", "3\n");
    // of an option that stands twice the last
    prints(&["run", "examples/ack.script", "--depth", "0", "--depth=1", "1", "1"], "", "3\n");
}

#[test]
fn says_why_it_does_not_run() {
    refuses(&["run", "examples/ack.script", "--depth", "0", "1", "1"], 1, "deep: 0 calls were open inside; allow more with --depth");
    refuses(&["run", "examples/ack.script", "--room", "2", "1", "1"], 1, "full: the room of 2 nodes was used up; give more with --room");
    refuses(&["run", "examples/swap.script", "1", "1"], 1, "unproved: only scripts that are judged `ends` are run; this one is judged `no reason`");
    refuses(&["run", "examples/ack.script", "--ways", "1", "1", "1"], 1, "judged `many` (it has more than 1 ways");
    refuses(&["run", "examples/ack.script", "1"], 1, "bad call: function 0 takes 2 trees, and 1 were given");
    refuses(&["run", "examples/ack.script", "--function", "1"], 1, "bad call: there is no function 1");
    refuses(&["run", "examples/ack.script", "--depth", "4294967295", "1", "1"], 1, "lower --depth");
    refuses(&["run", "examples/ack.script", "--room", "4294967295", "1", "1"], 1, "small: there isn't memory");
}

#[test]
fn bad_usage() {
    refuses(&[], 2, "usage: pegsienna judge FILE");
    refuses(&["prove"], 2, "there are judge, run, show and batch");
    refuses(&["judge"], 2, "name a script");
    refuses(&["judge", "examples/ack.script", "more"], 2, "one word too many");
    refuses(&["judge", "no such file"], 2, "give the path of a script");
    refuses(&["judge", "examples/ack.script", "--ways", "x"], 2, "--ways takes a number, not `x`");
    refuses(&["judge", "examples/ack.script", "--ways"], 2, "--ways takes a number");
    refuses(&["judge", "examples/ack.script", "--room", "3"], 2, "--room is no option here");
    refuses(&["run", "examples/ack.script", "(1 2", "1"], 2, "tree `(1 2`: byte 0: this bracket is never closed");
    refuses(&["batch", "file"], 2, "one word too many");
    prints(&["help"], "", &pegsienna(&["--help"], b"").out);
}

#[test]
fn shows() {
    let done = pegsienna(&["show", "examples/swap_shrink.script"], b"");
    assert_eq!(done.out, "f0(a, b) =\n  parts of a\n    . => .\n    (l1 r1) => f0(b, r1)\n");
    assert_eq!(done.status, Some(0));
    let bad = file("unknown.script", &[0, 7]);
    refuses(&["show", bad.to_str().unwrap()], 1, "no program: byte 1: 7 stands where an expression begins");
}

const ACK: &str = "0203000201000103030500020000020101050002000205000200040000";

#[test]
fn answers_a_batch() {
    let cases = [
        (format!("judge {ACK} 2 -"), "ends"),
        (format!("judge {ACK} 1 -"), "many"),
        (format!("judge {ACK} 2 18367"), "few"),
        (format!("judge {ACK} 2 18368"), "ends"),
        ("judge - 0 -".to_owned(), "ends"),
        ("judge 00050000 9 -".to_owned(), "no reason"),
        ("judge 09 9 -".to_owned(), "no program"),
        (format!("go {ACK} 2 0 0000 0 1 3 -"), "value 010000 0"),
        (format!("go {ACK} 2 0 0000 0 7 30 -"), "value 010000 6"),
        (format!("go {ACK} 2 0 0000 0 0 3 -"), "full"),
        (format!("go {ACK} 2 0 010000010000 0 9 9 -"), "deep"),
        (format!("go {ACK} 1 0 0000 0 1 3 -"), "unproved"),
        (format!("go {ACK} 2 1 0000 0 1 3 -"), "bad call"),
        (format!("go {ACK} 2 0 00 0 1 3 -"), "bad call"),
        (format!("go {ACK} 2 0 0000 0 1 2 -"), "out full"),
        (format!("go {ACK} 2 0 0000 0 1 3 22475"), "small"),
        (format!("go {ACK} 2 0 0000 0 1 3 22476"), "value 010000 0"),
        ("go 0001 0 0 - 0 4294967295 1 0".to_owned(), "small"),
        ("go 010000 0 0 00 0 4294967295 1 -".to_owned(), "small"),
    ];
    let input: String = cases.iter().map(|(case, _)| format!("{case}\n")).collect();
    let output: String = cases.iter().map(|(_, answer)| format!("{answer}\n")).collect();
    prints(&["batch"], &input, &output);
}

#[test]
fn a_bad_line_does_not_end_a_batch() {
    let bad = b"\njudge\ngo 00\nask 1\njudge 0 1 -\njudge xy 1 -\njudge 00 -1 -\njudge 00 1 9999999999999999\njudge 0001 1 18446744073709551616\ngo 0001 0 0 - 0 0 x -\n\xff\xfe\n";
    let done = pegsienna(&["batch"], &[bad, &b"judge 0001 0 -"[..]].concat());
    let lines: Vec<&str> = done.out.lines().collect();
    assert_eq!(lines.len(), 12);
    assert!(lines[..11].iter().all(|line| line.starts_with("error: ")), "{lines:?}");
    assert_eq!((lines[11], done.status), ("ends", Some(1)));
}

#[test]
fn a_large_batch() {
    let case = format!("go {ACK} 2 0 010001000101000000 20 60 99 -\n");
    let done = pegsienna(&["batch"], case.repeat(2000).as_bytes());
    let lines: Vec<&str> = done.out.lines().collect();
    assert_eq!((lines.len(), done.status), (2000, Some(0)));
    assert!(lines.iter().all(|&line| line == lines[0]));
}
