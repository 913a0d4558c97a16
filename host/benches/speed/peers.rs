//! Other languages' interpreters, each a process that keeps its arguments and answers line by line.

use std::cell::RefCell;
use std::io::{BufRead, BufReader, Write};
use std::path::Path;
use std::process::{Child, ChildStdin, ChildStdout, Command, Stdio};

/// An interpreter that was started.
pub struct Peer {
    pub name: &'static str,
    pipes: RefCell<(ChildStdin, BufReader<ChildStdout>)>,
    child: Child,
}

const SOURCES: &str = concat!(env!("CARGO_MANIFEST_DIR"), "/benches/peers");

/// Those that are there; the others are named.
pub fn all() -> Vec<Peer> {
    let source = |file: &str| Path::new(SOURCES).join(file);
    let mut peers = Vec::new();
    let bytecode = ocaml();
    let commands = [
        ("ocamlrun", "ocamlrun", bytecode.unwrap_or_default()),
        ("lua", "lua5.4", source("trees.lua")),
        ("guile", "guile", source("trees.scm")),
        ("python", "python3", source("trees.py")),
    ];
    for (name, program, file) in commands {
        match Peer::start(name, program, &file) {
            Some(peer) => peers.push(peer),
            None => println!("{name} isn't there (Debian: ocaml-nox, lua5.4, guile-3.0, python3)"),
        }
    }
    peers
}

/// Compiles to bytecode, outside the sources' folder.
fn ocaml() -> Option<std::path::PathBuf> {
    let folder = Path::new(env!("CARGO_TARGET_TMPDIR"));
    let source = folder.join("trees.ml");
    std::fs::copy(Path::new(SOURCES).join("trees.ml"), &source).ok()?;
    let made = folder.join("trees.byte");
    let done = Command::new("ocamlc").arg("-o").arg(&made).arg(&source).stderr(Stdio::null()).status().ok()?;
    done.success().then_some(made)
}

impl Peer {
    fn start(name: &'static str, program: &str, file: &Path) -> Option<Peer> {
        let mut command = Command::new(program);
        let mut child = command.arg(file).stdin(Stdio::piped()).stdout(Stdio::piped()).stderr(Stdio::null()).spawn().ok()?;
        let pipes = (child.stdin.take()?, BufReader::new(child.stdout.take()?));
        let peer = Peer { name, pipes: RefCell::new(pipes), child };
        // a mirror of a leaf
        peer.load("start", "mirror", &[vec![0]]);
        peer.try_run("start", 1).map(|_| peer)
    }

    pub fn load(&self, label: &str, task: &str, args: &[Vec<u8>]) {
        let mut line = format!("load {label} {task}");
        for tree in args {
            line.push(' ');
            line.extend(tree.iter().map(|&byte| if byte == 0 { '0' } else { '1' }));
        }
        line.push('\n');
        // a peer that has ended says nothing to the next run
        let _ = self.pipes.borrow_mut().0.write_all(line.as_bytes());
    }

    /// Runs a task so many times; the check of its value.
    pub fn run(&self, label: &str, turns: u64) -> u64 {
        self.try_run(label, turns).unwrap_or_else(|| panic!("{} gave up on {label}", self.name))
    }

    fn try_run(&self, label: &str, turns: u64) -> Option<u64> {
        let (input, output) = &mut *self.pipes.borrow_mut();
        input.write_all(format!("run {label} {turns}\n").as_bytes()).ok()?;
        let mut line = String::new();
        output.read_line(&mut line).ok()?;
        line.trim().parse().ok()
    }
}

impl Drop for Peer {
    fn drop(&mut self) {
        // it may have ended by itself
        let _ = self.child.kill();
        let _ = self.child.wait();
    }
}

/// What peers answer of a value, from its bytes.
pub fn check(bytes: &[u8]) -> u64 {
    bytes.iter().fold(0, |sum, &byte| (sum * 31 + u64::from(byte) + 1) % 1_000_003)
}
