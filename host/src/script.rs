//! Scripts that are judged and called with memory that is found for them.

use std::fmt;
use std::sync::{Mutex, MutexGuard, PoisonError};

use crate::memory::Memory;
use crate::outline::Outline;
use crate::slices::{self, Call, Stop, Verdict};
use crate::{Tree, stack};

/// How many ways a script may have, where nothing else is said.
pub const WAYS: u32 = 4096;

/// The most bytes of a value that [`Script::call`] gives. Trees share their parts while a script runs, so a value can be far larger than the room that it took.
pub const MOST_VALUE_BYTES: usize = 1 << 26;

/// A script: its bytes, which may or may not be a program that ends.
///
/// It keeps the memory of its calls, so these wait for each other; clones don't.
///
/// ```
/// use pegsienna::{Limits, Script, Stop, Tree, Verdict};
///
/// // f(x, y): y if x is a leaf, else f(right part of x, node(leaf, y))
/// let add = Script::new([2, 3, 0, 0, 1, 5, 0, 2, 0, 0, 2, 1, 0, 3]);
/// assert_eq!(add.judge(100), Verdict::Ends);
///
/// let args = [Tree::number(2), Tree::number(3)];
/// let value = add.call(0, &args, Limits { depth: 0, room: 10 })?;
/// assert_eq!(value.tree, Tree::number(5));
/// assert_eq!(value.room, 8);
///
/// assert_eq!(add.call(0, &args, Limits { depth: 0, room: 1 }), Err(Stop::Full));
/// # Ok::<(), Stop>(())
/// ```
pub struct Script {
    bytes: Vec<u8>,
    ways: u32,
    /// Kept from call to call.
    memory: Mutex<Memory>,
}

/// How much a call may use.
#[derive(Clone, Copy, Debug, PartialEq, Eq, Hash)]
pub struct Limits {
    /// How many calls may be open inside. Each takes 16 KiB of work memory.
    pub depth: u32,
    /// How many nodes may be made. Each takes 16 bytes of work memory.
    pub room: u32,
}

/// What a call comes to.
#[derive(Clone, Debug, PartialEq, Eq, Hash)]
pub struct Value {
    /// The tree.
    pub tree: Tree,
    /// The room that was left.
    pub room: u32,
}

impl Default for Limits {
    /// A depth of 1,000 and a room of 1,000,000.
    fn default() -> Limits {
        Limits { depth: 1_000, room: 1_000_000 }
    }
}

impl Script {
    /// A script of these bytes. Calls allow it [`WAYS`].
    pub fn new(bytes: impl Into<Vec<u8>>) -> Script {
        Script { bytes: bytes.into(), ways: WAYS, memory: Mutex::default() }
    }

    /// The same script, to which calls allow so many ways.
    pub fn with_ways(self, ways: u32) -> Script {
        Script { ways, ..self }
    }

    /// Its bytes.
    pub fn bytes(&self) -> &[u8] {
        &self.bytes
    }

    /// Says whether it ends, looking at so many ways at most. [`Verdict::Few`] means that there isn't memory for so many.
    pub fn judge(&self, ways: u32) -> Verdict {
        let mut memory = self.memory();
        let work = memory.words(slices::judge_words(self.bytes.len(), ways));
        slices::judge(&self.bytes, ways, work)
    }

    /// Calls a function with trees, on a thread of its own that has the native stack for the depth.
    ///
    /// # Errors
    ///
    /// As [`Calls::call`], and [`Stop::NoStack`] if no thread with the stack for this depth can be had.
    pub fn call(&self, function: usize, args: &[Tree], limits: Limits) -> Result<Value, Stop> {
        self.calls(limits, |calls| calls.call(function, args))?
    }

    /// Makes calls with these limits, one after the other, on one thread that has the native stack for them.
    /// Starting a thread takes longer than most calls; for many it is paid once.
    ///
    /// ```
    /// use pegsienna::{Limits, Script, Tree};
    ///
    /// // f(x) = node(leaf, x)
    /// let next = Script::new([1, 2, 1, 0, 0]);
    /// let sum = next.calls(Limits { depth: 0, room: 1 }, |calls| {
    ///     (0..10).map(|n| calls.call(0, &[Tree::number(n)]).map(|value| value.tree.to_bytes().len())).sum::<Result<usize, _>>()
    /// })?;
    /// assert_eq!(sum, Ok(120));
    /// # Ok::<(), pegsienna::Stop>(())
    /// ```
    ///
    /// # Errors
    ///
    /// [`Stop::NoStack`] if no thread with the stack for this depth can be had.
    pub fn calls<T: Send>(&self, limits: Limits, work: impl FnOnce(&mut Calls<'_>) -> T + Send) -> Result<T, Stop> {
        let memory = &mut *self.memory();
        stack::with(self.stack_bytes(limits.depth), || work(&mut Calls { script: &self.bytes, ways: self.ways, limits, memory, args: Vec::new() }))
    }

    /// How much native stack a call of this depth may need.
    pub fn stack_bytes(&self, depth: u32) -> usize {
        match Outline::of(&self.bytes) {
            Ok(outline) => stack::bytes(outline.nesting, depth),
            Err(_) => stack::BASE_BYTES,
        }
    }

    fn memory(&self) -> MutexGuard<'_, Memory> {
        // what is in it doesn't matter
        self.memory.lock().unwrap_or_else(PoisonError::into_inner)
    }
}

/// Calls of one script, on a thread that has the native stack for them. [`Script::calls`] makes it.
pub struct Calls<'a> {
    script: &'a [u8],
    ways: u32,
    limits: Limits,
    memory: &'a mut Memory,
    /// The trees' bytes, kept from call to call.
    args: Vec<u8>,
}

impl Calls<'_> {
    /// Calls a function with trees.
    ///
    /// # Errors
    ///
    /// Everything but a value. [`Stop::Small`] means that there isn't memory for these limits, and [`Stop::OutFull`] that the value has more than
    /// [`MOST_VALUE_BYTES`].
    pub fn call(&mut self, function: usize, args: &[Tree]) -> Result<Value, Stop> {
        self.args.clear();
        args.iter().for_each(|tree| tree.write_bytes(&mut self.args));
        // without sharing, a value has no more nodes than were given and made
        let nodes = self.args.len() / 2 + self.limits.room as usize;
        let out = MOST_VALUE_BYTES.min(2 * nodes + 1);
        match self.call_within(function, out) {
            Err(Stop::OutFull) if out < MOST_VALUE_BYTES => self.call_within(function, MOST_VALUE_BYTES),
            answer => answer,
        }
    }

    fn call_within(&mut self, function: usize, out: usize) -> Result<Value, Stop> {
        let Limits { depth, room } = self.limits;
        let call = Call { function, args: &self.args, depth, room };
        let words = slices::go_words(self.script.len(), self.ways, call.args.len(), depth, room);
        let (work, out) = self.memory.words_and_bytes(words, out);
        let written = slices::go(self.script, self.ways, call, out, work)?;
        let tree = Tree::from_bytes(&out[..written.bytes]).expect("a value's bytes are a tree's");
        Ok(Value { tree, room: written.room })
    }
}

impl Clone for Script {
    fn clone(&self) -> Script {
        Script::new(self.bytes.clone()).with_ways(self.ways)
    }
}

impl fmt::Debug for Script {
    fn fmt(&self, f: &mut fmt::Formatter<'_>) -> fmt::Result {
        f.debug_struct("Script").field("bytes", &self.bytes).field("ways", &self.ways).finish_non_exhaustive()
    }
}

impl PartialEq for Script {
    fn eq(&self, other: &Script) -> bool {
        (&self.bytes, self.ways) == (&other.bytes, other.ways)
    }
}

impl Eq for Script {}

#[cfg(test)]
mod tests {
    use super::*;

    #[test]
    fn a_clone_is_the_same_script() {
        let script = Script::new([0, 1]).with_ways(7);
        assert_eq!(script.clone(), script);
        assert_ne!(script.clone(), Script::new([0, 1]));
    }
}
