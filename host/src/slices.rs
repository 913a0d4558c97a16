//! The two proved calls over lent slices: no allocator, no thread, no clock.
//!
//! What they need, work memory, is lent by the caller, and how many words are enough, [`judge_words`] and [`go_words`] say.
//! [`go`] uses native stack for calls that are open inside and for expressions that stand in another; `stack::bytes` says how much.

use core::error::Error;
use core::fmt;

/// What judging says of a script.
#[derive(Clone, Copy, Debug, PartialEq, Eq, Hash)]
pub enum Verdict {
    /// It is a program with the reason: it ends whatever it is called with.
    Ends,
    /// It is a program without the reason.
    NoReason,
    /// It is no program.
    NoProgram,
    /// It has more ways than were allowed.
    Many,
    /// The work memory has fewer words than [`judge_words`].
    Few,
}

/// Why a call gave no value.
#[derive(Clone, Copy, Debug, PartialEq, Eq, Hash)]
pub enum Stop {
    /// No room was left for a node.
    Full,
    /// As many calls were open inside as allowed.
    Deep,
    /// Judging the script says something else than [`Verdict::Ends`].
    Unproved,
    /// There is no such function, or it takes another number of trees.
    BadCall,
    /// The value has more bytes than there was space for.
    OutFull,
    /// The work memory has fewer words than [`go_words`], or the trees' bytes and the room are 2^32 or more together.
    Small,
    /// The native stack that a call of this depth may need can't be had. Never said by [`go`].
    NoStack {
        /// How many bytes it may need.
        bytes: usize,
    },
}

/// A value that stands first in `out`.
#[derive(Clone, Copy, Debug, PartialEq, Eq, Hash)]
pub struct Written {
    /// How many bytes it has.
    pub bytes: usize,
    /// The room that was left.
    pub room: u32,
}

/// What a script is called with.
#[derive(Clone, Copy, Debug, PartialEq, Eq)]
pub struct Call<'a> {
    /// The function's number.
    pub function: usize,
    /// The arguments' trees, as bytes one after the other.
    pub args: &'a [u8],
    /// How many calls may be open inside.
    pub depth: u32,
    /// How many nodes may be made.
    pub room: u32,
}

#[repr(C)]
struct Ran {
    answer: u32,
    room: u32,
    bytes: usize,
}

unsafe extern "C" {
    fn pegsienna_judge(program: *const u8, program_len: usize, ways: u32, work: *mut u32, work_len: usize) -> u32;
    #[allow(clippy::too_many_arguments)]
    fn pegsienna_go(
        program: *const u8,
        program_len: usize,
        ways: u32,
        function: usize,
        args: *const u8,
        args_len: usize,
        depth: u32,
        room: u32,
        out: *mut u8,
        out_len: usize,
        work: *mut u32,
        work_len: usize,
    ) -> Ran;
    safe fn pegsienna_judge_words(program_len: usize, ways: u32) -> usize;
    safe fn pegsienna_go_words(program_len: usize, ways: u32, args_len: usize, depth: u32, room: u32) -> usize;
}

/// How many words of work memory judging a script of so many bytes with so many ways takes; `usize::MAX` if they are more than that.
pub fn judge_words(script_len: usize, ways: u32) -> usize {
    pegsienna_judge_words(script_len, ways)
}

/// How many words of work memory a call takes; `usize::MAX` if they are more than that.
pub fn go_words(script_len: usize, ways: u32, args_len: usize, depth: u32, room: u32) -> usize {
    pegsienna_go_words(script_len, ways, args_len, depth, room)
}

/// Judges a script, with so many ways at most.
///
/// ```
/// use pegsienna::slices::{Verdict, judge};
///
/// let mut work = [0; 16_384 + 64 * 9 + 64 * 3];
/// // f(x): a leaf if x is one, else f(right part of x)
/// let script = [1, 3, 0, 1, 5, 0, 1, 0, 0];
/// assert_eq!(judge(&script, 3, &mut work), Verdict::Ends);
/// assert_eq!(judge(&script, 4, &mut work), Verdict::Few);
/// ```
pub fn judge(script: &[u8], ways: u32, work: &mut [u32]) -> Verdict {
    // SAFETY: both are slices, so they are aligned, hold as many elements as said and don't overlap; the call keeps neither.
    let verdict = unsafe { pegsienna_judge(script.as_ptr(), script.len(), ways, work.as_mut_ptr(), work.len()) };
    match verdict {
        0 => Verdict::Ends,
        1 => Verdict::NoReason,
        2 => Verdict::NoProgram,
        3 => Verdict::Many,
        4 => Verdict::Few,
        other => unreachable!("judging says {other}, which isn't one of its five answers"),
    }
}

/// Calls a function of a script and writes the value's bytes to `out`. The other bytes of `out` stay as they are, and without a value all do.
///
/// ```
/// use pegsienna::slices::{Call, Written, go, go_words};
///
/// // f(x) = node(leaf, x), of the tree 1
/// let (script, args) = ([1, 2, 1, 0, 0], [1, 0, 0]);
/// let mut work = [0; 32_768];
/// assert!(go_words(script.len(), 0, args.len(), 0, 1) <= work.len());
/// let mut out = [9; 6];
/// let call = Call { function: 0, args: &args, depth: 0, room: 1 };
/// assert_eq!(go(&script, 0, call, &mut out, &mut work), Ok(Written { bytes: 5, room: 0 }));
/// assert_eq!(out, [1, 0, 1, 0, 0, 9]);
/// ```
pub fn go(script: &[u8], ways: u32, call: Call<'_>, out: &mut [u8], work: &mut [u32]) -> Result<Written, Stop> {
    let Call { function, args, depth, room } = call;
    // SAFETY: all four are slices, so they are aligned and hold as many elements as said; the two that are written overlap nothing; the call keeps none.
    let ran = unsafe {
        pegsienna_go(
            script.as_ptr(),
            script.len(),
            ways,
            function,
            args.as_ptr(),
            args.len(),
            depth,
            room,
            out.as_mut_ptr(),
            out.len(),
            work.as_mut_ptr(),
            work.len(),
        )
    };
    match ran.answer {
        0 => Ok(Written { bytes: ran.bytes, room: ran.room }),
        1 => Err(Stop::Full),
        2 => Err(Stop::Deep),
        3 => Err(Stop::Unproved),
        4 => Err(Stop::BadCall),
        5 => Err(Stop::OutFull),
        6 => Err(Stop::Small),
        other => unreachable!("a call says {other}, which isn't one of its seven answers"),
    }
}

impl fmt::Display for Verdict {
    fn fmt(&self, f: &mut fmt::Formatter<'_>) -> fmt::Result {
        f.write_str(match self {
            Verdict::Ends => "ends",
            Verdict::NoReason => "no reason",
            Verdict::NoProgram => "no program",
            Verdict::Many => "many",
            Verdict::Few => "few",
        })
    }
}

impl fmt::Display for Stop {
    fn fmt(&self, f: &mut fmt::Formatter<'_>) -> fmt::Result {
        match self {
            Stop::Full => f.write_str("full"),
            Stop::Deep => f.write_str("deep"),
            Stop::Unproved => f.write_str("unproved"),
            Stop::BadCall => f.write_str("bad call"),
            Stop::OutFull => f.write_str("out full"),
            Stop::Small => f.write_str("small"),
            Stop::NoStack { bytes } => write!(f, "no stack of {bytes} bytes"),
        }
    }
}

impl Error for Stop {}
