//! What the second judge and runner say of a call.

use pegsienna::slices::{Call, Stop, Verdict};

use crate::judge::{self, Judged};
use crate::machine::Answer;
use crate::program::Fun;
use crate::run::{self, Bad, Tree};

pub fn judge(script: &[u8], ways: u32) -> Verdict {
    match judge::judge(script, ways as usize) {
        Judged::Ends => Verdict::Ends,
        Judged::NoReason => Verdict::NoReason,
        Judged::NoProgram => Verdict::NoProgram,
        Judged::Many => Verdict::Many,
    }
}

/// A call of a program that has the reason. None if it takes more steps than said.
pub fn run(program: &[Fun], call: Call<'_>, out: usize, steps: u64) -> Option<Answer> {
    let args = Tree::read(call.args).filter(|args| program.get(call.function).is_some_and(|fun| fun.args == args.len()));
    let Some(args) = args else { return Some(Err(Stop::BadCall)) };
    match run::call(program, call.function, &args, call.depth, call.room, steps) {
        Ok(value) => Some(value.tree.bytes(out).map(|bytes| (bytes, value.room)).ok_or(Stop::OutFull)),
        Err(Bad::Full) => Some(Err(Stop::Full)),
        Err(Bad::Deep) => Some(Err(Stop::Deep)),
        Err(Bad::Long) => None,
    }
}
