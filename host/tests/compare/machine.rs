//! The proved calls, lent just as many words as they take and bytes that are looked at afterwards.

use std::thread;

use pegsienna::memory::Memory;
use pegsienna::slices::{self, Call, Stop, Verdict};

const UNTOUCHED: u8 = 0xa5;
const BEHIND: u32 = 0xdead_beef;

/// A value's bytes and the room left, or why there is none.
pub type Answer = Result<(Vec<u8>, u32), Stop>;

#[derive(Default)]
pub struct Machine {
    memory: Memory,
}

impl Machine {
    pub fn judge(&mut self, script: &[u8], ways: u32) -> Verdict {
        let floor = slices::judge_words(script.len(), ways);
        let work = self.memory.words(floor + 1);
        work[floor] = BEHIND;
        let verdict = slices::judge(script, ways, &mut work[..floor]);
        assert_eq!(work[floor], BEHIND, "a word behind the work memory was changed");
        verdict
    }

    pub fn go(&mut self, script: &[u8], ways: u32, call: Call<'_>, out_len: usize) -> Answer {
        let floor = slices::go_words(script.len(), ways, call.args.len(), call.depth, call.room);
        let (work, out) = self.memory.words_and_bytes(floor + 1, out_len + 1);
        work[floor] = BEHIND;
        out.fill(UNTOUCHED);
        let ran = slices::go(script, ways, call, &mut out[..out_len], &mut work[..floor]);
        assert_eq!(work[floor], BEHIND, "a word behind the work memory was changed");
        let (value, others) = out.split_at(ran.map_or(0, |written| written.bytes));
        assert!(others.iter().all(|&byte| byte == UNTOUCHED), "bytes of out were changed that are not the value's");
        ran.map(|written| (value.to_vec(), written.room))
    }

    /// The number of a script's ways, if it is a program and has at most so many: the least number with which judging doesn't say many.
    pub fn number_of_ways(&mut self, script: &[u8], most: u32) -> Option<u32> {
        if self.judge(script, most) == Verdict::Many {
            return None;
        }
        let (mut low, mut high) = (0, most);
        while low < high {
            let middle = low + (high - low) / 2;
            if self.judge(script, middle) == Verdict::Many {
                low = middle + 1;
            } else {
                high = middle;
            }
        }
        Some(low)
    }
}

/// Does something with native stack for every comparison here.
pub fn with_stack<T: Send>(work: impl FnOnce() -> T + Send) -> T {
    pegsienna::stack::with(1 << 30, work).expect("a thread with a stack of 1 GiB")
}

/// Does something with each item, on as many threads as there are processors.
pub fn for_each<T: Sync, C: Default + Send>(items: &[T], work: impl Fn(&mut Machine, &mut C, &T) + Sync) -> Vec<C> {
    let threads = thread::available_parallelism().map_or(1, usize::from);
    thread::scope(|scope| {
        let part = |first: usize| {
            let work = &work;
            scope.spawn(move || {
                with_stack(|| {
                    let (mut machine, mut counts) = (Machine::default(), C::default());
                    items.iter().skip(first).step_by(threads).for_each(|item| work(&mut machine, &mut counts, item));
                    counts
                })
            })
        };
        let started: Vec<_> = (0..threads).map(part).collect();
        started.into_iter().map(|thread| thread.join().unwrap()).collect()
    })
}
