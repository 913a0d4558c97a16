//! The native stack that a call may need.
//!
//! A call uses native stack for each call open inside, and in each for each expression that stands in another. So the most that it uses is
//! so many bytes for each expression around the innermost one, in each of the open calls and in the outermost.

use std::thread;

use crate::Stop;

/// What a call needs before it recurses, with much to spare.
pub const BASE_BYTES: usize = 256 * 1024;

/// What an expression that stands in another needs at most. Measured are 160 bytes.
pub const LEVEL_BYTES: usize = 256;

/// How much native stack a call may need, for a script whose expressions nest so deep. `usize::MAX` if it is more than that.
pub fn bytes(nesting: usize, depth: u32) -> usize {
    let levels = (depth as usize).saturating_add(1).saturating_mul(nesting.saturating_add(1));
    levels.saturating_mul(LEVEL_BYTES).saturating_add(BASE_BYTES)
}

/// Does something on a thread with so much native stack.
///
/// # Errors
///
/// [`Stop::NoStack`] if the system gives no thread with as much.
pub fn with<T: Send>(bytes: usize, work: impl FnOnce() -> T + Send) -> Result<T, Stop> {
    let refused = Stop::NoStack { bytes };
    if bytes > isize::MAX as usize {
        return Err(refused);
    }
    thread::scope(|scope| {
        let thread = thread::Builder::new().stack_size(bytes).spawn_scoped(scope, work).map_err(|_| refused)?;
        Ok(thread.join().unwrap_or_else(|panic| std::panic::resume_unwind(panic)))
    })
}
