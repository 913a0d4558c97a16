//! Judges small scripts, functions over binary trees, and calls those of which it can see that they end.
//!
//! What judges and what runs is proved and stands in the archive that this crate links; [`slices`] has the two calls as they are.
//! [`Script`] finds the memory and the native stack for them. [`Tree`] is what functions take and give, with a readable form; [`Listing`] shows a script.
//!
//! ```
//! use pegsienna::{Limits, Script, Tree, Verdict};
//!
//! let ack = Script::new(*include_bytes!("../../examples/ack.script"));
//! assert_eq!(ack.judge(4096), Verdict::Ends);
//! let value = ack.call(0, &[Tree::number(2), Tree::number(3)], Limits::default())?;
//! assert_eq!(value.tree.to_string(), "9");
//! # Ok::<(), pegsienna::Stop>(())
//! ```
#![cfg_attr(not(feature = "std"), no_std)]
#![warn(missing_docs)]

#[cfg(feature = "std")]
mod listing;
#[cfg(feature = "std")]
pub mod memory;
#[cfg(feature = "std")]
pub mod outline;
#[cfg(feature = "std")]
pub mod readable;
#[cfg(feature = "std")]
mod script;
pub mod slices;
#[cfg(feature = "std")]
pub mod stack;
#[cfg(feature = "std")]
mod tree;

#[cfg(feature = "std")]
pub use listing::Listing;
#[cfg(feature = "std")]
pub use script::{Calls, Limits, MOST_VALUE_BYTES, Script, Value, WAYS};
pub use slices::{Stop, Verdict};
#[cfg(feature = "std")]
pub use tree::{BadByte, BadBytes, Tree};
