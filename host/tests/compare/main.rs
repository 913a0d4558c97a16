//! The proved calls compared with a second judge and a second runner, which are plain and share no code with them.
//!
//! `cargo test --release --test compare -- --nocapture` prints how many cases were compared.

mod at_random;
mod damage;
mod floors;
mod judge;
mod large;
mod machine;
mod program;
mod random;
mod run;
mod second;
mod worked;
