//! A client of `keltuvar serve`: a transaction pool as a child process.
//!
//! `docs/SERVE.md` has the conversation, and `docs/FORMATS.md` the lines and their answers.
#![forbid(unsafe_code)]

mod answer;
mod pool;

pub use answer::*;
pub use pool::Pool;
