//! A second implementation of Kavilompa's rules: the machine, its digests, the dispute, the referee and both parties.
//!
//! It shares no code with the proved programs, so that each can be compared with the other.

#![forbid(unsafe_code)]

pub mod cli;
pub mod hex;
pub mod history;
pub mod lines;
pub mod machine;
pub mod message;
pub mod party;
pub mod program;
pub mod referee;
pub mod sha256;
pub mod tree;
pub mod witness;
