//! A stand-in for the crate's error, which `options.rs` names; no answer here depends on it.

#[derive(Debug)]
pub struct Error;
