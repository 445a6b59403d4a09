//! A stand-in for the crate's rule of indentation, which `options.rs` names; no answer here depends on it.

#[derive(Clone, Copy, Debug)]
pub enum RequireIndent {
    Unchecked,
}

impl RequireIndent {
    pub fn validate(&self) -> Result<(), crate::de_error::Error> {
        Ok(())
    }
}
