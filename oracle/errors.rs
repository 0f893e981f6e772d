//! The errors that the Rust names.

#[derive(Debug)]
pub struct AceError(pub String);

/// An address, or a cell at it, that memory does not have.
#[derive(Debug)]
pub struct MemoryError;

#[derive(Debug)]
pub enum AceEvalError {
    Ace(AceError),
    Memory(MemoryError),
}

impl From<AceError> for AceEvalError {
    fn from(error: AceError) -> AceEvalError {
        AceEvalError::Ace(error)
    }
}

impl From<MemoryError> for AceEvalError {
    fn from(error: MemoryError) -> AceEvalError {
        AceEvalError::Memory(error)
    }
}
