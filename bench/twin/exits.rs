//! Why code does not go on.
use crate::journal::Refusal;
use crate::store::Down;

/// An exception that the runtime environment throws.
#[derive(Clone, Copy, PartialEq)]
pub enum Exception {
    Arithmetic,
    ArrayIndexOutOfBounds,
    ArrayStore,
    ClassCast,
    NegativeArraySize,
    NullPointer,
    Security,
    // SystemException, by its reasons from 1 on
    IllegalValue,
    NoTransientSpace,
    IllegalTransient,
    IllegalAid,
    NoResource,
    // TransactionException, likewise
    InProgress,
    NotInProgress,
    BufferFull,
    // APDUException, likewise
    IllegalUse,
    BufferBounds,
    BadLength,
}

/// Why an instruction does not go on to the next. What comes with it lies in the memory: so it is a byte, which goes from call to call
/// in a register.
#[derive(Clone, Copy)]
pub enum Exit {
    /// The code is wrong: the run ends, and nothing catches it.
    Fault,
    Throw(Exception),
    /// An object is thrown: `Memory::thrown`.
    ThrowObject,
    /// The first method returned: `Memory::returned`.
    Return,
    Down,
}

impl From<Exception> for Exit {
    fn from(exception: Exception) -> Self {
        Exit::Throw(exception)
    }
}

impl From<Down> for Exit {
    fn from(_: Down) -> Self {
        Exit::Down
    }
}

impl From<Refusal> for Exit {
    fn from(refusal: Refusal) -> Self {
        match refusal {
            Refusal::Full => Exception::BufferFull.into(),
            Refusal::Down => Exit::Down,
        }
    }
}
