//! The reasons why a call fails.

use std::collections::TryReserveError;
use std::convert::Infallible;
use std::error::Error;
use std::fmt;
use std::io;

/// The reason why the cache refused a call. The cache did not change, unless the call says so. If
/// there are several reasons, this may be any of them.
#[derive(Debug, Clone, Copy, PartialEq, Eq, Hash)]
#[non_exhaustive]
pub enum Refusal {
    /// The cache could not allocate memory. The call can be repeated.
    Memory,
    /// A number would overflow: the total of all charges would exceed `u64::MAX`, a value would get
    /// more than `u32::MAX` handles, or about a billion in a [`clock::Cache`](crate::clock::Cache),
    /// or `u64::MAX` values have been made.
    Overflow,
    /// The charge was 0.
    ZeroCharge,
    /// The limit is strict, and the capacity has no room for the new value beside those that are
    /// pinned.
    Full,
}

impl fmt::Display for Refusal {
    fn fmt(&self, f: &mut fmt::Formatter<'_>) -> fmt::Result {
        f.write_str(match self {
            Refusal::Memory => "the cache could not allocate memory",
            Refusal::Overflow => "a number of the cache would overflow",
            Refusal::ZeroCharge => "the charge is 0",
            Refusal::Full => "the cache is full of pinned values",
        })
    }
}

impl Error for Refusal {}

/// What `try_reserve` of a list or a map returned, as the refusal of a call.
pub(crate) fn room(reserved: Result<(), TryReserveError>) -> Result<(), Refusal> {
    reserved.map_err(|_| Refusal::Memory)
}

/// The reason why `get_or_try_init` returns no handle.
#[derive(Debug, Clone, Copy, PartialEq, Eq, Hash)]
pub enum GetError<E> {
    /// `init` failed with this error. The cache keeps no entry.
    Init(E),
    /// The cache refused the call.
    Refused(Refusal),
}

impl GetError<Infallible> {
    /// The refusal, if `init` cannot fail.
    pub(crate) fn into_refusal(self) -> Refusal {
        match self {
            GetError::Init(never) => match never {},
            GetError::Refused(refusal) => refusal,
        }
    }
}

impl<E> From<Refusal> for GetError<E> {
    fn from(refusal: Refusal) -> Self {
        GetError::Refused(refusal)
    }
}

/// So that `?` passes on the error of an `init` that reads or opens something.
impl From<GetError<io::Error>> for io::Error {
    fn from(error: GetError<io::Error>) -> Self {
        match error {
            GetError::Init(error) => error,
            GetError::Refused(refusal) => refusal.into(),
        }
    }
}

impl From<Refusal> for io::Error {
    fn from(refusal: Refusal) -> Self {
        match refusal {
            Refusal::Memory => io::ErrorKind::OutOfMemory.into(),
            Refusal::Overflow | Refusal::Full => io::Error::other(refusal),
            Refusal::ZeroCharge => io::Error::new(io::ErrorKind::InvalidInput, refusal),
        }
    }
}

impl<E> fmt::Display for GetError<E> {
    fn fmt(&self, f: &mut fmt::Formatter<'_>) -> fmt::Result {
        match self {
            GetError::Init(_) => f.write_str("the value could not be made"),
            GetError::Refused(refusal) => refusal.fmt(f),
        }
    }
}

impl<E: Error + 'static> Error for GetError<E> {
    fn source(&self) -> Option<&(dyn Error + 'static)> {
        match self {
            GetError::Init(error) => Some(error),
            GetError::Refused(_) => None,
        }
    }
}
