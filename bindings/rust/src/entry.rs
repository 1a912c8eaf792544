//! A value of a cache, as a visit of all values shows it.

/// A value of a cache by reference, with its key. `for_each` of a cache passes one for each value.
///
/// `W` is what keys are written as ([`Key::written`](crate::key::Key::written)), which is what the
/// library stores of a key: `&[u8]` for strings and slices of bytes, `[u64; 2]` for integers and
/// pairs of them, and `Cow<[u8]>` for keys of several parts.
#[derive(Debug, Clone, Copy, PartialEq, Eq)]
#[non_exhaustive]
pub struct EntryRef<'a, V, W> {
    /// The key, as it is written.
    pub key: W,
    /// The value.
    pub value: &'a V,
    /// What the value counts for against the capacity.
    pub charge: u64,
    /// How many handles the value has: 0 if it is idle.
    pub pins: u32,
}
