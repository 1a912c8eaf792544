//! Keys, and how each is written for the library.

use std::borrow::Cow;
use std::ffi::{OsStr, OsString};
use std::net::{IpAddr, Ipv4Addr, Ipv6Addr, SocketAddr, SocketAddrV4, SocketAddrV6};
use std::num::{
    NonZeroI8, NonZeroI16, NonZeroI32, NonZeroI64, NonZeroI128, NonZeroIsize, NonZeroU8,
    NonZeroU16, NonZeroU32, NonZeroU64, NonZeroU128, NonZeroUsize,
};
use std::path::{Path, PathBuf};
use std::rc::Rc;
use std::sync::Arc;
use std::time::Duration;

pub use crate::form::{Bytes, CowBytes, Form, Word, Words, WordsForm, Written};

use crate::form::sealed::Writing;
use crate::form::{self, pair};

/// A key that the library can store: it is written as bytes or as two words.
///
/// The library compares what keys are written as. So two keys must be written alike if and only if
/// they are equal, and if `K: Borrow<Q>`, a `Q` must be written like the `K` that it was borrowed
/// from. It is a logic error if they are not: a key may find the value of another key, or none. It
/// is never undefined behavior.
///
/// These types are keys:
///
/// - Integers, `char`, `bool`, [`Ipv4Addr`], [`Ipv6Addr`], [`SocketAddrV4`] and [`Duration`], pairs
///   of those that have at most 64 bits, and `[u64; 2]`. They are written as words, which are faster
///   to look up.
/// - Strings, and slices and arrays of bytes. They are written as bytes, which the cache copies for
///   each entry that it makes.
/// - Paths, [`IpAddr`], [`SocketAddr`], [`SocketAddrV6`], an [`Option`] of a key, all other pairs
///   of keys, such as `(String, u64)`, any three or four keys, and arrays of integers, strings and
///   pairs; of `u64`, those of at most eight. Their bytes are put together in each call.
/// - References to keys, and keys in a [`Box`], an [`Arc`], an [`Rc`] or a [`Cow`].
///
/// # Examples
///
/// A type of your own takes a few lines:
///
/// ```
/// use concurrent_lru_proved::key::{Key, Words};
///
/// /// A block of a file.
/// #[derive(Clone, Copy, PartialEq, Eq)]
/// struct Block {
///     file: u64,
///     offset: u64,
/// }
///
/// impl Key for Block {
///     type Form = Words;
///
///     fn written(&self) -> [u64; 2] {
///         [self.file, self.offset]
///     }
/// }
/// ```
///
/// If its parts are keys, they can be written as one key:
///
/// ```
/// use concurrent_lru_proved::key::{CowBytes, Key};
/// use concurrent_lru_proved::unsharded::LruCache;
/// use std::borrow::Cow;
///
/// /// A statement, as it is planned for a user.
/// #[derive(PartialEq, Eq)]
/// struct Statement {
///     text: String,
///     user: u32,
/// }
///
/// impl Key for Statement {
///     type Form = CowBytes;
///
///     fn written(&self) -> Cow<'_, [u8]> {
///         Cow::Owned((self.text.as_str(), self.user).written().into_owned())
///     }
/// }
///
/// # fn main() -> Result<(), concurrent_lru_proved::Refusal> {
/// let plans = LruCache::<Statement, &str>::new(10)?;
/// let statement = Statement { text: "SELECT 1".to_string(), user: 7 };
/// plans.insert(&statement, 1, "a plan")?;
/// assert!(plans.contains(&statement)?);
/// # Ok(())
/// # }
/// ```
#[diagnostic::on_unimplemented(
    message = "`{Self}` is no key of a cache",
    note = "strings, bytes, paths, integers, network addresses, tuples of keys and references to \
            keys are keys",
    note = "a type of your own takes a few lines: `impl concurrent_lru_proved::key::Key`"
)]
pub trait Key {
    /// [`Bytes`], [`CowBytes`], [`Word`] or [`Words`].
    type Form: Form;

    /// Returns the bytes or the words of this key.
    fn written(&self) -> Written<'_, Self::Form>;
}

/// A key that is written as words, as the keys of a [`clock::Cache`](crate::clock::Cache) must be:
/// each [`Key`] whose form is [`Word`] or [`Words`].
///
/// These are integers, `char`, `bool`, [`Ipv4Addr`], [`Ipv6Addr`], [`SocketAddrV4`] and
/// [`Duration`], pairs of those that have at most 64 bits, `[u64; 2]`, and types of your own that
/// are written as words. Strings and other keys that are written as bytes are not.
pub trait WordsKey: Key {
    /// Returns the words of this key.
    fn words(&self) -> [u64; 2];
}

impl<K: Key<Form: WordsForm> + ?Sized> WordsKey for K {
    #[inline]
    fn words(&self) -> [u64; 2] {
        K::Form::raw(&self.written())
    }
}

impl<K: Key + ?Sized> Key for &K {
    type Form = K::Form;

    fn written(&self) -> Written<'_, K::Form> {
        (**self).written()
    }
}

impl<K: Key + ?Sized> Key for Box<K> {
    type Form = K::Form;

    fn written(&self) -> Written<'_, K::Form> {
        (**self).written()
    }
}

impl<K: Key + ?Sized> Key for Arc<K> {
    type Form = K::Form;

    fn written(&self) -> Written<'_, K::Form> {
        (**self).written()
    }
}

impl<K: Key + ToOwned + ?Sized> Key for Cow<'_, K> {
    type Form = K::Form;

    fn written(&self) -> Written<'_, K::Form> {
        (**self).written()
    }
}

impl<K: Key + ?Sized> Key for Rc<K> {
    type Form = K::Form;

    fn written(&self) -> Written<'_, K::Form> {
        (**self).written()
    }
}

macro_rules! written_as_bytes {
    ($($key:ty: $bytes:expr;)*) => {$(
        impl Key for $key {
            type Form = Bytes;

            #[inline]
            fn written(&self) -> &[u8] {
                let bytes: fn(&$key) -> &[u8] = $bytes;
                bytes(self)
            }
        }
    )*};
}

written_as_bytes! {
    [u8]: |key| key;
    Vec<u8>: |key| key;
    str: |key| key.as_bytes();
    String: |key| key.as_bytes();
    OsStr: |key| key.as_encoded_bytes();
    OsString: |key| key.as_encoded_bytes();
}

impl<const N: usize> Key for [u8; N] {
    type Form = Bytes;

    fn written(&self) -> &[u8] {
        self
    }
}

macro_rules! written_as_a_word {
    ($($key:ty: $word:expr;)*) => {$(
        impl Key for $key {
            type Form = Word;

            #[inline]
            fn written(&self) -> [u64; 2] {
                let word: fn($key) -> u64 = $word;
                [0, word(*self)]
            }
        }
    )*};
}

// Signed integers are extended to 64 bits, so different numbers stay different.
written_as_a_word! {
    bool: u64::from;
    char: u64::from;
    u8: u64::from;
    u16: u64::from;
    u32: u64::from;
    u64: |key| key;
    usize: |key| key as u64;
    i8: |key| key as u64;
    i16: |key| key as u64;
    i32: |key| key as u64;
    i64: |key| key as u64;
    isize: |key| key as u64;
    NonZeroU8: |key| key.get() as u64;
    NonZeroU16: |key| key.get() as u64;
    NonZeroU32: |key| key.get() as u64;
    NonZeroU64: |key| key.get();
    NonZeroUsize: |key| key.get() as u64;
    NonZeroI8: |key| key.get() as u64;
    NonZeroI16: |key| key.get() as u64;
    NonZeroI32: |key| key.get() as u64;
    NonZeroI64: |key| key.get() as u64;
    NonZeroIsize: |key| key.get() as u64;
    Ipv4Addr: |key| u32::from(key).into();
    SocketAddrV4: |key| u64::from(u32::from(*key.ip())) << 16 | u64::from(key.port());
}

macro_rules! written_as_words {
    ($($key:ty: $words:expr;)*) => {$(
        impl Key for $key {
            type Form = Words;

            #[inline]
            fn written(&self) -> [u64; 2] {
                let words: fn($key) -> [u64; 2] = $words;
                words(*self)
            }
        }
    )*};
}

written_as_words! {
    u128: |key| [(key >> 64) as u64, key as u64];
    i128: |key| (key as u128).written();
    Ipv6Addr: |key| u128::from(key).written();
    NonZeroU128: |key| key.get().written();
    NonZeroI128: |key| key.get().written();
    Duration: |key| [key.as_secs(), key.subsec_nanos().into()];
    [u64; 2]: |key| key;
}

/// Pairs of two keys of at most 64 bits are written as words, and all others as bytes.
impl<A: Key, B: Key> Key for (A, B) {
    type Form = <A::Form as Writing>::Before<B::Form>;

    #[inline]
    fn written(&self) -> Written<'_, Self::Form> {
        pair::<A::Form, B::Form>(self.0.written(), self.1.written())
    }
}

/// Equal paths may differ in their bytes, such as `a/b` and `a//b/`, but not in their components.
impl Key for Path {
    type Form = CowBytes;

    fn written(&self) -> Cow<'_, [u8]> {
        // A root has one slash more, as it is a slash itself.
        let mut bytes = Vec::with_capacity(self.as_os_str().len() + 2);
        for component in self.components() {
            bytes.extend_from_slice(component.as_os_str().as_encoded_bytes());
            bytes.push(b'/');
        }
        bytes.into()
    }
}

impl Key for PathBuf {
    type Form = CowBytes;

    fn written(&self) -> Cow<'_, [u8]> {
        self.as_path().written()
    }
}

impl Key for IpAddr {
    type Form = CowBytes;

    fn written(&self) -> Cow<'_, [u8]> {
        match self {
            IpAddr::V4(address) => address.octets().to_vec().into(),
            IpAddr::V6(address) => address.octets().to_vec().into(),
        }
    }
}

impl Key for SocketAddrV6 {
    type Form = CowBytes;

    fn written(&self) -> Cow<'_, [u8]> {
        let parts = (*self.ip(), self.port(), self.flowinfo(), self.scope_id());
        Cow::Owned(parts.written().into_owned())
    }
}

impl Key for SocketAddr {
    type Form = CowBytes;

    fn written(&self) -> Cow<'_, [u8]> {
        let mut bytes = Vec::new();
        match self {
            SocketAddr::V4(address) => append(address, &mut bytes),
            SocketAddr::V6(address) => append(address, &mut bytes),
        }
        bytes.into()
    }
}

impl<K: Key> Key for Option<K> {
    type Form = CowBytes;

    fn written(&self) -> Cow<'_, [u8]> {
        // `None` has no bytes, and `append` adds some for each key.
        let mut bytes = Vec::new();
        if let Some(key) = self {
            append(key, &mut bytes);
        }
        bytes.into()
    }
}

/// Implements `written` for a tuple with these fields.
macro_rules! written_one_after_another {
    ($($field:tt)*) => {
        type Form = CowBytes;

        fn written(&self) -> Cow<'_, [u8]> {
            let mut bytes = Vec::new();
            $(append(&self.$field, &mut bytes);)*
            bytes.into()
        }
    };
}

fn append<K: Key>(key: &K, bytes: &mut Vec<u8>) {
    form::append::<K::Form>(&key.written(), bytes);
}

/// Implements `written` for an array.
macro_rules! written_item_by_item {
    () => {
        type Form = CowBytes;

        fn written(&self) -> Cow<'_, [u8]> {
            let mut bytes = Vec::new();
            self.iter().for_each(|key| append(key, &mut bytes));
            bytes.into()
        }
    };
}

/// Arrays of these types, of any length. Those of bytes have a form of their own.
macro_rules! arrays_of {
    ($([$($parameter:tt)*] $key:ty;)*) => {$(
        impl<$($parameter)* const N: usize> Key for [$key; N] {
            written_item_by_item!();
        }
    )*};
}

arrays_of! {
    [] bool;
    [] char;
    [] u16;
    [] u32;
    [] usize;
    [] u128;
    [] i8;
    [] i16;
    [] i32;
    [] i64;
    [] isize;
    [] i128;
    [] String;
    [] PathBuf;
    [K: Key + ?Sized,] &K;
    [K: Key + ?Sized,] Arc<K>;
    [A: Key, B: Key,] (A, B);
}

/// Arrays of `u64` of these lengths. Those of two are written as words.
macro_rules! arrays_of_words {
    ($($length:literal)*) => {$(
        impl Key for [u64; $length] {
            written_item_by_item!();
        }
    )*};
}

arrays_of_words!(1 3 4 5 6 7 8);

impl<A: Key, B: Key, C: Key> Key for (A, B, C) {
    written_one_after_another!(0 1 2);
}

impl<A: Key, B: Key, C: Key, D: Key> Key for (A, B, C, D) {
    written_one_after_another!(0 1 2 3);
}
