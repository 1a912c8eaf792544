//! The forms of keys, and the functions of the library for each.

use std::borrow::Cow;
use std::sync::Arc;

use crate::error::{self, Refusal};
use crate::ffi::{self, Handle, Pin, Told};
use crate::hash::hash_of;

use sealed::{Calls, Writing};

/// The form that a key is written in: [`Bytes`], [`CowBytes`], [`Word`] or [`Words`].
///
/// This trait is sealed, as the library has functions for bytes and for two words.
pub trait Form: Writing {}

impl<F: Writing> Form for F {}

/// A form of keys that are written as two words: [`Word`] or [`Words`]. This trait is sealed too.
#[diagnostic::on_unimplemented(
    message = "a key of the form `{Self}` is not written as words",
    note = "integers, pairs of integers, and types of your own that are written as `Words` are"
)]
pub trait WordsForm: Writing<Calls = Words> {}

impl WordsForm for Word {}

impl WordsForm for Words {}

/// A key as it is written: `&[u8]` for [`Bytes`], `Cow<[u8]>` for [`CowBytes`], `[u64; 2]` for
/// [`Word`] and [`Words`].
pub type Written<'a, F> = <F as Writing>::Written<'a>;

/// The functions of the library for keys of a form.
pub(crate) type CallsOf<F> = <F as Writing>::Calls;

/// A key of a form with the hash that the library takes for it.
pub(crate) type Hashed<'a, F> = <CallsOf<F> as Calls>::Hashed<'a>;

/// Hashes a key, before the lock is taken. The seed is the same for all calls on a cache.
#[inline]
pub(crate) fn hashed<'a, F: Form>(key: &'a Written<'_, F>, seed: u64) -> Hashed<'a, F> {
    CallsOf::<F>::hashed(F::raw(key), seed)
}

/// Writes two keys as one. Different pairs are written differently.
#[inline]
pub(crate) fn pair<'a, A: Form, B: Form>(
    one: Written<'_, A>,
    other: Written<'_, B>,
) -> Written<'a, A::Before<B>> {
    A::before::<B>(one, other)
}

pub(crate) mod sealed {
    use std::hash::Hash;

    use super::{Handle, Pin, Refusal, Told};

    /// How keys of one form are written.
    pub trait Writing: 'static {
        /// A key of this form.
        type Written<'a>;

        /// The functions of the library for keys of this form.
        type Calls: Calls;

        /// The form of a pair of a key of this form and one of another form.
        type Before<B: Writing>: Writing;

        /// The form of a pair of a word and a key of this form.
        type AfterWord: Writing;

        /// What the library takes.
        fn raw<'a>(key: &'a Self::Written<'_>) -> <Self::Calls as Calls>::Raw<'a>;

        /// The key that the library tells.
        fn of_raw(raw: <Self::Calls as Calls>::Raw<'_>) -> Self::Written<'_>;

        /// Writes a pair.
        fn before<'a, B: Writing>(
            key: Self::Written<'_>,
            other: B::Written<'_>,
        ) -> <Self::Before<B> as Writing>::Written<'a>;

        /// Writes a pair of a word and a key.
        fn after_word<'a>(
            word: u64,
            key: Self::Written<'_>,
        ) -> <Self::AfterWord as Writing>::Written<'a>;
    }

    /// The functions of `lru.h` that take a key, for one kind of keys.
    ///
    /// # Safety
    ///
    /// `cache` must point to a cache and `gone` to a chain. They must be the only copies of these
    /// handles, and nothing else may use them during the call.
    pub trait Calls: 'static {
        /// A key of this kind.
        type Raw<'a>: Copy;

        /// A key of this kind as the functions take it: bytes with their hash.
        type Hashed<'a>: Copy;

        /// A copy of a key.
        type Copied: Clone + Eq + Hash + Send;

        /// Where the key of an entry is copied to.
        type Room: Default;

        /// The kind of keys with which a cache is opened.
        const KIND: u32;

        /// Appends a key to the bytes of a longer one, so that different keys never begin alike.
        fn append(key: Self::Raw<'_>, bytes: &mut Vec<u8>);

        /// Hashes a key.
        fn hashed(key: Self::Raw<'_>, seed: u64) -> Self::Hashed<'_>;

        /// Copies a key, for a cache that has a listener.
        fn copied(key: Self::Hashed<'_>) -> Self::Copied;

        /// The key that was copied.
        fn of_copy(copied: &Self::Copied) -> Self::Raw<'_>;

        /// Copies the key of an entry, which may have no value yet. Returns [`Refusal::Memory`] if
        /// the room cannot be made large enough; it never has to be for a key that was copied to
        /// it before.
        ///
        /// # Safety
        ///
        /// As for [`Calls`], and the cache has the entry.
        unsafe fn key_of(
            cache: *mut Handle,
            pin: Pin,
            room: &mut Self::Room,
        ) -> Result<Self::Raw<'_>, Refusal>;

        /// # Safety
        ///
        /// As for [`Calls`].
        unsafe fn begin(
            cache: *mut Handle,
            key: Self::Hashed<'_>,
            charge: u64,
            strict: bool,
            gone: *mut Handle,
        ) -> Told;

        /// # Safety
        ///
        /// As for [`Calls`].
        unsafe fn get(cache: *mut Handle, key: Self::Hashed<'_>) -> Told;

        /// # Safety
        ///
        /// As for [`Calls`].
        unsafe fn contains(cache: *mut Handle, key: Self::Hashed<'_>) -> u32;

        /// Is `advice_evict`, or `invalidate` if `even_held` says so.
        ///
        /// # Safety
        ///
        /// As for [`Calls`].
        unsafe fn evict(
            cache: *mut Handle,
            key: Self::Hashed<'_>,
            even_held: bool,
            gone: *mut Handle,
        ) -> u32;

        /// # Safety
        ///
        /// As for [`Calls`].
        unsafe fn insert(
            cache: *mut Handle,
            key: Self::Hashed<'_>,
            charge: u64,
            value: u64,
            strict: bool,
            gone: *mut Handle,
        ) -> Told;
    }
}

/// The form of keys that are written as the bytes that they have.
#[derive(Debug)]
pub enum Bytes {}

unsafe extern "C" {
    fn lru_bytes_key_of_nonnull(cache: *mut Handle, pin: Pin, buffer: *mut u8, room: usize)
    -> Told;
    fn lru_bytes_begin_nonnull(
        cache: *mut Handle,
        key: *const u8,
        length: usize,
        hash: u64,
        charge: u64,
        strict: bool,
        gone: *mut Handle,
    ) -> Told;
    fn lru_bytes_get_nonnull(cache: *mut Handle, key: *const u8, length: usize, hash: u64) -> Told;
    fn lru_bytes_contains_nonnull(
        cache: *mut Handle,
        key: *const u8,
        length: usize,
        hash: u64,
    ) -> u32;
    fn lru_bytes_evict_nonnull(
        cache: *mut Handle,
        key: *const u8,
        length: usize,
        hash: u64,
        even_held: bool,
        gone: *mut Handle,
    ) -> u32;
    fn lru_bytes_insert_nonnull(
        cache: *mut Handle,
        key: *const u8,
        length: usize,
        hash: u64,
        charge: u64,
        value: u64,
        strict: bool,
        gone: *mut Handle,
    ) -> Told;
}

/// Bytes with their hash.
#[derive(Clone, Copy, Debug)]
pub struct HashedBytes<'a> {
    bytes: &'a [u8],
    hash: u64,
}

impl<'a> HashedBytes<'a> {
    #[inline]
    fn of(bytes: &'a [u8], seed: u64) -> HashedBytes<'a> {
        HashedBytes {
            bytes,
            hash: hash_of(bytes, seed),
        }
    }
}

impl Calls for Bytes {
    type Raw<'a> = &'a [u8];
    type Hashed<'a> = HashedBytes<'a>;
    type Copied = Arc<[u8]>;
    type Room = Vec<u8>;

    const KIND: u32 = ffi::BYTES;

    fn append(key: &[u8], bytes: &mut Vec<u8>) {
        bytes.extend_from_slice(&(key.len() as u64).to_ne_bytes());
        bytes.extend_from_slice(key);
    }

    #[inline]
    fn hashed(key: Self::Raw<'_>, seed: u64) -> Self::Hashed<'_> {
        HashedBytes::of(key, seed)
    }

    fn copied(key: HashedBytes<'_>) -> Arc<[u8]> {
        key.bytes.into()
    }

    fn of_copy(copied: &Arc<[u8]>) -> &[u8] {
        copied
    }

    unsafe fn key_of(cache: *mut Handle, pin: Pin, room: &mut Vec<u8>) -> Result<&[u8], Refusal> {
        let at = room.as_mut_ptr();
        // SAFETY: the pointer of a vector is not null and points to its bytes. The caller
        // guarantees the rest.
        let mut told = unsafe { lru_bytes_key_of_nonnull(cache, pin, at, room.len()) };
        if told.code == ffi::NO_ROOM {
            // The key is in memory, so its length fits.
            let length = told.value as usize;
            error::room(room.try_reserve(length - room.len()))?;
            room.resize(length, 0);
            // SAFETY: as above.
            told = unsafe { lru_bytes_key_of_nonnull(cache, pin, room.as_mut_ptr(), length) };
        }
        debug_assert_eq!(told.code, ffi::NUMBER);
        Ok(&room[..told.value as usize])
    }

    #[inline]
    unsafe fn begin(
        cache: *mut Handle,
        key: HashedBytes<'_>,
        charge: u64,
        strict: bool,
        gone: *mut Handle,
    ) -> Told {
        let (at, length) = (key.bytes.as_ptr(), key.bytes.len());
        // SAFETY: the pointer of a slice is not null and points to its bytes, of which there are
        // fewer than 2^63. The caller guarantees the rest.
        unsafe { lru_bytes_begin_nonnull(cache, at, length, key.hash, charge, strict, gone) }
    }

    #[inline]
    unsafe fn get(cache: *mut Handle, key: HashedBytes<'_>) -> Told {
        // SAFETY: as in `begin`.
        unsafe { lru_bytes_get_nonnull(cache, key.bytes.as_ptr(), key.bytes.len(), key.hash) }
    }

    unsafe fn contains(cache: *mut Handle, key: HashedBytes<'_>) -> u32 {
        // SAFETY: as in `begin`.
        unsafe { lru_bytes_contains_nonnull(cache, key.bytes.as_ptr(), key.bytes.len(), key.hash) }
    }

    unsafe fn evict(
        cache: *mut Handle,
        key: HashedBytes<'_>,
        even_held: bool,
        gone: *mut Handle,
    ) -> u32 {
        let (at, length) = (key.bytes.as_ptr(), key.bytes.len());
        // SAFETY: as in `begin`.
        unsafe { lru_bytes_evict_nonnull(cache, at, length, key.hash, even_held, gone) }
    }

    unsafe fn insert(
        cache: *mut Handle,
        key: HashedBytes<'_>,
        charge: u64,
        value: u64,
        strict: bool,
        gone: *mut Handle,
    ) -> Told {
        let (at, length) = (key.bytes.as_ptr(), key.bytes.len());
        // SAFETY: as in `begin`.
        unsafe {
            lru_bytes_insert_nonnull(cache, at, length, key.hash, charge, value, strict, gone)
        }
    }
}

/// The bytes of a pair.
fn pair_of_bytes<A: Writing, B: Writing>(
    one: A::Written<'_>,
    other: B::Written<'_>,
) -> Cow<'static, [u8]> {
    let mut bytes = Vec::new();
    append::<A>(&one, &mut bytes);
    append::<B>(&other, &mut bytes);
    bytes.into()
}

/// Appends a key to the bytes of a longer one, so that different keys never begin alike.
pub(crate) fn append<F: Writing>(key: &F::Written<'_>, bytes: &mut Vec<u8>) {
    CallsOf::<F>::append(F::raw(key), bytes);
}

/// What forms have in common whose pairs are all written as bytes.
macro_rules! pairs_are_bytes {
    () => {
        type Before<B: Writing> = CowBytes;
        type AfterWord = CowBytes;

        fn before<'a, B: Writing>(
            key: Self::Written<'_>,
            other: B::Written<'_>,
        ) -> <Self::Before<B> as Writing>::Written<'a> {
            pair_of_bytes::<Self, B>(key, other)
        }

        fn after_word<'a>(
            word: u64,
            key: Self::Written<'_>,
        ) -> <Self::AfterWord as Writing>::Written<'a> {
            pair_of_bytes::<Word, Self>([0, word], key)
        }
    };
}

impl Writing for Bytes {
    type Written<'a> = &'a [u8];
    type Calls = Bytes;

    #[inline]
    fn raw<'a>(key: &'a &[u8]) -> &'a [u8] {
        key
    }

    fn of_raw(raw: <Self::Calls as Calls>::Raw<'_>) -> Self::Written<'_> {
        raw
    }

    pairs_are_bytes!();
}

/// The form of keys that are written as bytes, which may have to be put together for each call.
///
/// If there is no memory for the bytes, the program ends, as usual.
#[derive(Debug)]
pub enum CowBytes {}

impl Writing for CowBytes {
    type Written<'a> = Cow<'a, [u8]>;
    type Calls = Bytes;

    fn raw<'a>(key: &'a Cow<'_, [u8]>) -> &'a [u8] {
        key
    }

    fn of_raw(raw: <Self::Calls as Calls>::Raw<'_>) -> Self::Written<'_> {
        Cow::Borrowed(raw)
    }

    pairs_are_bytes!();
}

/// The form of keys that are written as two words.
#[derive(Debug)]
pub enum Words {}

impl Writing for Words {
    type Written<'a> = [u64; 2];
    type Calls = Words;

    #[inline]
    fn raw(key: &[u64; 2]) -> [u64; 2] {
        *key
    }

    fn of_raw(raw: <Self::Calls as Calls>::Raw<'_>) -> Self::Written<'_> {
        raw
    }

    pairs_are_bytes!();
}

/// The form of keys that are written as two words, the first of which is 0, as integers are. A pair
/// of such keys is written as their second words.
#[derive(Debug)]
pub enum Word {}

impl Writing for Word {
    type Written<'a> = [u64; 2];
    type Calls = Words;
    type Before<B: Writing> = B::AfterWord;
    type AfterWord = Words;

    #[inline]
    fn raw(key: &[u64; 2]) -> [u64; 2] {
        *key
    }

    fn of_raw(raw: <Self::Calls as Calls>::Raw<'_>) -> Self::Written<'_> {
        raw
    }

    #[inline]
    fn before<'a, B: Writing>(
        [_, word]: Self::Written<'_>,
        other: B::Written<'_>,
    ) -> <Self::Before<B> as Writing>::Written<'a> {
        B::after_word(word, other)
    }

    #[inline]
    fn after_word<'a>(
        word: u64,
        [_, other]: Self::Written<'_>,
    ) -> <Self::AfterWord as Writing>::Written<'a> {
        [word, other]
    }
}

unsafe extern "C" {
    fn lru_words_key_of(cache: *mut Handle, pin: Pin, first: *mut u64, second: *mut u64) -> u32;
    fn lru_words_begin(
        cache: *mut Handle,
        first: u64,
        second: u64,
        charge: u64,
        strict: bool,
        gone: *mut Handle,
    ) -> Told;
    fn lru_words_get(cache: *mut Handle, first: u64, second: u64) -> Told;
    fn lru_words_contains(cache: *mut Handle, first: u64, second: u64) -> u32;
    fn lru_words_evict(
        cache: *mut Handle,
        first: u64,
        second: u64,
        even_held: bool,
        gone: *mut Handle,
    ) -> u32;
    fn lru_words_insert(
        cache: *mut Handle,
        first: u64,
        second: u64,
        charge: u64,
        value: u64,
        strict: bool,
        gone: *mut Handle,
    ) -> Told;
}

// The library hashes the words, which takes no longer than to pass a hash.
impl Calls for Words {
    type Raw<'a> = [u64; 2];
    type Hashed<'a> = [u64; 2];
    type Copied = [u64; 2];
    type Room = ();

    const KIND: u32 = ffi::WORDS;

    fn append([first, second]: [u64; 2], bytes: &mut Vec<u8>) {
        bytes.extend_from_slice(&first.to_ne_bytes());
        bytes.extend_from_slice(&second.to_ne_bytes());
    }

    #[inline]
    fn hashed(key: Self::Raw<'_>, _seed: u64) -> Self::Hashed<'_> {
        key
    }

    fn copied(key: [u64; 2]) -> [u64; 2] {
        key
    }

    fn of_copy(copied: &[u64; 2]) -> [u64; 2] {
        *copied
    }

    unsafe fn key_of(cache: *mut Handle, pin: Pin, _room: &mut ()) -> Result<[u64; 2], Refusal> {
        let [mut first, mut second] = [0; 2];
        // SAFETY: the caller guarantees what the function requires.
        let code = unsafe { lru_words_key_of(cache, pin, &mut first, &mut second) };
        debug_assert_eq!(code, ffi::DONE);
        Ok([first, second])
    }

    #[inline]
    unsafe fn begin(
        cache: *mut Handle,
        [first, second]: [u64; 2],
        charge: u64,
        strict: bool,
        gone: *mut Handle,
    ) -> Told {
        // SAFETY: the caller guarantees what the function requires.
        unsafe { lru_words_begin(cache, first, second, charge, strict, gone) }
    }

    #[inline]
    unsafe fn get(cache: *mut Handle, [first, second]: [u64; 2]) -> Told {
        // SAFETY: as in `begin`.
        unsafe { lru_words_get(cache, first, second) }
    }

    unsafe fn contains(cache: *mut Handle, [first, second]: [u64; 2]) -> u32 {
        // SAFETY: as in `begin`.
        unsafe { lru_words_contains(cache, first, second) }
    }

    unsafe fn evict(
        cache: *mut Handle,
        [first, second]: [u64; 2],
        even_held: bool,
        gone: *mut Handle,
    ) -> u32 {
        // SAFETY: as in `begin`.
        unsafe { lru_words_evict(cache, first, second, even_held, gone) }
    }

    unsafe fn insert(
        cache: *mut Handle,
        [first, second]: [u64; 2],
        charge: u64,
        value: u64,
        strict: bool,
        gone: *mut Handle,
    ) -> Told {
        // SAFETY: as in `begin`.
        unsafe { lru_words_insert(cache, first, second, charge, value, strict, gone) }
    }
}
