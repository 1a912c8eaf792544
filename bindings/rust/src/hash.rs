//! The hashes that the library takes with a key: of bytes, and of the two words of a clock's key.

/// Hashes bytes with a seed, as `lru_hash_bytes` of `lru.h` does: eight at a time, except that the
/// last ones are left to the multiplication of the library. The first two numbers are not those
/// with which the library begins, as equal seeds would cancel each other.
pub(crate) fn hash_of(bytes: &[u8], seed: u64) -> u64 {
    let mut hash = multiply(
        0x1319_8a2e_0370_7344 ^ seed,
        0x94d0_49bb_1331_11eb ^ (2 * bytes.len() as u64),
    );
    let mut rest = bytes;
    while rest.len() > 8 {
        let (first, others) = rest.split_at(8);
        hash = multiply(hash ^ word_of(first), 0x9e37_79b9_7f4a_7c05);
        rest = others;
    }
    hash ^ word_of(rest)
}

/// Hashes the two words of a key with a seed. A clock takes the upper half of the hash.
#[inline]
pub(crate) fn hash_of_words([first, second]: [u64; 2], seed: u64) -> u64 {
    let hash = multiply(0x1319_8a2e_0370_7344 ^ seed ^ first, 0x94d0_49bb_1331_11eb);
    multiply(hash ^ second, 0x9e37_79b9_7f4a_7c15)
}

/// Joins both halves of a product. No second factor is ever 0 here, so without the seed nobody can
/// tell which keys have hashes in common.
#[inline]
fn multiply(a: u64, b: u64) -> u64 {
    let product = u128::from(a) * u128::from(b);
    product as u64 ^ (product >> 64) as u64
}

/// Up to eight bytes as a word, by reads that may overlap.
fn word_of(bytes: &[u8]) -> u64 {
    if let (Some(first), Some(last)) = (bytes.first_chunk(), bytes.last_chunk()) {
        return u64::from(u32::from_le_bytes(*first)) | u64::from(u32::from_le_bytes(*last)) << 32;
    }
    match *bytes {
        [] => 0,
        [first, .., last] => {
            let middle = bytes[bytes.len() / 2];
            u64::from(first) | u64::from(middle) << 8 | u64::from(last) << 16
        }
        [only] => u64::from(only) * 0x01_01_01,
    }
}

#[cfg(test)]
mod tests {
    use super::{hash_of, hash_of_words};
    use std::collections::HashSet;

    /// As in `bindings/c/test.c`.
    #[test]
    fn equals_the_hash_of_the_header() {
        assert_eq!(hash_of(b"", 0), 0xa9eb_3014_a738_387f);
        assert_eq!(hash_of(b"", 7), 0x053b_7a5f_b469_2a92);
        assert_eq!(hash_of(b"abc", 7), 0x3f4e_06fb_b32b_2175);
        assert_eq!(hash_of(b"abcd", 7), 0x1a2d_cf4e_f58e_ae1a);
        assert_eq!(hash_of(b"abcdefgh", 7), 0x5cc4_ff1a_a705_7cc4);
        assert_eq!(hash_of(b"abcdefghi", 7), 0x8b35_b078_1ec3_e4c1);
        assert_eq!(hash_of(b"abcdefghijklmnop", 7), 0xccda_7658_6513_5297);
        assert_eq!(hash_of(b"abcdefghijklmnopqrs", 7), 0x033b_2096_655d_1f1f);
    }
    #[test]
    fn both_words_and_the_seed_count_in_both_halves_of_a_hash() {
        let keys = (0..1000).flat_map(|word| [([word, 5], 0), ([5, word], 1), ([5, 7000], word)]);
        let hashes = keys.map(|(key, seed)| hash_of_words(key, seed));
        let (low, high): (HashSet<_>, HashSet<_>) = hashes
            .map(|hash| (hash as u32, (hash >> 32) as u32))
            .unzip();
        // Some halves may be equal.
        assert!(low.len() > 2990 && high.len() > 2990);
    }
}
