//! The sums by which the store knows the bytes of its log and of contents again (docs/LOG.md).

const PRIME: u64 = 1_099_511_628_211;

/// The sum of no bytes.
pub(crate) const BASIS: u64 = 14_695_981_039_346_656_037;

/// Continues a sum over bytes. If more bytes follow, the number of these has to be a multiple of eight.
pub(crate) fn sum_of(mut sum: u64, bytes: &[u8]) -> u64 {
    let words = bytes.chunks_exact(8);
    let rest = words.remainder();
    for word in words {
        sum = (sum ^ word_of(word)).wrapping_mul(PRIME).swap_bytes();
    }
    rest.iter().fold(sum, |sum, byte| (sum ^ u64::from(*byte)).wrapping_mul(PRIME))
}

/// Returns the number in eight bytes, the lowest first.
pub(crate) fn word_of(bytes: &[u8]) -> u64 {
    bytes.iter().rev().fold(0, |number, byte| number << 8 | u64::from(*byte))
}
