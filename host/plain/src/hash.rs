//! The hash by which names and keys are told apart, eight bytes at a time.

const FACTOR: u64 = 0x9e37_79b9_7f4a_7c15;
const TURN: u32 = 23;

/// What comes of a hash by eight bytes more.
pub fn mix(hash: u64, word: u64) -> u64 {
    (hash.rotate_left(TURN) ^ word).wrapping_mul(FACTOR)
}

/// The eight bytes by which a hash becomes 0: whoever wants keys of one hash finds them.
pub fn making_zero(hash: u64) -> u64 {
    hash.rotate_left(TURN)
}

/// Bytes that are hashed side by side where a string is long.
const STRIDE: usize = 32;

/// A hash of a part of the pool.
pub fn hash(pool: &[u8], start: usize, length: usize) -> u64 {
    let mut hash = length as u64;
    let mut at = start;
    let end = start + length;
    if length >= 2 * STRIDE {
        let (strides, rest) = pool[start..end].as_chunks::<STRIDE>();
        hash = long_hash(strides, hash);
        at = end - rest.len();
    }
    while at < end {
        hash = mix(hash, eight_at(pool, at) & first_bytes(end - at));
        at += 8;
    }
    hash
}

/// Four hashes, one for every fourth word, so that none has to wait for the last.
fn long_hash(strides: &[[u8; STRIDE]], seed: u64) -> u64 {
    let mut lanes = [seed; 4];
    for stride in strides {
        let (words, _) = stride.as_chunks();
        for (lane, word) in lanes.iter_mut().zip(words) {
            *lane = mix(*lane, u64::from_le_bytes(*word));
        }
    }
    lanes.into_iter().fold(seed, mix)
}

/// Eight bytes of the pool, with zeros for those behind its end.
pub fn eight_at(pool: &[u8], at: usize) -> u64 {
    match pool[at..].first_chunk() {
        Some(bytes) => u64::from_le_bytes(*bytes),
        None => pool[at..].iter().rev().fold(0, |word, byte| word << 8 | u64::from(*byte)),
    }
}

/// The bits of the first so many bytes of eight, which are at least one.
pub(crate) fn first_bytes(count: usize) -> u64 {
    u64::MAX >> (64 - 8 * count.min(8))
}
