//! How a buffer is lent to what is tried.

use std::fmt::Debug;

/// What stays around a lent buffer.
const MARGIN: usize = 32;

/// Lends the middle of a patterned buffer. The answer is the one wanted, and so is every byte:
/// those written, or all as before. Gives back the answer and what is in the lent part.
pub fn lend<T: Copy + Debug + Default + PartialEq>(
    len: usize,
    call: impl FnOnce(&mut [u8]) -> T,
    want: Result<impl AsRef<[u8]>, T>,
) -> (T, Vec<u8>) {
    let patterned = (0..len + 2 * MARGIN).map(|i| (167 * i + 59 * len + 11) as u8);
    let mut expected: Vec<u8> = patterned.collect();
    let mut buffer = expected.clone();
    let answer = call(&mut buffer[MARGIN..][..len]);
    if let Ok(bytes) = &want {
        expected[MARGIN..][..len].copy_from_slice(bytes.as_ref());
    }
    assert_eq!(answer, want.err().unwrap_or_default());
    assert!(
        buffer == expected,
        "{answer:?}: other bytes in a buffer of {len}"
    );
    (answer, buffer[MARGIN..][..len].to_vec())
}
