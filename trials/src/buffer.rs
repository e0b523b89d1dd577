//! A lent buffer: what is written goes to its start, and later bytes stay.

use crate::refusal::*;

/// Puts the bytes at the start and gives their length; 12 with the length
/// needed where the buffer is too short, and then it stays as it was.
pub fn put(bytes: &[u8], buffer: &mut [u8]) -> Result<usize, Refusal> {
    let Some(start) = buffer.get_mut(..bytes.len()) else {
        return refuse(SHORT_BUFFER, bytes.len());
    };
    start.copy_from_slice(bytes);
    Ok(bytes.len())
}
