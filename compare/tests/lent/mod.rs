//! An output that is lent to a call that writes.

use compare::refusal::Refusal;

/// What is written into an output of this length, if anything is. What is not is left as it was.
pub fn written(
    room: usize,
    write: impl FnOnce(&mut [u8]) -> Result<usize, Refusal>,
) -> Result<Vec<u8>, Refusal> {
    let mut output = vec![0xAA; room];
    let length = write(&mut output);
    let kept = &output[length.unwrap_or(0)..];
    assert_eq!(kept, vec![0xAA; kept.len()]);
    length.map(|length| output[..length].to_vec())
}
