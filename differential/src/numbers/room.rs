//! Request P13: how many words are enough for what a file reads as.

/// At most so many words has the object of an accepted binary file of `bytes` bytes: (n - 7) / 2, rounded down; below 7 bytes 0.
pub fn binary(bytes: usize) -> usize {
    bytes.saturating_sub(7) / 2
}
