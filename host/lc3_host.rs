//! The host's calls, exported by libhost.a (`tools/archive.sh host`; link with `-L target/staticlib -l static=host`), over slices.
#![allow(dead_code)] // a host may need only some of them

/// The number of the question that was answered no, or 0; and how many words the file's object has, 0 where it is refused.
#[repr(C)]
#[derive(Clone, Copy, Debug, PartialEq, Eq)]
pub struct Measured {
    pub number: u8,
    pub len: usize,
}

/// A line, counted from 0, and how many bytes from its start.
#[repr(C)]
#[derive(Clone, Copy, Debug, PartialEq, Eq)]
pub struct Position {
    pub line: u64,
    pub column: u64,
}

// A slice is two C parameters: its start and its count of bytes.
extern "C" {
    fn lc3_binary_length(bytes: *const u8, bytes_len: usize) -> Measured;
    fn lc3_text_length(bytes: *const u8, bytes_len: usize) -> Measured;
    fn lc3_get_pos_pair(source: *const u8, source_len: usize, index: u64) -> Position;
}

/// Does this read as binary? Of n bytes the object has at most (n - 7) / 2 words, rounded down.
pub fn binary_length(bytes: &[u8]) -> Measured {
    // SAFETY: start and count are those of a slice, which the call reads.
    unsafe { lc3_binary_length(bytes.as_ptr(), bytes.len()) }
}

/// Does this read as text? Of n bytes the object has at most n words.
pub fn text_length(bytes: &[u8]) -> Measured {
    // SAFETY: as above.
    unsafe { lc3_text_length(bytes.as_ptr(), bytes.len()) }
}

/// The line and the column of an index into the bytes of a source; past the end the line count and the index.
pub fn get_pos_pair(source: &[u8], index: u64) -> Position {
    // SAFETY: as above.
    unsafe { lc3_get_pos_pair(source.as_ptr(), source.len(), index) }
}
