//! The crate's own calls, with a panic as an answer.
use std::panic::{catch_unwind, AssertUnwindSafe};

use crate::asm::access;
use crate::asm::encoding::{BinaryFormat, ObjFileFormat, TextFormat};
use crate::asm::ObjectFile;
use crate::parts::Parts;

/// What the crate did.
#[derive(Debug, Clone, PartialEq, Eq)]
pub enum Did<T> {
    Gave(T),
    Refused,
    Panicked,
}

impl<T> Did<T> {
    pub fn word(&self) -> &'static str {
        match self {
            Did::Gave(_) => "gave",
            Did::Refused => "refused",
            Did::Panicked => "panicked",
        }
    }
}

fn caught<T>(f: impl FnOnce() -> Option<T>) -> Did<T> {
    match catch_unwind(AssertUnwindSafe(f)) {
        Ok(Some(v)) => Did::Gave(v),
        Ok(None) => Did::Refused,
        Err(_) => Did::Panicked,
    }
}

/// No words on standard error for panics that are caught; call once.
pub fn quiet() {
    std::panic::set_hook(Box::new(|_| {}));
}

pub fn read_binary(file: &[u8]) -> Did<Parts> {
    caught(|| BinaryFormat::deserialize(file).map(|o| access::take_apart(&o)))
}

/// A file that isn't UTF-8 can't be asked: the Rust takes a str.
pub fn read_text(file: &[u8]) -> Did<Parts> {
    let Ok(s) = std::str::from_utf8(file) else { return Did::Refused };
    caught(|| TextFormat::deserialize(s).map(|o| access::take_apart(&o)))
}

/// In the crate's own order of records, which varies from call to call.
pub fn write_binary(o: &ObjectFile) -> Did<Vec<u8>> {
    caught(|| Some(BinaryFormat::serialize(o)))
}

pub fn write_text(o: &ObjectFile) -> Did<Vec<u8>> {
    caught(|| Some(TextFormat::serialize(o).into_bytes()))
}
