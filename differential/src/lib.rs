//! The calls of this repository held against the code of lc3-ensemble 0.10.0, and against document 01's numbers.
//!
//! - [`asm`]: the crate's own code, unchanged (build.sh copies it); [`asm::access`] reaches its private fields.
//! - [`parts`], [`object`]: an object (document 01's "holding") as plain data, and as 32-bit words.
//! - [`rust`]: the crate's calls with panics caught. [`records`]: binary files with their records in one order, and the crate's swapped.
//! - [`numbers`]: document 01's checks, written from the document alone, and what each call gives.
//! - [`reference`]: the answer that a call must give, from both.
//! - [`gen`]: cases. [`under`]: the calls under test, compared. [`ffi`]: those of the Rattle library. [`table`]: what a run saw.
//! - [`marked`], [`vectors`]: the cases marked M, lists to replay.
//! - [`speed`], [`growth`]: times beside the crate's. [`figures`], [`picture`]: how they are shown.
//! - [`stack`]: the stack that the library's calls use.

pub mod asm;
pub mod ffi;
pub mod figures;
pub mod gen;
pub mod growth;
pub mod hex;
pub mod marked;
pub mod numbers;
pub mod object;
pub mod parts;
pub mod picture;
pub mod prng;
pub mod records;
pub mod reference;
pub mod rust;
pub mod speed;
pub mod stack;
pub mod table;
pub mod under;
pub mod vectors;
