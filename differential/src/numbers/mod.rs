//! Document 01's calls, as the requests change them, written from the documents and not from the Rust: over bytes, without the
//! crate's helpers or the standard library's text functions. Each gives its number, or its answer.

pub mod binary;
pub mod query;
pub mod room;
pub mod tariff;
pub mod text;
pub mod text_write;
pub mod utf8;

/// What a call gives by document 01 and the requests.
#[derive(Debug, Clone, PartialEq, Eq)]
pub enum Outcome<T> {
    Given(T),
    /// The number, and why the case isn't in the runs, where it isn't.
    Refused(u8, Option<Excluded>),
}

/// Why document 01, or a request, keeps a case out of the runs.
#[derive(Debug, Clone, Copy, PartialEq, Eq, PartialOrd, Ord)]
pub enum Excluded {
    /// 27 for a single `=` line: the crate panics.
    OneDivider,
    /// 29: the crate unescapes twice.
    SecondTable,
    /// 15 where first line + count passes 64 bits: a release build wraps.
    SumWraps,
    /// 2: the crate truncates the count.
    Truncates,
    /// 20: the Rust takes a str.
    NotUtf8,
    /// 1: the crate has no such value.
    IllFormed,
    /// A label over 65,535 bytes in a text write: the crate panics.
    WideColumn,
    /// White_Space of a number that is no scalar value: the Rust takes a char.
    NotScalar,
    /// `find` of an address that a block has more than once: the crate may name another of them.
    EqualNeighbours,
    /// Request P8, where a `+` in a number decides: the crate still goes by document 01's own rule, which says otherwise.
    PlusSign,
}

impl<T> Outcome<T> {
    pub fn number(&self) -> u8 {
        match self {
            Outcome::Given(_) => 0,
            Outcome::Refused(n, _) => *n,
        }
    }
    pub fn excluded(&self) -> Option<Excluded> {
        match self {
            Outcome::Given(_) => None,
            Outcome::Refused(_, why) => *why,
        }
    }
    pub fn map<U>(self, f: impl FnOnce(T) -> U) -> Outcome<U> {
        match self {
            Outcome::Given(v) => Outcome::Given(f(v)),
            Outcome::Refused(n, why) => Outcome::Refused(n, why),
        }
    }
}
