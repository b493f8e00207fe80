//! The exports of the Rattle libraries `runs` and `host`, by group, with safe wrappers. A slice is two C parameters, its start and its
//! count of elements; answers are structs of numbers. Each group is a feature, so that this builds while there are only some of them.
use crate::under::Calls;

#[repr(C)]
#[derive(Clone, Copy)]
pub struct Value {
    pub number: u8,
    pub value: u64,
}

#[repr(C)]
#[derive(Clone, Copy)]
pub struct SpanAnswer {
    pub number: u8,
    pub start: u64,
    pub end: u64,
}

#[repr(C)]
#[derive(Clone, Copy)]
pub struct PositionAnswer {
    pub number: u8,
    pub line: u64,
    pub column: u64,
}

/// Number, and the length in words that a file would fill.
#[repr(C)]
#[derive(Clone, Copy)]
pub struct Measured {
    pub number: u8,
    pub len: usize,
}

/// Number, and the length filled.
#[repr(C)]
#[derive(Clone, Copy)]
pub struct Filled {
    pub number: u8,
    pub len: usize,
}

#[repr(C)]
#[derive(Clone, Copy)]
pub struct FairAnswer {
    pub number: u8,
    pub fair: u8,
}

/// Number, what is paid, and the three addends.
#[repr(C)]
#[derive(Clone, Copy)]
pub struct Fee {
    pub number: u8,
    pub fee: u64,
    pub base: u64,
    pub words: u64,
    pub labels: u64,
}

/// The groups that are linked, by name; none where no library is.
pub const LINKED: &[&str] = &[
    #[cfg(feature = "queries")]
    "queries",
    #[cfg(feature = "binary")]
    "binary",
    #[cfg(feature = "text")]
    "text",
    #[cfg(feature = "fair")]
    "fair",
    #[cfg(feature = "white_space")]
    "white_space",
    #[cfg(feature = "tariff")]
    "tariff",
    #[cfg(feature = "host")]
    "host",
];

/// The libraries' calls.
pub fn calls() -> Calls {
    Calls {
        #[cfg(feature = "queries")]
        queries: Some(queries::CALLS),
        #[cfg(feature = "binary")]
        binary: Some(binary::CALLS),
        #[cfg(feature = "text")]
        text: Some(text::CALLS),
        #[cfg(feature = "fair")]
        is_fair: Some(fair::is_fair),
        #[cfg(feature = "white_space")]
        is_white_space: Some(white_space::is_white_space),
        #[cfg(feature = "tariff")]
        lending_fee: Some(tariff::lending_fee),
        #[cfg(feature = "host")]
        host: Some(host::CALLS),
        ..Calls::default()
    }
}

#[cfg(feature = "queries")]
mod queries {
    use super::{PositionAnswer, SpanAnswer, Value};
    use crate::numbers::query::Query;
    use crate::under::Queries;

    extern "C" {
        fn runs_check(object: *const u32, len: usize) -> u8;
        fn runs_count_lines(object: *const u32, len: usize) -> Value;
        fn runs_raw_line_span(object: *const u32, len: usize, line: u64) -> SpanAnswer;
        fn runs_line_span(object: *const u32, len: usize, line: u64) -> SpanAnswer;
        fn runs_get_pos_pair(object: *const u32, len: usize, index: u64) -> PositionAnswer;
        fn runs_get(object: *const u32, len: usize, line: u64) -> Value;
        fn runs_find(object: *const u32, len: usize, address: u16) -> Value;
    }

    fn check(object: &[u32]) -> u8 {
        // SAFETY: start and count are those of a slice, which the call reads.
        unsafe { runs_check(object.as_ptr(), object.len()) }
    }

    fn query(object: &[u32], q: Query) -> (u8, u64, u64) {
        let (start, len) = (object.as_ptr(), object.len());
        let value = |v: Value| (v.number, v.value, 0);
        let span = |s: SpanAnswer| (s.number, s.start, s.end);
        let position = |p: PositionAnswer| (p.number, p.line, p.column);
        // SAFETY: as above.
        unsafe {
            match q {
                Query::CountLines => value(runs_count_lines(start, len)),
                Query::RawLineSpan(line) => span(runs_raw_line_span(start, len, line)),
                Query::LineSpan(line) => span(runs_line_span(start, len, line)),
                Query::GetPosPair(index) => position(runs_get_pos_pair(start, len, index)),
                Query::Get(line) => value(runs_get(start, len, line)),
                Query::Find(address) => value(runs_find(start, len, address)),
            }
        }
    }

    pub const CALLS: Queries = Queries { check, query };
}

/// A form's three calls; the two forms differ in the names of their exports.
#[cfg(any(feature = "binary", feature = "text"))]
macro_rules! form {
    ($name:ident, $length:ident, $read:ident, $write:ident) => {
        mod $name {
            use super::{Filled, Measured};
            use crate::under::Form;

            extern "C" {
                fn $length(bytes: *const u8, len: usize) -> Measured;
                fn $read(bytes: *const u8, len: usize, out: *mut u32, out_len: usize) -> Filled;
                fn $write(object: *const u32, len: usize, out: *mut u8, out_len: usize) -> Filled;
            }

            fn length(bytes: &[u8]) -> (u8, usize) {
                // SAFETY: start and count are those of a slice, which the call reads.
                let m = unsafe { $length(bytes.as_ptr(), bytes.len()) };
                (m.number, m.len)
            }

            fn read(bytes: &[u8], out: &mut [u32]) -> (u8, usize) {
                // SAFETY: as above; the call writes within the second slice.
                let f = unsafe { $read(bytes.as_ptr(), bytes.len(), out.as_mut_ptr(), out.len()) };
                (f.number, f.len)
            }

            fn write(object: &[u32], out: &mut [u8]) -> (u8, usize) {
                // SAFETY: as above.
                let f = unsafe { $write(object.as_ptr(), object.len(), out.as_mut_ptr(), out.len()) };
                (f.number, f.len)
            }

            pub const CALLS: Form = Form { length, read, write };
        }
    };
}

#[cfg(feature = "binary")]
form!(binary, runs_binary_length, runs_binary_read, runs_binary_write);
#[cfg(feature = "text")]
form!(text, runs_text_length, runs_text_read, runs_text_write);

#[cfg(feature = "fair")]
mod fair {
    use super::FairAnswer;

    extern "C" {
        fn runs_is_fair(object: *const u32, len: usize) -> FairAnswer;
    }

    pub fn is_fair(object: &[u32]) -> (u8, u8) {
        // SAFETY: start and count are those of a slice, which the call reads.
        let f = unsafe { runs_is_fair(object.as_ptr(), object.len()) };
        (f.number, f.fair)
    }
}

#[cfg(feature = "white_space")]
mod white_space {
    extern "C" {
        /// A C bool, taken as the byte that it is: any but 0 and 1 shows.
        fn runs_is_white_space(number: u32) -> u8;
    }

    pub fn is_white_space(number: u32) -> u8 {
        // SAFETY: the call takes any number, and touches no memory of ours.
        unsafe { runs_is_white_space(number) }
    }
}

#[cfg(feature = "tariff")]
mod tariff {
    use super::Fee;
    use crate::numbers::tariff;

    extern "C" {
        fn runs_tariff(object: *const u32, object_len: usize, member: bool) -> Fee;
    }

    pub fn lending_fee(object: &[u32], member: bool) -> (u8, tariff::Fee) {
        // SAFETY: start and count are those of a slice, which the call reads.
        let Fee { number, fee, base, words, labels } = unsafe { runs_tariff(object.as_ptr(), object.len(), member) };
        (number, tariff::Fee { fee, base, words, labels })
    }
}

#[cfg(feature = "host")]
mod host {
    use super::Measured;
    use crate::numbers::query::Values;
    use crate::under::{Filled, Host};

    #[repr(C)]
    struct Position {
        line: u64,
        column: u64,
    }

    extern "C" {
        fn lc3_binary_length(bytes: *const u8, len: usize) -> Measured;
        fn lc3_text_length(bytes: *const u8, len: usize) -> Measured;
        fn lc3_get_pos_pair(source: *const u8, len: usize, index: u64) -> Position;
    }

    fn binary_length(bytes: &[u8]) -> Filled {
        // SAFETY: start and count are those of a slice, which the call reads.
        let m = unsafe { lc3_binary_length(bytes.as_ptr(), bytes.len()) };
        (m.number, m.len)
    }

    fn text_length(bytes: &[u8]) -> Filled {
        // SAFETY: as above.
        let m = unsafe { lc3_text_length(bytes.as_ptr(), bytes.len()) };
        (m.number, m.len)
    }

    fn get_pos_pair(source: &[u8], index: u64) -> Values {
        // SAFETY: as above.
        let p = unsafe { lc3_get_pos_pair(source.as_ptr(), source.len(), index) };
        (p.line, p.column)
    }

    pub const CALLS: Host = Host { binary_length, text_length, get_pos_pair };
}
