//! How much stack a call uses. It is made in a thread whose stack is memory of our own, filled with a pattern beforehand: what was written
//! to no longer has it. A frame that is only reserved doesn't count, as it ends no process; the libraries write to each page of theirs.
//! For x86-64 Linux with glibc.
use std::ffi::{c_int, c_ulong, c_void};
use std::hint::black_box;
use std::io;
use std::ptr::null_mut;

const PAGE: usize = 4096;
/// Far more than any call should need.
const SIZE: usize = 4 << 20;
/// Every call is made with each of them: a written byte that happens to be the one pattern isn't the other.
const PATTERNS: [u8; 2] = [0xA5, 0x5A];

/// glibc's `pthread_attr_t` has 56 bytes.
#[repr(C, align(8))]
struct Attributes([u8; 64]);

extern "C" {
    fn mmap(start: *mut c_void, len: usize, protection: c_int, flags: c_int, file: c_int, offset: i64) -> *mut c_void;
    fn mprotect(start: *mut c_void, len: usize, protection: c_int) -> c_int;
    fn pthread_attr_init(attributes: *mut Attributes) -> c_int;
    fn pthread_attr_setstack(attributes: *mut Attributes, start: *mut c_void, len: usize) -> c_int;
    fn pthread_create(
        thread: *mut c_ulong,
        attributes: *const Attributes,
        run: extern "C" fn(*mut c_void) -> *mut c_void,
        argument: *mut c_void,
    ) -> c_int;
    fn pthread_join(thread: c_ulong, result: *mut *mut c_void) -> c_int;
}

/// The calls of pthread give their error, or 0.
fn done(code: c_int) -> io::Result<()> {
    if code == 0 {
        Ok(())
    } else {
        Err(io::Error::from_raw_os_error(code))
    }
}

/// How many bytes of its stack a thread used which made a call.
#[derive(Clone, Copy)]
pub struct Used {
    /// From the top down to the deepest byte that was written to.
    pub all: usize,
    /// From where the call was made on. The end of a thread needs some as well, so that a smaller use doesn't show.
    pub call: usize,
}

/// A stack for one thread at a time.
pub struct Memory(&'static mut [u8]);

impl Memory {
    /// Mapped for good. A page below it may not be touched, so that a call which needs still more ends the process.
    pub fn new() -> io::Result<Self> {
        const NONE: c_int = 0; // PROT_NONE
        const READ_WRITE: c_int = 1 | 2; // PROT_READ, PROT_WRITE
        const OWN: c_int = 2 | 0x20; // MAP_PRIVATE, MAP_ANONYMOUS

        // SAFETY: the mapping is new, nothing else has it, and it is never given back.
        unsafe {
            let start = mmap(null_mut(), PAGE + SIZE, READ_WRITE, OWN, -1, 0);
            if start as isize == -1 || mprotect(start, PAGE, NONE) != 0 {
                return Err(io::Error::last_os_error());
            }
            Ok(Memory(std::slice::from_raw_parts_mut(start.cast::<u8>().add(PAGE), SIZE)))
        }
    }

    /// What a thread uses which makes the call, and what the call answers with each pattern.
    pub fn used<T>(&mut self, mut call: impl FnMut() -> T) -> io::Result<(Used, [T; 2])> {
        let (one, first) = self.once(PATTERNS[0], &mut call)?;
        let (other, second) = self.once(PATTERNS[1], &mut call)?;
        Ok((if one.all < other.all { other } else { one }, [first, second]))
    }

    fn once<T>(&mut self, pattern: u8, call: &mut impl FnMut() -> T) -> io::Result<(Used, T)> {
        let mut answer = None;
        let mut place = 0;
        self.0.fill(pattern);
        self.thread(&mut || {
            let mut here = 0u8; // on the stack right above the call
            place = std::ptr::from_mut(black_box(&mut here)).addr();
            answer = Some(call());
        })?;
        let untouched = self.0.iter().take_while(|b| **b == pattern).count();
        let used = Used { all: SIZE - untouched, call: place - self.0.as_ptr().addr() - untouched };
        Ok((used, answer.expect("the thread has made the call")))
    }

    fn thread(&mut self, mut call: &mut dyn FnMut()) -> io::Result<()> {
        extern "C" fn run(call: *mut c_void) -> *mut c_void {
            // SAFETY: `thread` lends it until this ends.
            unsafe { (*call.cast::<&mut dyn FnMut()>())() };
            null_mut()
        }
        let mut attributes = Attributes([0; 64]);
        let mut thread = 0;
        // SAFETY: the thread has the memory and the call to itself until it is joined.
        unsafe {
            done(pthread_attr_init(&mut attributes))?;
            done(pthread_attr_setstack(&mut attributes, self.0.as_mut_ptr().cast(), SIZE))?;
            done(pthread_create(&mut thread, &attributes, run, (&raw mut call).cast()))?;
            done(pthread_join(thread, null_mut()))
        }
    }

    /// Whether known uses are seen: next to nothing, and 100 KiB, even where a pattern is written there.
    pub fn sees_known_uses(&mut self) -> io::Result<bool> {
        #[inline(never)]
        fn write<const N: usize>(value: u8) {
            black_box(&mut [value; N]);
        }
        const KIB: usize = 1 << 10;
        let mut all = self.used(|| write::<16>(0))?.0.call < 8 * KIB;
        for value in [0, PATTERNS[0], PATTERNS[1]] {
            let used = self.used(|| write::<{ 100 * KIB }>(value))?.0;
            all &= (100 * KIB..=108 * KIB).contains(&used.call);
        }
        Ok(all)
    }
}
