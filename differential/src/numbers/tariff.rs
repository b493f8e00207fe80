//! Request P14: what the lending of an object costs, in cents.
use crate::object::decode;
use crate::parts::Parts;

/// What is paid, and its three addends before a member's reduction.
#[derive(Debug, Clone, Copy, PartialEq, Eq, Default)]
pub struct Fee {
    pub fee: u64,
    pub base: u64,
    pub words: u64,
    pub labels: u64,
}

/// Of more words than these there is no fee.
pub const MOST_WORDS: usize = 16_777_216;

/// The fee, or 1 or 38.
pub fn ask(object: &[u32], member: bool) -> Result<Fee, u8> {
    lending_fee(object, decode(object).as_ref(), member)
}

/// The same of words with their parts, which only well formed words have.
pub fn lending_fee(object: &[u32], parts: Option<&Parts>, member: bool) -> Result<Fee, u8> {
    let p = parts.ok_or(1)?;
    if object.len() > MOST_WORDS {
        return Err(38);
    }
    let (base, words, labels) = (150, 4 * object.chunks(256).count() as u64, p.labels.len() as u64);
    let sum = base + words + labels;
    Ok(Fee { fee: if member { reduced(sum) } else { sum }, base, words, labels })
}

/// 70 percent: 70 hundredths of each cent, as whole cents and the hundredths left, of which 50 make one cent more.
fn reduced(sum: u64) -> u64 {
    let hundredths = 70 * sum;
    let (cents, left) = (hundredths / 100, hundredths % 100);
    cents + u64::from(left >= 50)
}
