//! Numbers to ask White_Space of.
use std::sync::LazyLock;

use crate::numbers::utf8::is_white;
use crate::prng::Prng;

/// The White_Space characters, all of which have 16 bits.
static WHITE: LazyLock<Vec<u32>> = LazyLock::new(|| (0..=0xFFFF).filter(|n| is_white(*n)).collect());

/// Characters that some programs take for white: controls, joiners and marks, and x180E, which was White_Space until Unicode 6.3.
const TAKEN_FOR_WHITE: &[u32] = &[0x00, 0x08, 0x1C, 0x1D, 0x1E, 0x1F, 0x7F, 0xAD, 0x180E, 0x200B, 0x200D, 0x2060, 0x2423, 0x3164, 0xFEFF];

/// A White_Space character with a multiple added, so that what a test cuts off shows: `k` of x100, x10000 or x1000000.
fn raised(white: u32, k: u32, bits: u32) -> u32 {
    white + (k << bits)
}

/// Numbers from x110000 on: the ends, and each White_Space character with another second, third or fourth byte.
pub fn beyond() -> Vec<u32> {
    let mut out = vec![0x11_0000, 0x1F_FFFF, 0x20_0000, 0x7FFF_FFFF, 0x8000_0000, 0xFFFF_FFFE, 0xFFFF_FFFF];
    for white in WHITE.iter() {
        for bits in [8, 16, 24] {
            out.extend((1..=0xFF).map(|k| raised(*white, k, bits)).filter(|n| *n > 0x10_FFFF));
        }
    }
    out
}

/// One number: mostly a White_Space character or close to one, or any below x110000; else any, or one that a cut makes White_Space.
pub fn case(r: &mut Prng) -> u32 {
    let white = r.pick(&WHITE);
    match r.below(10) {
        0 => r.next() as u32,
        1 => raised(white, 1 + r.below(0xFF) as u32, r.pick(&[8, 16, 24])),
        2 => r.pick(TAKEN_FOR_WHITE),
        3 | 4 => r.below(0x11_0000) as u32,
        _ => white - 2 + r.below(5) as u32,
    }
}
