//! Objects to ask the lending fee of (request P14). Some have a fee that is known without reading them: from the request's sentences, and
//! from how they are made. These hold the numbers too, which have no crate's side here.
use crate::marked;
use crate::numbers::tariff::Fee;
use crate::object::encode;
use crate::parts::{Label, Parts};
use crate::prng::Prng;

/// An object whose fee is known.
pub struct Known {
    pub name: String,
    pub words: Vec<u32>,
    /// A refusal's has no addends and no fees.
    pub number: u8,
    /// Base, words, labels.
    pub addends: [u64; 3],
    /// Of others, and of members.
    pub fees: [u64; 2],
}

impl Known {
    fn given(name: &str, words: Vec<u32>, addends: [u64; 3], fees: [u64; 2]) -> Self {
        Known { name: name.into(), words, number: 0, addends, fees }
    }

    fn refused(name: &str, words: Vec<u32>, number: u8) -> Self {
        Known { name: name.into(), words, number, addends: [0; 3], fees: [0; 2] }
    }

    pub fn fee(&self, member: bool) -> Result<Fee, u8> {
        let ([base, words, labels], fee) = (self.addends, self.fees[usize::from(member)]);
        match self.number {
            0 => Ok(Fee { fee, base, words, labels }),
            n => Err(n),
        }
    }
}

/// Labels whose names have 0, 1, 2 .. bytes; every second one is external.
fn labels(count: usize) -> Parts {
    let label = |i: usize| Label { name: vec![b'A'; i], addr: i as u16, external: i % 2 == 1, start: i as u64 };
    Parts { labels: (0..count).map(label).collect(), ..Parts::default() }
}

/// So many words in all: such labels, and before them blocks of at most 65,535 memory words.
pub fn of_length(words: usize, count: usize) -> Vec<u32> {
    let mut p = labels(count);
    let mut rest = words - encode(&p).len();
    while rest > 0 {
        let block = rest.min(0x1_0000);
        p.blocks.push((0x3000 + p.blocks.len() as u16, vec![Some(7); block - 1]));
        rest -= block;
    }
    encode(&p)
}

/// Small ones: what the request says of an empty object, the ends of 256 words, labels, and relocations, which cost nothing.
pub fn known() -> Vec<Known> {
    let alone = |count: usize| encode(&labels(count));
    let relocations = Parts { relocs: (0..9).map(|i| (i, b"A".to_vec())).collect(), ..Parts::default() };
    vec![
        Known::given("nothing", vec![], [150, 0, 0], [150, 105]),
        Known::given("document 01's example", marked::example().0, [150, 4, 1], [155, 109]),
        Known::given("1 word", of_length(1, 0), [150, 4, 0], [154, 108]),
        Known::given("255 words", of_length(255, 0), [150, 4, 0], [154, 108]),
        Known::given("256 words", of_length(256, 0), [150, 4, 0], [154, 108]),
        Known::given("257 words", of_length(257, 0), [150, 8, 0], [158, 111]),
        Known::given("512 words", of_length(512, 0), [150, 8, 0], [158, 111]),
        Known::given("513 words", of_length(513, 0), [150, 12, 0], [162, 113]),
        Known::given("257 words, 7 labels among them", of_length(257, 7), [150, 8, 7], [165, 116]),
        Known::given("a label without a name", alone(1), [150, 4, 1], [155, 109]),
        Known::given("2 labels", alone(2), [150, 4, 2], [156, 109]),
        Known::given("3 labels", alone(3), [150, 4, 3], [157, 110]),
        Known::given("5 labels", alone(5), [150, 4, 5], [159, 111]),
        Known::given("6 labels", alone(6), [150, 4, 6], [160, 112]),
        Known::given("9 relocations", encode(&relocations), [150, 4, 0], [154, 108]),
        Known::refused("a memory word without its block", vec![0x2000_0000], 1),
    ]
}

/// Lengths around multiples of 256, each with 0 to 9 labels, so that sums end on every digit; labels alone; and a label alone whose name
/// has so many bytes.
pub fn edges() -> impl Iterator<Item = Vec<u32>> {
    let around = |k: usize| [256 * k - 1, 256 * k, 256 * k + 1];
    let lengths = [1, 2, 3, 4, 5, 8, 16, 255, 256].into_iter().flat_map(around);
    let digits = lengths.flat_map(|words| (0..10).map(move |count| of_length(words, count)));
    let alone = (0..=40).map(|count| encode(&labels(count)));
    let named = (0..9).chain([63, 64, 255, 256, 257, 755, 756, 757, 758]).map(|bytes| {
        let name = "é".repeat(bytes / 2) + if bytes % 2 == 1 { "A" } else { "" };
        encode(&Parts { labels: vec![Label { name: name.into(), addr: 1, external: false, start: 2 }], ..Parts::default() })
    });
    digits.chain(alone).chain(named)
}

/// The most words that have a fee, 16,777,216. The numbers have this by themselves, since it holds them too.
const MOST: usize = 256 * 65_536;

/// Words of 256 blocks, each of 65,535 memory words, but for the last four, which are a label without a name. With it the sum ends on 5.
fn large_blocks() -> Vec<u32> {
    let mut out = Vec::with_capacity(MOST + 1);
    for i in 0..256 {
        out.push(i << 8);
        out.extend((0..0xFFFF).map(|value| 1 << 29 | 1 << 16 | value));
    }
    out.truncate(MOST - 4);
    out.extend([2 << 29, 6 << 29, 6 << 29, 6 << 29]);
    out
}

/// A source of 50 million bytes.
fn large_source() -> Vec<u32> {
    let mut out = vec![7 << 29 | 3 << 24 | 0x0A_A9C3; MOST]; // é and a newline
    out[0] = 4 << 29;
    out
}

/// A label without a name, of 4 words, and 2,796,202 with names of four characters, of 6 words each; about half are external.
fn large_labels() -> Vec<u32> {
    let mut out = Vec::with_capacity(MOST + 1);
    out.extend([2 << 29, 6 << 29, 6 << 29, 6 << 29]);
    for i in 0..2_796_202 {
        let [a, b, c, d] = [18, 12, 6, 0].map(|bits| 0x30 + (i >> bits & 0x3F));
        let name = [7 << 29 | 3 << 24 | c << 16 | b << 8 | a, 7 << 29 | 1 << 24 | d];
        out.extend([2 << 29 | i & 0x1_FFFF, 6 << 29 | i, 6 << 29, 6 << 29, name[0], name[1]]);
    }
    out
}

/// The same object with a fault in its first, middle or last word: a bit that no kind of word uses.
fn faults(known: &mut Known, each: &mut dyn FnMut(&Known)) {
    let last = known.words.len() - 1;
    for (at, place) in [(0, "first"), (last / 2, "middle"), (last, "last")] {
        known.words[at] ^= 1 << 28;
        let words = std::mem::take(&mut known.words);
        let ill = Known::refused(&format!("{}, a fault in the {place}", known.name), words, 1);
        each(&ill);
        known.words = ill.words;
        known.words[at] ^= 1 << 28;
    }
}

/// As many words as have a fee, and one more, well formed and with a fault. One at a time, since each has 64 MiB.
pub fn large(each: &mut dyn FnMut(&Known)) {
    let one_more = |mut known: Known, word: u32| {
        known.words.push(word);
        Known::refused(&format!("{}, and one word more", known.name), known.words, 38)
    };
    let mut blocks = Known::given("blocks of 16,777,216 words", large_blocks(), [150, 262_144, 1], [262_295, 183_607]);
    each(&blocks);
    faults(&mut blocks, each);
    let mut blocks = one_more(blocks, 4 << 29);
    each(&blocks);
    faults(&mut blocks, each);
    drop(blocks);
    each(&Known::given("a source of 16,777,216 words", large_source(), [150, 262_144, 0], [262_294, 183_606]));
    let labels = Known::given("labels of 16,777,216 words", large_labels(), [150, 262_144, 2_796_203], [3_058_497, 2_140_948]);
    each(&labels);
    each(&one_more(labels, 4 << 29));
}

/// So many words that they are about a multiple of 256: the last block is made longer.
fn fill(r: &mut Prng, p: &mut Parts) {
    if p.blocks.is_empty() {
        p.blocks.push((0x3000, vec![]));
    }
    let want = 256 * (1 + r.below(6)) - 1 + r.below(3);
    let more = want.saturating_sub(encode(p).len());
    p.blocks.last_mut().unwrap().1.extend((0..more).map(|_| Some(7)));
}

/// One object: as the other calls have them, one in five of them damaged; or with more labels, or about a multiple of 256 words.
pub fn case(r: &mut Prng) -> Vec<u32> {
    if r.once_in(2) {
        return super::object::case(r);
    }
    let mut p = super::object::parts(r, false);
    if r.once_in(2) {
        for _ in 0..r.below(60) {
            let name = format!("L{}", r.below(1000)).into_bytes();
            *p.label_mut(&name) = Label { name: name.clone(), addr: r.next() as u16, external: r.once_in(2), start: 0 };
        }
    }
    if r.once_in(2) {
        fill(r, &mut p);
    }
    match r.once_in(10) {
        true => super::object::damaged_words(r, encode(&p)),
        false => encode(&p),
    }
}
