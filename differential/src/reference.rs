//! What a call must answer. Two sides are asked, the crate and the numbers, and held against each other: in the runs
//! they must say the same, and outside them the crate must do what document 01 says that it does.
use crate::asm::{access, ObjectFile};
use crate::numbers::query::{ask, equal_neighbours, get_pos_pair, Query, Values};
use crate::numbers::tariff::{self, Fee};
use crate::numbers::utf8::is_white;
use crate::numbers::{binary, text, text_write, Excluded, Outcome};
use crate::object::{decode, encode, fair, swapped};
use crate::parts::Parts;
use crate::records;
use crate::rust::{self, Did};

/// An answer that a call under test is held against.
#[derive(Debug, Clone, PartialEq, Eq)]
pub struct Answer<T> {
    /// Document 01's, or a request's.
    pub number: u8,
    /// The crate's in the runs, the numbers' outside them; None for a refusal.
    pub value: Option<T>,
    /// Why the case isn't in the runs.
    pub excluded: Option<Excluded>,
    /// gave, refused, panicked, or unasked.
    pub crate_did: &'static str,
    /// Where the two sides don't go together.
    pub difference: Option<String>,
}

impl<T> Answer<T> {
    fn ill_formed() -> Self {
        Answer { number: 1, value: None, excluded: Some(Excluded::IllFormed), crate_did: "unasked", difference: None }
    }
}

/// A read: in the runs both refuse, or both give the same parts.
fn read(paper: Outcome<Parts>, did: Did<Parts>) -> Answer<Vec<u32>> {
    let agree = match (&paper, &did) {
        (Outcome::Given(p), Did::Gave(q)) => p == q,
        (Outcome::Refused(_, None | Some(Excluded::NotUtf8)), Did::Refused) => true,
        (Outcome::Refused(_, Some(Excluded::OneDivider)), Did::Panicked) => true,
        (Outcome::Refused(_, Some(Excluded::SecondTable)), _) => true, // a later group may still panic
        (Outcome::Refused(_, Some(Excluded::SumWraps)), Did::Gave(_) | Did::Refused) => true,
        _ => false,
    };
    let mut difference = (!agree).then(|| format!("document 01: {paper:?} | crate: {did:?}"));
    let value = match (&paper, &did) {
        (Outcome::Given(p), Did::Gave(q)) => {
            let words = encode(q);
            if decode(&words).as_ref() != Some(p) {
                difference.get_or_insert("what was read isn't well formed, or its words aren't those parts".into());
            }
            Some(words)
        }
        _ => None,
    };
    Answer { number: paper.number(), value, excluded: paper.excluded(), crate_did: did.word(), difference }
}

pub fn read_binary(file: &[u8]) -> Answer<Vec<u32>> {
    read(binary::read(file), rust::read_binary(file))
}

/// A text read, by request P8. Where a `+` decides, the crate is held against document 01's own rule, as strictly as any text in the runs.
pub fn read_text(file: &[u8]) -> Answer<Vec<u32>> {
    let (paper, did) = (text::read(file), rust::read_text(file));
    if paper.excluded() != Some(Excluded::PlusSign) {
        return read(paper, did);
    }
    let document = read(text::read_with_signs(file), did);
    Answer { number: paper.number(), value: None, excluded: paper.excluded(), ..document }
}

/// A text read whose answer is known without the numbers, and whether a `+` decides it. Both sides must say the same.
pub fn known_text(file: &[u8], known: &Result<Vec<u32>, u8>, decides: bool) -> Answer<Vec<u32>> {
    let Answer { number, value, excluded, crate_did, difference } = read_text(file);
    let read = (value.ok_or(number), excluded);
    let known = (known.clone(), decides.then_some(Excluded::PlusSign));
    let difference = difference.or((read != known).then(|| format!("known: {known:?} | numbers: {read:?}")));
    Answer { number: known.0.as_ref().err().copied().unwrap_or(0), value: known.0.ok(), excluded, crate_did, difference }
}

/// `get_pos_pair` on source bytes, which never refuses. The crate's sources are UTF-8.
pub fn source_position(source: &[u8], index: u64) -> Answer<Values> {
    let paper = get_pos_pair(source, index);
    let did = std::str::from_utf8(source).ok().map(|s| access::source_position(s, index));
    let difference = did.filter(|d| *d != paper).map(|d| format!("document 01: {paper:?} | crate: {d:?}"));
    let (excluded, crate_did) = if did.is_some() { (None, "gave") } else { (Some(Excluded::NotUtf8), "unasked") };
    Answer { number: 0, value: Some(paper), excluded, crate_did, difference }
}

/// White_Space of any number, which never refuses. The crate asks the standard library, and only of scalar values.
/// A full run asks 2^32 times: inlined, it takes half the time.
#[inline(always)]
pub fn is_white_space(number: u32) -> Answer<bool> {
    let paper = is_white(number);
    let did = char::from_u32(number).map(char::is_whitespace);
    let difference = did.filter(|d| *d != paper).map(|d| format!("PropList.txt: {paper:?} | crate: {d:?}"));
    let (excluded, crate_did) = if did.is_some() { (None, "gave") } else { (Some(Excluded::NotScalar), "unasked") };
    Answer { number: 0, value: Some(did.unwrap_or(paper)), excluded, crate_did, difference }
}

/// A lending fee. The crate has no such call.
fn fee(paper: Result<Fee, u8>, difference: Option<String>) -> Answer<Fee> {
    match paper {
        Err(1) => Answer { difference, ..Answer::ill_formed() },
        _ => Answer { number: paper.err().unwrap_or(0), value: paper.ok(), excluded: None, crate_did: "unasked", difference },
    }
}

/// A lending fee that is known without the numbers. Where they are asked, they must say the same.
pub fn known_fee(known: Result<Fee, u8>, paper: Option<Result<Fee, u8>>) -> Answer<Fee> {
    fee(known, paper.filter(|paper| *paper != known).map(|paper| format!("known: {known:?} | numbers: {paper:?}")))
}

/// Words to ask about, with the crate's object of them if they are well formed.
pub struct Object {
    pub words: Vec<u32>,
    well_formed: Option<(Parts, ObjectFile)>,
}

impl Object {
    pub fn new(words: Vec<u32>) -> Self {
        let well_formed = decode(&words).map(|p| {
            let o = access::build(&p);
            (p, o)
        });
        Object { words, well_formed }
    }

    pub fn parts(&self) -> Option<&Parts> {
        self.well_formed.as_ref().map(|(p, _)| p)
    }

    /// 0, or 1 for words that aren't well formed.
    pub fn check(&self) -> Answer<()> {
        let Some((p, o)) = &self.well_formed else { return Answer::ill_formed() };
        let back = encode(p) == self.words && access::take_apart(o) == *p;
        let difference = (!back).then(|| "the words don't come back from their parts, or the parts from the crate's object".into());
        Answer { number: 0, value: Some(()), excluded: None, crate_did: "gave", difference }
    }

    /// Whether it is fair. The crate can't be asked; but both its trips must bring a fair object back as itself, with the relocations of its
    /// binary file swapped.
    pub fn is_fair(&self) -> Answer<bool> {
        let Some((p, o)) = &self.well_formed else { return Answer::ill_formed() };
        let fair = fair(p);
        let mut difference = None;
        if fair {
            let binary = match rust::write_binary(o) {
                Did::Gave(f) => records::swap_relocations(&f).map_or(Did::Refused, |f| rust::read_binary(&f)),
                _ => Did::Panicked,
            };
            let text = match rust::write_text(o) {
                Did::Gave(f) => rust::read_text(&f),
                _ => Did::Panicked,
            };
            if binary != Did::Gave(p.clone()) {
                difference = Some(format!("a fair object's binary trip: {binary:?}"));
            } else if text != Did::Gave(p.clone()) && !wide(p) {
                difference = Some(format!("a fair object's text trip: {text:?}"));
            }
        }
        Answer { number: 0, value: Some(fair), excluded: None, crate_did: "unasked", difference }
    }

    /// Request P14.
    pub fn lending_fee(&self, member: bool) -> Answer<Fee> {
        fee(tariff::lending_fee(&self.words, self.parts(), member), None)
    }

    /// The file with its records in the object's order; the crate's with its relocations swapped (request P10).
    pub fn write_binary(&self) -> Answer<Vec<u8>> {
        let Some((p, o)) = &self.well_formed else { return Answer::ill_formed() };
        let (paper, did) = (binary::write(p), rust::write_binary(o));
        let (value, agree) = match (&paper, &did) {
            (Outcome::Given(f), Did::Gave(g)) => {
                let g = records::swap_relocations(g).and_then(|g| records::canonical(&g));
                let agree = g.as_ref() == Some(f);
                (g, agree)
            }
            (Outcome::Refused(2, Some(Excluded::Truncates)), Did::Gave(_)) => (None, true),
            _ => (None, false),
        };
        let difference = (!agree).then(|| format!("document 01: {paper:?} | crate: {did:?}, compared as {value:?}"));
        Answer { number: paper.number(), value, excluded: paper.excluded(), crate_did: did.word(), difference }
    }

    /// The crate's file as it stands, relocation addresses high byte first, and what it must read as: files written earlier keep reading as
    /// they did (request P10). Of a fair object that is known without a reading.
    pub fn earlier_file(&self) -> Option<(Vec<u8>, Answer<Vec<u32>>)> {
        let (p, o) = self.well_formed.as_ref()?;
        let Did::Gave(file) = rust::write_binary(o) else { return None };
        let mut want = read_binary(&file);
        let known = fair(p).then(|| encode(&swapped(p)));
        if known.is_some() && want.value != known {
            want.difference.get_or_insert(format!("known: {known:?} | read: {:?}", want.value));
        }
        Some((file, want))
    }

    pub fn write_text(&self) -> Answer<Vec<u8>> {
        let Some((p, o)) = &self.well_formed else { return Answer::ill_formed() };
        let (paper, did) = (text_write::write(p), rust::write_text(o));
        let wide = wide(p);
        let agree = match &did {
            Did::Gave(f) => *f == paper,
            Did::Panicked => wide,
            Did::Refused => false,
        };
        let difference = (!agree).then(|| format!("document 01: {paper:?} | crate: {did:?}"));
        let (crate_did, value) = (
            did.word(),
            match did {
                Did::Gave(f) => f,
                _ => paper,
            },
        );
        Answer { number: 0, value: Some(value), excluded: wide.then_some(Excluded::WideColumn), crate_did, difference }
    }

    pub fn query(&self, q: Query) -> Answer<Values> {
        let Some((p, o)) = &self.well_formed else { return Answer::ill_formed() };
        let (paper, did) = (ask(p, q), ask_crate(o, q));
        let crate_did = if did.is_ok() { "gave" } else { "refused" };
        let (excluded, agree) = match q {
            Query::Find(a) if equal_neighbours(p, a) => {
                // Another equal neighbour may be named, and only that.
                let block = p.lines.iter().find(|(_, addrs)| addrs.contains(&a)).unwrap();
                let place = did.ok().and_then(|(l, _)| usize::try_from(l.wrapping_sub(block.0)).ok());
                (Some(Excluded::EqualNeighbours), place.and_then(|i| block.1.get(i)) == Some(&a))
            }
            _ => (None, paper == did),
        };
        let difference = (!agree).then(|| format!("document 01: {paper:?} | crate: {did:?}"));
        let answer = if excluded.is_some() { paper } else { did };
        Answer { number: paper.err().unwrap_or(0), value: answer.ok(), excluded, crate_did, difference }
    }
}

/// Whether a label column is too wide for the crate's text writer.
fn wide(p: &Parts) -> bool {
    p.labels.iter().any(|l| l.name.len() > 0xFFFF)
}

/// The crate's answer to a query, as document 01 numbers it.
pub fn ask_crate(o: &ObjectFile, q: Query) -> Result<Values, u8> {
    let t = access::tables(o).ok_or(4)?;
    match q {
        Query::CountLines => Ok((t.count_lines(), 0)),
        Query::RawLineSpan(l) => t.raw_line_span(l).ok_or(5),
        Query::LineSpan(l) => t.line_span(l).ok_or(5),
        Query::GetPosPair(i) => Ok(t.get_pos_pair(i)),
        Query::Get(l) => t.get(l).map(|a| (a.into(), 0)).ok_or(6),
        Query::Find(a) => t.find(a).map(|l| (l, 0)).ok_or(6),
    }
}
