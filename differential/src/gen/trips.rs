//! Lists of trips from fair objects (document 01, "Trips", and request P10). What comes of a list is known without a reading: every trip
//! hands the same words back, but those that a buffer is too short for. Only the lengths of the two files are the numbers'.
use super::{many, object};
use crate::marked::{self, Input};
use crate::numbers::{binary, text_write, Outcome};
use crate::object::{decode, encode, fair};
use crate::parts::Parts;
use crate::prng::Prng;

#[derive(Debug, Clone, Copy, PartialEq, Eq)]
pub enum Format {
    Binary,
    Text,
}

/// A buffer's length beside the length of what it is for.
#[derive(Debug, Clone, Copy, PartialEq, Eq)]
pub enum Room {
    None,
    OneLess,
    Just,
    More(usize),
}

const ROOMS: [Room; 4] = [Room::None, Room::OneLess, Room::Just, Room::More(7)];

/// A buffer to lend, and where its contents come from.
#[derive(Debug, Clone, Copy)]
pub struct Buffer {
    pub room: Room,
    pub salt: u64,
}

impl Buffer {
    /// Its length, where it is for so many elements.
    pub fn length(self, needed: usize) -> usize {
        match self.room {
            Room::None => 0,
            Room::OneLess => needed.saturating_sub(1),
            Room::Just => needed,
            Room::More(more) => needed + more,
        }
    }
}

#[derive(Debug, Clone, Copy)]
pub struct Trip {
    pub format: Format,
    pub bytes: Buffer,
    pub words: Buffer,
}

impl Trip {
    fn new(r: &mut Prng, format: Format, [bytes, words]: [Room; 2]) -> Self {
        let mut buffer = |room| Buffer { room, salt: r.next() };
        Trip { format, bytes: buffer(bytes), words: buffer(words) }
    }
}

/// A fair object, its words, the lengths of its files, and the trips from it.
pub struct List {
    pub parts: Parts,
    pub words: Vec<u32>,
    binary_length: usize,
    text_length: usize,
    pub trips: Vec<Trip>,
}

impl List {
    pub fn new(parts: Parts, trips: Vec<Trip>) -> Self {
        let Outcome::Given(file) = binary::write(&parts) else { unreachable!("a fair object's line blocks are short") };
        let text_length = text_write::write(&parts).len();
        List { words: encode(&parts), parts, binary_length: file.len(), text_length, trips }
    }

    /// The length of the object's file.
    pub fn file_length(&self, format: Format) -> usize {
        match format {
            Format::Binary => self.binary_length,
            Format::Text => self.text_length,
        }
    }

    /// Whether a trip's byte buffer is long enough, and its word buffer.
    pub fn fits(&self, trip: &Trip) -> (bool, bool) {
        let (bytes, words) = (self.file_length(trip.format), self.words.len());
        (trip.bytes.length(bytes) >= bytes, trip.words.length(words) >= words)
    }
}

/// No trip; one, two and more of a form, and both forms in turn; and one of every two buffers, in both forms. Each from no words, document
/// 01's object and those of request P10.
pub fn fixed() -> Vec<List> {
    use Format::{Binary, Text};
    let mut r = Prng::new(12);
    let written = marked::relocations().into_iter().filter_map(|(_, input, _)| match input {
        Input::WriteBinary(words) => Some(words),
        _ => None,
    });
    let rooms: Vec<[Room; 2]> = ROOMS.into_iter().flat_map(|bytes| ROOMS.map(|words| [bytes, words])).collect();
    let mut out = vec![];
    for words in [vec![], marked::example().0].into_iter().chain(written) {
        let parts = decode(&words).expect("it is well formed");
        for formats in [&[][..], &[Binary], &[Binary; 2], &[Binary, Text, Binary], &[Text], &[Text, Binary, Text], &[Binary; 5]] {
            out.push(List::new(parts.clone(), formats.iter().map(|format| Trip::new(&mut r, *format, [Room::Just; 2])).collect()));
        }
        let every = [Binary, Text].into_iter().flat_map(|format| rooms.iter().map(move |rooms| (format, *rooms)));
        out.push(List::new(parts, every.map(|(format, rooms)| Trip::new(&mut r, format, rooms)).collect()));
    }
    out
}

/// An address that a swap mostly changes; some come with the swapped one, or with others that a swap puts in another order.
fn address(r: &mut Prng) -> u16 {
    match r.once_in(2) {
        true => r.pick(&[0x0102, 0x0201, 0x0130, 0x3001, 0x00FF, 0xFF00, 0x0001, 0x0100, 0x1212, 0x30FE, 0x3100]),
        false => r.next() as u16,
    }
}

/// A fair object. With a source it has more relocations than others have.
fn parts(r: &mut Prng) -> Parts {
    let mut p = loop {
        let p = object::parts(r, true);
        if fair(&p) {
            break p;
        }
    };
    if p.source.is_some() {
        for _ in 0..r.below(5) {
            let addr = address(r);
            Parts::put(&mut p.relocs, addr, object::name(r, true));
        }
    }
    p
}

/// Up to six trips. Most buffers are long enough.
fn list(r: &mut Prng, parts: Parts) -> List {
    let room = |r: &mut Prng| match r.below(12) {
        0 => Room::None,
        1 => Room::OneLess,
        2..=6 => Room::Just,
        _ => Room::More(1 + r.below(40)),
    };
    let trips = (0..r.below(7)).map(|_| {
        let format = r.pick(&[Format::Binary, Format::Text]);
        let rooms = [room(r), room(r)];
        Trip::new(r, format, rooms)
    });
    let trips = trips.collect();
    List::new(parts, trips)
}

/// One list.
pub fn case(r: &mut Prng) -> List {
    let p = parts(r);
    list(r, p)
}

/// One list from an object with thousands of labels and relocations.
pub fn many(r: &mut Prng) -> List {
    let p = loop {
        match decode(&many::object(r)) {
            Some(p) if fair(&p) && !p.relocs.is_empty() => break p,
            _ => {}
        }
    };
    list(r, p)
}
