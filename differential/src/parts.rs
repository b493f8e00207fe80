//! An object as plain data: what the crate's maps hold, sorted as its words are.

/// A label's fields beside its name.
#[derive(Debug, Clone, PartialEq, Eq)]
pub struct Label {
    pub name: Vec<u8>,
    pub addr: u16,
    pub external: bool,
    pub start: u64,
}

/// Blocks rise by address, labels by name bytes, line blocks by first line, relocations by address.
#[derive(Debug, Clone, PartialEq, Eq, Default)]
pub struct Parts {
    pub blocks: Vec<(u16, Vec<Option<u16>>)>,
    pub labels: Vec<Label>,
    pub lines: Vec<(u64, Vec<u16>)>,
    pub source: Option<Vec<u8>>,
    pub relocs: Vec<(u16, Vec<u8>)>,
}

impl Parts {
    /// Whether the crate's `sym` is Some.
    pub fn has_symbols(&self) -> bool {
        !self.labels.is_empty() || self.source.is_some() || !self.relocs.is_empty()
    }

    /// Adds or replaces a label; returns its place.
    pub fn label_mut(&mut self, name: &[u8]) -> &mut Label {
        let at = match self.labels.binary_search_by(|l| l.name.as_slice().cmp(name)) {
            Ok(at) => at,
            Err(at) => {
                self.labels.insert(at, Label { name: name.to_vec(), addr: 0, external: false, start: 0 });
                at
            }
        };
        &mut self.labels[at]
    }

    /// Sets what stands at `key` in a list that rises by key.
    pub fn put<K: Ord + Copy, V>(list: &mut Vec<(K, V)>, key: K, value: V) {
        match list.binary_search_by(|(k, _)| k.cmp(&key)) {
            Ok(at) => list[at].1 = value,
            Err(at) => list.insert(at, (key, value)),
        }
    }
}
