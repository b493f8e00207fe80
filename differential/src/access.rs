//! Ours, a child of the crate's `asm`: makes an [`ObjectFile`] of parts, takes one apart, and asks its tables.
use std::collections::BTreeMap;

use super::{DebugSymbols, LineSymbolMap, ObjectFile, SourceInfo, SymbolData, SymbolTable};
use crate::parts::{Label, Parts};

fn text(bytes: &[u8]) -> String {
    String::from_utf8(bytes.to_vec()).expect("a well formed object's texts are UTF-8")
}

/// The object of well formed parts. No check of the crate's is asked.
pub fn build(p: &Parts) -> ObjectFile {
    let debug_symbols = p.source.as_ref().map(|src| DebugSymbols {
        line_map: LineSymbolMap(p.lines.iter().cloned().map(|(l, a)| (l as usize, a)).collect()),
        src_info: SourceInfo::from_string(text(src)),
    });
    let sym = p.has_symbols().then(|| SymbolTable {
        label_map: p
            .labels
            .iter()
            .map(|l| (text(&l.name), SymbolData { addr: l.addr, src_start: l.start as usize, external: l.external }))
            .collect(),
        rel_map: p.relocs.iter().map(|(a, n)| (*a, text(n))).collect(),
        debug_symbols,
    });
    ObjectFile { block_map: p.blocks.iter().cloned().collect(), sym }
}

/// The parts of an object.
pub fn take_apart(o: &ObjectFile) -> Parts {
    let mut p = Parts { blocks: o.block_map.clone().into_iter().collect(), ..Parts::default() };
    if let Some(sym) = &o.sym {
        p.labels = sym
            .label_map
            .iter()
            .map(|(n, d)| Label { name: n.clone().into_bytes(), addr: d.addr, external: d.external, start: d.src_start as u64 })
            .collect();
        p.labels.sort_by(|a, b| a.name.cmp(&b.name));
        let rel: BTreeMap<_, _> = sym.rel_map.iter().collect();
        p.relocs = rel.into_iter().map(|(a, n)| (*a, n.clone().into_bytes())).collect();
        if let Some(d) = &sym.debug_symbols {
            p.lines = d.line_map.0.iter().map(|(l, a)| (*l as u64, a.clone())).collect();
            p.source = Some(d.src_info.src.clone().into_bytes());
        }
    }
    p
}

/// The line and the column of an index into a source.
pub fn source_position(source: &str, index: u64) -> (u64, u64) {
    let (l, c) = SourceInfo::from_string(source.into()).get_pos_pair(index as usize);
    (l as u64, c as u64)
}

/// The crate's source and line tables of an object with a source.
pub struct Tables<'a>(&'a DebugSymbols);

/// Those tables, if there are any.
pub fn tables(o: &ObjectFile) -> Option<Tables<'_>> {
    o.sym.as_ref()?.debug_symbols.as_ref().map(Tables)
}

impl Tables<'_> {
    pub fn count_lines(&self) -> u64 {
        self.0.src_info.count_lines() as u64
    }
    pub fn raw_line_span(&self, line: u64) -> Option<(u64, u64)> {
        self.0.src_info.raw_line_span(line as usize).map(|r| (r.start as u64, r.end as u64))
    }
    pub fn line_span(&self, line: u64) -> Option<(u64, u64)> {
        self.0.src_info.line_span(line as usize).map(|r| (r.start as u64, r.end as u64))
    }
    pub fn get_pos_pair(&self, index: u64) -> (u64, u64) {
        let (l, c) = self.0.src_info.get_pos_pair(index as usize);
        (l as u64, c as u64)
    }
    /// Line to address.
    pub fn get(&self, line: u64) -> Option<u16> {
        self.0.lookup_line(line as usize)
    }
    /// Address to line.
    pub fn find(&self, addr: u16) -> Option<u64> {
        self.0.rev_lookup_line(addr).map(|l| l as u64)
    }
}
