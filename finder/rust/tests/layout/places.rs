//! The words of a pool and of a reply, by the fields of the package's structs.

use std::mem::offset_of;

use caldarimpu::ffi::{
    FreeRegion, Hole, LiveBuffer, Page, Pool, Reply, Table, Zombie, HOLES, PAGES, ROOTS, SPANS,
    ZOMBIES,
};

/// One table's places among the pool's words.
pub struct Shape {
    pub name: &'static str,
    pub start: usize,
    /// Words of a cell.
    pub stride: usize,
    pub cells: usize,
    pub count: usize,
    pub fields: &'static [(&'static str, usize)],
}

macro_rules! shape {
    ($table:ident, $entry:ty, $cells:ident, [$($field:ident),*]) => {
        Shape {
            name: stringify!($table),
            start: (offset_of!(Pool, $table) + offset_of!(Table<$entry, $cells>, cells)) / 8,
            stride: size_of::<$entry>() / 8,
            cells: $cells,
            count: (offset_of!(Pool, $table) + offset_of!(Table<$entry, $cells>, count)) / 8,
            fields: &[$((stringify!($field), offset_of!($entry, $field) / 8)),*],
        }
    };
}

pub const SHAPES: [Shape; 6] = [
    shape!(free, FreeRegion, SPANS, [start, size, stream, id]),
    shape!(live, LiveBuffer, SPANS, [start, size, stream]),
    shape!(holes, Hole, HOLES, [start, size]),
    shape!(zombies, Zombie, ZOMBIES, [start, size, id]),
    shape!(pages, Page, PAGES, [start, handle]),
    shape!(roots, u64, ROOTS, []),
];

pub const PLAIN: [(&str, usize); 4] = [
    ("state", offset_of!(Pool, state) / 8),
    ("page", offset_of!(Pool, page) / 8),
    ("va", offset_of!(Pool, va) / 8),
    ("counter", offset_of!(Pool, counter) / 8),
];

pub const REPLY: [(&str, usize); 5] = [
    ("answer", offset_of!(Reply, answer) / 8),
    ("first", offset_of!(Reply, first) / 8),
    ("second", offset_of!(Reply, second) / 8),
    ("records", offset_of!(Reply, records) / 8),
    ("taken", offset_of!(Reply, taken) / 8),
];

/// The field at a word of a reply, or of the pool at its front.
pub fn name(word: usize) -> String {
    let plain = PLAIN.iter().chain(&REPLY).find(|(_, at)| *at == word);
    if let Some((name, _)) = plain {
        return name.to_string();
    }
    let named = SHAPES.iter().find_map(|shape| shape.name(word));
    named.unwrap_or_else(|| format!("word {word}"))
}

impl Shape {
    fn name(&self, word: usize) -> Option<String> {
        let table = self.name;
        if word == self.count {
            return Some(format!("{table}.count"));
        }
        let inside = word.checked_sub(self.start)?;
        let (cell, rest) = (inside / self.stride, inside % self.stride);
        if cell >= self.cells {
            return None;
        }
        let field = self.fields.iter().find(|(_, at)| *at == rest);
        let field = field.map_or(String::new(), |(name, _)| format!(".{name}"));
        Some(format!("{table}.cells[{cell}]{field}"))
    }
}

pub fn shape(table: &str) -> &'static Shape {
    let found = SHAPES.iter().find(|shape| shape.name == table);
    found.expect("a table of the pool")
}

/// The word of a field.
pub fn place(table: &str, cell: usize, field: &str) -> usize {
    let shape = shape(table);
    let offset = shape.fields.iter().find(|(name, _)| *name == field);
    shape.start + cell * shape.stride + offset.map_or(0, |(_, at)| *at)
}

pub fn plain(field: &str) -> usize {
    let found = PLAIN.iter().find(|(name, _)| *name == field);
    found.expect("a field of the pool").1
}

/// Every word of the pool as a number of its own.
pub const MARK: u64 = 1 << 40;

pub fn mark(word: usize) -> u64 {
    MARK + word as u64
}

/// The library gave this number for the field at this word.
#[track_caller]
pub fn reads(word: usize, number: u64) {
    if number == mark(word) {
        return;
    }
    let read = (number.checked_sub(MARK)).map_or(format!("{number}"), |word| name(word as usize));
    panic!(
        "{} is at word {word} here, but the library reads {read}",
        name(word)
    );
}

/// A pool that the library left, word by word.
#[track_caller]
pub fn leaves(wanted: &Pool, left: &Pool) {
    for (word, (wanted, left)) in wanted.words().iter().zip(left.words()).enumerate() {
        assert_eq!(
            left,
            wanted,
            "{} is at word {word} here, and the library left there",
            name(word)
        );
    }
}
