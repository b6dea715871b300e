//! The sample frames are those that the generator makes; docs/FORMAT.md has the offsets of the layout, and says which fields a run assigns.

use oracle::check::check;
use oracle::frames::{Sizes, runs};
use oracle::layout::RECORDS;
use oracle::random::Random;
use oracle::run::run;
use oracle::samples::samples;
use std::collections::HashSet;
use std::fs;
use std::path::PathBuf;

fn above() -> PathBuf {
    PathBuf::from(env!("CARGO_MANIFEST_DIR")).join("..")
}

#[test]
fn samples_are_as_made() {
    for sample in samples() {
        let folder = above().join("samples");
        let read = |name: &str| fs::read(folder.join(name)).expect(name);
        assert!(read(&format!("{}.frame", sample.name)) == sample.frame.bytes);
        let (name, bytes) = sample.after();
        assert!(read(&format!("after/{name}")) == bytes);
        let (number, _) = check(&sample.frame.bytes);
        assert_eq!(number == 0, sample.name != "refused");
        if number == 0 {
            // A run can be followed by another.
            assert_eq!(check(&bytes), (0, 0), "{}", sample.name);
        }
    }
}

/// The lines of the document that speak of a record's fields, cell by cell: offset, bytes, name, what it holds, refusals, assigned by.
fn lines(kind: u16, length: u32) -> Vec<Vec<String>> {
    let text = fs::read_to_string(above().join("docs/FORMAT.md")).expect("docs/FORMAT.md");
    let heading = format!("kind {kind}, length {length}");
    let (_, part) = text.split_once(&heading).expect(&heading);
    let part = part.split("\n### ").next().unwrap_or(part);
    let lines = part.lines().filter(|line| line.starts_with("| "));
    let cells = |line: &str| {
        let cells = line.split('|').map(|cell| cell.trim().replace('`', ""));
        cells.skip(1).collect()
    };
    // The heading of the table, the length and the kind come first.
    lines.map(cells).skip(3).collect()
}

#[test]
fn offsets_and_refusals_of_the_document() {
    for record in RECORDS {
        let mut lines = lines(record.kind, record.length).into_iter();
        for first in record.parts().filter(|part| part.index == 0) {
            let line = lines.next().expect("a line for each field");
            let bytes = first.field.parts * first.field.holds.width();
            assert_eq!(line[0], first.offset.to_string(), "{}", first.field.name);
            assert_eq!(line[1], bytes.to_string(), "{}", first.field.name);
            assert_eq!(line[2], first.field.name);
            let numbers: Vec<_> = first
                .field
                .holds
                .numbers()
                .iter()
                .map(u32::to_string)
                .collect();
            assert_eq!(line[4], numbers.join(", "), "{}", first.field.name);
        }
    }
}

/// A field is altered in some run of a mode exactly if the document says that one of the mode's phases assigns it.
#[test]
fn assigned_fields_of_the_document() {
    let random = &mut Random::new(1, "assigned");
    let sizes = Sizes {
        large: usize::MAX,
        resweeps: 2,
    };
    let mut altered = HashSet::new();
    for _ in 0..6000 {
        let (_, frame) = runs(random, sizes);
        let mut after = frame.clone();
        assert_eq!(run(&mut after.bytes), (0, 0));
        let mode = frame.get(0, "mode", 0);
        for &(start, record) in &frame.records {
            for part in record.parts() {
                let at = start + part.offset..start + part.offset + part.field.holds.width();
                if frame.bytes[at.clone()] != after.bytes[at] {
                    altered.insert((mode, record.kind, part.field.name));
                }
            }
        }
    }
    for record in RECORDS {
        let lines = lines(record.kind, record.length);
        let fields = record.fields.iter().copied().flatten();
        for (field, line) in fields.zip(lines) {
            for mode in 0..4 {
                let phases = ["s", "us", "ws", "uws"][mode as usize];
                let said = line[5].split([',', ' ', ';']);
                let said = said
                    .filter(|word| word.len() == 1)
                    .any(|word| phases.contains(word));
                let found = altered.contains(&(mode, record.kind, field.name));
                assert_eq!(said, found, "{} {}, mode {mode}", record.name, field.name);
            }
        }
    }
}
