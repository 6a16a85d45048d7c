//! Saving the sheet. Document 01, "The saved sheet".

use crate::answer::{fill, Answer};
use crate::document::Document;
use crate::place::{Branches, Place};
use crate::text::{write_counters, write_hex, write_id, write_number};

impl Document {
    /// Writes the sheet to the start of the buffer. Tries 13, 0.
    pub fn save(&self, buffer: &mut [u8]) -> Answer {
        fill(buffer, &self.sheet())
    }

    /// The sheet.
    pub fn sheet(&self) -> Vec<u8> {
        let mut out = Vec::new();
        out.extend_from_slice(b"sheet=1\nseen=");
        write_counters(&mut out, &self.seen);
        out.push(b'\n');
        write_branches(&mut out, 1, &self.root);
        out.extend_from_slice(b"end=");
        write_number(&mut out, self.size.places as u64);
        out.push(b'\n');
        out
    }
}

/// The places under `branches`: map children in key order, then elements in list order.
fn write_branches(out: &mut Vec<u8>, depth: u8, branches: &Branches) {
    for (key, place) in branches.map.iter().flatten() {
        write_place_start(out, depth, b'{', place);
        write_hex(out, key.as_slice());
        write_place_rest(out, depth, place);
    }
    for element in branches.elements() {
        write_place_start(out, depth, b'[', &element.place);
        write_id(out, element.id);
        write_place_rest(out, depth, &element.place);
    }
}

/// `place=`, depth, the parent's branch and the flags.
fn write_place_start(out: &mut Vec<u8>, depth: u8, branch: u8, place: &Place) {
    let flags = match (&place.under.map, &place.under.list) {
        (None, None) => b'-',
        (Some(_), None) => b'm',
        (None, Some(_)) => b'l',
        (Some(_), Some(_)) => b'b',
    };
    out.extend_from_slice(b"place=");
    out.extend_from_slice(&[b'0' + depth, branch, flags]);
}

/// The end of the place's line, its marks, its values and what hangs under it.
fn write_place_rest(out: &mut Vec<u8>, depth: u8, place: &Place) {
    out.push(b'\n');
    for mark in &place.marks {
        out.extend_from_slice(b"mark=");
        write_id(out, *mark);
        out.push(b'\n');
    }
    for (id, plain) in &place.values {
        out.extend_from_slice(b"value=");
        write_id(out, *id);
        out.push(b':');
        plain.write(out);
        out.push(b'\n');
    }
    write_branches(out, depth + 1, &place.under);
}
