//! What the tests share.
#![allow(dead_code, unused_imports)]

use sheet::{Answer, Document};
pub use vectors::streams::{five, FIVE};

/// A message. Of `deps` the first entries are given, the others are 0; a delete has no value.
pub fn message(id: &str, deps: &str, at: &str, deed: &str, value: &str) -> Vec<u8> {
    let lines = lines(at, deed, value);
    format!("op=1\nid={id}\ndeps={}\n{lines}", eight(deps)).into_bytes()
}

pub fn assign(id: &str, deps: &str, at: &str, value: &str) -> Vec<u8> {
    message(id, deps, at, "assign", value)
}

pub fn insert(id: &str, deps: &str, at: &str, value: &str) -> Vec<u8> {
    message(id, deps, at, "insert", value)
}

pub fn delete(id: &str, deps: &str, at: &str) -> Vec<u8> {
    message(id, deps, at, "delete", "")
}

/// A message's lines from `at=` on.
pub fn lines(at: &str, deed: &str, value: &str) -> String {
    match deed {
        "delete" => format!("at={at}\ndo=delete\n"),
        _ => format!("at={at}\ndo={deed}\nvalue={value}\n"),
    }
}

fn eight(deps: &str) -> String {
    let mut entries: Vec<&str> = deps.split(',').filter(|entry| !entry.is_empty()).collect();
    entries.resize(8, "0");
    entries.join(",")
}

/// 0 with these counts and nothing written.
pub fn done(applied: usize, dropped: usize) -> Answer {
    Answer::Done { applied, dropped, written: 0 }
}

/// 0 of a save or a read that wrote this many bytes.
pub fn wrote(written: usize) -> Answer {
    Answer::Done { applied: 0, dropped: 0, written }
}

/// An empty document that receives these messages, each of which is applied at once.
pub fn after(messages: &[Vec<u8>]) -> Document {
    let mut document = Document::new();
    for message in messages {
        assert_eq!(document.receive(message), done(1, 0), "{}", text(message));
    }
    document
}

/// A document loaded from a sheet that is accepted.
pub fn loaded(sheet: &str) -> Document {
    let mut document = Document::new();
    assert_eq!(document.load(sheet.as_bytes()), done(0, 0), "{sheet}");
    document
}

pub fn sheet_of(document: &Document) -> String {
    text(&document.sheet())
}

pub fn text(bytes: &[u8]) -> String {
    bytes.escape_ascii().to_string().replace("\\n", "\n")
}

/// A read's answer and what it wrote, with room for all of it.
pub fn read(call: impl FnOnce(&mut [u8]) -> Answer) -> (u8, String) {
    let mut buffer = vec![0; 60_000];
    match call(&mut buffer) {
        Answer::Done { written, .. } => (0, text(&buffer[..written])),
        refusal => (refusal.number(), String::new()),
    }
}
