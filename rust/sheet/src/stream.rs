//! The stream of `merge`: messages one after another. Document 01, "The saved sheet", at its end.

use crate::document::Document;

/// The messages of a stream. Each ends before the next `op=1` line, LF included, or at
/// the end; bytes ahead of the first are one too; no bytes are none.
pub struct Messages<'a> {
    rest: &'a [u8],
}

pub fn messages(stream: &[u8]) -> Messages<'_> {
    Messages { rest: stream }
}

impl<'a> Iterator for Messages<'a> {
    type Item = &'a [u8];

    fn next(&mut self) -> Option<&'a [u8]> {
        if self.rest.is_empty() {
            return None;
        }
        let (message, rest) = self.rest.split_at(end(self.rest));
        self.rest = rest;
        Some(message)
    }
}

/// Where the first message of `stream` ends.
fn end(stream: &[u8]) -> usize {
    let mut line = 0;
    while let Some(length) = stream[line..].iter().position(|&byte| byte == b'\n') {
        line += length + 1;
        if stream[line..].starts_with(b"op=1\n") {
            return line;
        }
    }
    stream.len()
}

/// Receives a stream's messages into an empty document; refused ones are passed over.
pub fn merge(stream: &[u8]) -> Document {
    let mut document = Document::new();
    for message in messages(stream) {
        document.receive(message);
    }
    document
}
