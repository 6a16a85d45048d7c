//! Writing a script: each call is written and made at once, so that the next can be
//! chosen by the document as it then is.

use sheet::{Answer, Document};

use crate::call::{line, Call};
use crate::make::{lines, next};
use crate::replay::{perform, Reply};

/// A buffer that is long enough for every message.
pub const ROOM: usize = 500;
/// A buffer that is long enough for every sheet.
pub const SHEET_ROOM: usize = 52_000;

pub struct Script {
    text: Vec<u8>,
    document: Document,
}

impl Script {
    /// Begins with an empty document.
    pub fn new() -> Script {
        let mut script = Script::bare();
        script.reset();
        script
    }

    /// No calls yet, not even the `reset`.
    pub fn bare() -> Script {
        Script { text: Vec::new(), document: Document::new() }
    }

    pub fn document(&self) -> &Document {
        &self.document
    }

    pub fn into_text(self) -> Vec<u8> {
        self.text
    }

    /// Puts the calls of another script behind these.
    pub fn append(&mut self, other: Script) {
        self.text.extend_from_slice(&other.text);
        self.document = other.document;
    }

    pub fn call(&mut self, call: Call) -> Reply {
        call.write(&mut self.text);
        perform(&mut self.document, &call, &mut Vec::new())
    }

    /// Writes the `save` of a script that bench/works times, whose number says how many turns
    /// there are. It is no call, and may be longer than any buffer.
    pub fn turns(&mut self, turns: usize) {
        line(&mut self.text, &[&"save", &turns]);
    }

    pub fn reset(&mut self) {
        self.call(Call::Reset);
    }

    pub fn receive(&mut self, message: &[u8]) -> Answer {
        self.call(Call::Receive { message }).answer
    }

    /// Receives the message of an edit that the terminal would make now.
    pub fn receive_next(&mut self, terminal: u8, at: &str, deed: &str, value: &str) -> Answer {
        let message = next(&self.document, terminal, &lines(at, deed, value));
        self.receive(&message)
    }

    /// An edit with room for its message, which comes back, or None if it is refused.
    pub fn edit(&mut self, device: u64, lines: &[u8]) -> Option<Vec<u8>> {
        let reply = self.call(Call::Edit { device, lines, buffer: ROOM });
        (reply.answer.number() == 0).then_some(reply.written)
    }

    pub fn save(&mut self) -> Vec<u8> {
        self.call(Call::Save { buffer: SHEET_ROOM }).written
    }

    pub fn load(&mut self, sheet: &[u8]) -> Answer {
        self.call(Call::Load { sheet }).answer
    }

    pub fn keys(&mut self, way: &[u8]) {
        self.call(Call::Keys { way, buffer: 10_000 });
    }

    pub fn values(&mut self, way: &[u8]) {
        self.call(Call::Values { way, buffer: 20_000 });
    }

    pub fn element(&mut self, way: &[u8], index: u64) {
        self.call(Call::Element { way, index, buffer: 20 });
    }

    /// An edit with no buffer, with one that is a byte short, and with one of just the length.
    pub fn edit_at_border(&mut self, device: u64, lines: &[u8]) {
        let reply = self.call(Call::Edit { device, lines, buffer: 0 });
        if let Answer::BufferShort { needed } = reply.answer {
            self.call(Call::Edit { device, lines, buffer: needed - 1 });
            self.call(Call::Edit { device, lines, buffer: needed });
        }
    }

    /// Makes a call that writes with room, and then with a buffer of just the length
    /// written, one shorter, and none. Not for edits, which would be made four times.
    pub fn at_border<'a>(&mut self, with: impl Fn(usize) -> Call<'a>) {
        let reply = self.call(with(SHEET_ROOM));
        if reply.answer.number() == 0 {
            let length = reply.written.len();
            self.call(with(length));
            self.call(with(length.saturating_sub(1)));
            self.call(with(0));
        }
    }
}

impl Default for Script {
    fn default() -> Script {
        Script::new()
    }
}
