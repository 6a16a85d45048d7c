//! Playing a script to the library and writing its answers. docs/REPLAY.md, "Answers".

use sheet::{read_edit, read_element_way, read_keys_way, read_message, read_values_way, Answer, Document};

use crate::call::{block, line, take_block, take_line, Call};

/// What a buffer is full of ahead of a call; no call writes this byte.
pub const FILL: u8 = 0xa5;

/// What a call gave.
pub struct Reply {
    pub answer: Answer,
    /// The bytes written to the buffer's start.
    pub written: Vec<u8>,
}

/// The answers to a whole script.
pub fn replay(script: &[u8]) -> Vec<u8> {
    let mut out = Vec::new();
    let mut document = Document::new();
    let mut rest = script;
    while let Some(call) = Call::take(&mut rest) {
        perform(&mut document, &call, &mut out);
    }
    out
}

/// Makes one call and writes its answer.
pub fn perform(document: &mut Document, call: &Call, out: &mut Vec<u8>) -> Reply {
    match *call {
        Call::Reset => {
            *document = Document::new();
            plain(call, done(), out)
        }
        Call::Receive { message } => plain(call, document.receive(message), out),
        Call::Load { sheet } => plain(call, document.load(sheet), out),
        Call::Edit { device, lines, buffer } => {
            lent(call, buffer, out, |buffer| document.edit(device, lines, buffer))
        }
        Call::Save { buffer } => lent(call, buffer, out, |buffer| document.save(buffer)),
        Call::Keys { way, buffer } => lent(call, buffer, out, |buffer| document.keys(way, buffer)),
        Call::Values { way, buffer } => lent(call, buffer, out, |buffer| document.values(way, buffer)),
        Call::Element { way, index, buffer } => {
            lent(call, buffer, out, |buffer| document.element(way, index, buffer))
        }
        Call::IsMessage { bytes } => verdict(call, read_message(bytes).is_ok(), out),
        Call::IsLines { bytes } => verdict(call, read_edit(bytes).is_ok(), out),
        Call::IsKeysWay { bytes } => verdict(call, read_keys_way(bytes).is_some(), out),
        Call::IsValuesWay { bytes } => verdict(call, read_values_way(bytes).is_some(), out),
        Call::IsElementWay { bytes } => verdict(call, read_element_way(bytes).is_some(), out),
    }
}

/// Takes the next answer off a script's answers: its words and what was written; None at their end.
pub fn take_answer<'a>(rest: &mut &'a [u8]) -> Option<(Vec<&'a str>, &'a [u8])> {
    if rest.is_empty() {
        return None;
    }
    let words: Vec<&str> = take_line(rest).split(' ').collect();
    // `name 0 applied dropped written rest` is followed by what was written.
    let written = match words[1..] {
        ["0", _, _, written, _] => take_block(rest, written.parse().expect("a length")),
        _ => &[],
    };
    Some((words, written))
}

fn done() -> Answer {
    Answer::Done { applied: 0, dropped: 0, written: 0 }
}

/// Writes the answer to a call without a buffer.
fn plain(call: &Call, answer: Answer, out: &mut Vec<u8>) -> Reply {
    let number = answer.number();
    match answer {
        Answer::Done { applied, dropped, .. } => line(out, &[&call.name(), &number, &applied, &dropped]),
        Answer::BreaksAt { line: at } => line(out, &[&call.name(), &number, &at]),
        _ => line(out, &[&call.name(), &number]),
    }
    Reply { answer, written: Vec::new() }
}

/// Makes a call with a buffer of `length` fill bytes, and writes its answer.
fn lent(call: &Call, length: usize, out: &mut Vec<u8>, make: impl FnOnce(&mut [u8]) -> Answer) -> Reply {
    let mut buffer = vec![FILL; length];
    let answer = make(&mut buffer);
    let written = if let Answer::Done { written, .. } = answer { written } else { 0 };
    let same = buffer[written..].iter().all(|&byte| byte == FILL);
    let rest = if same { "same" } else { "changed" };
    let (name, number) = (call.name(), answer.number());
    match answer {
        Answer::Done { applied, dropped, written } => {
            line(out, &[&name, &number, &applied, &dropped, &written, &rest]);
            block(out, &buffer[..written]);
        }
        Answer::BufferShort { needed } => line(out, &[&name, &number, &needed, &rest]),
        _ => line(out, &[&name, &number, &rest]),
    }
    buffer.truncate(written);
    Reply { answer, written: buffer }
}

/// Writes whether the bytes are in the layout: 0, or 1 if they aren't.
fn verdict(call: &Call, in_layout: bool, out: &mut Vec<u8>) -> Reply {
    let answer = if in_layout { done() } else { Answer::NotInLayout };
    line(out, &[&call.name(), &answer.number()]);
    Reply { answer, written: Vec::new() }
}
