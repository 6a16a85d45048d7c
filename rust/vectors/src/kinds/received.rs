//! What a terminal gets that makes no edit, loads no sheet and reads nothing: the resets, messages
//! and saves of other kinds, and the messages that their edits wrote; and the longest sheet.

use sheet::Document;

use super::{chains, damaged, deep, deleted, full, honest, waiting, wild, Play};
use crate::call::{Call, LONGEST_BUFFER};
use crate::fullest::fullest;
use crate::make::hex;
use crate::random::Random;
use crate::replay::perform;
use crate::script::Script;

const SOURCES: [Play; 8] = [
    honest::play,
    wild::play,
    damaged::play,
    deleted::play,
    deep::play,
    full::play,
    waiting::play,
    chains::play,
];

/// The sources are played too, since an edit that is answered 0 comes as the message that it wrote.
/// Each document is saved at its end.
pub fn play(random: &mut Random, script: &mut Script) {
    let mut saved = false;
    for source in SOURCES {
        let source = super::script(source, random);
        let mut document = Document::new();
        let mut rest = &source[..];
        while let Some(call) = Call::take(&mut rest) {
            let reply = perform(&mut document, &call, &mut Vec::new());
            let heard = match call {
                Call::Reset | Call::Receive { .. } | Call::Save { .. } => call,
                Call::Edit { .. } if reply.answer.number() == 0 => Call::Receive { message: &reply.written },
                _ => continue,
            };
            if heard == Call::Reset && !saved {
                script.call(Call::Save { buffer: LONGEST_BUFFER });
            }
            script.call(heard);
            saved = matches!(heard, Call::Save { .. });
        }
    }
    assert!(saved, "the last source ends with a save");
    longest(script);
}

/// The longest sheet, from messages; and what is refused and taken when there is no room.
fn longest(script: &mut Script) {
    script.reset();
    fullest(script);
    for buffer in [51_052, 51_053] {
        script.call(Call::Save { buffer });
    }
    let key = hex(&[7; 16]);
    for (at, deed, value) in [
        (&key[..], "assign", "n"),
        ("61", "assign", "{"),
        ("61{62", "delete", ""),
        ("61", "delete", ""),
        (&key, "assign", "["),
        (&key, "assign", "n"),
        ("61", "assign", "t"),
    ] {
        script.receive_next(8, at, deed, value);
        script.call(Call::Save { buffer: 0 });
    }
}
