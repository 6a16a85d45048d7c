//! Reads and saves of documents by chance, with buffers of just the length and one less.

use crate::call::Call;
use crate::make::{edit, way, Last, Taste, DEEP, WILD};
use crate::random::Random;
use crate::script::Script;

pub fn play(random: &mut Random, script: &mut Script) {
    empty(script);
    for edits in [5, 20, 60] {
        script.reset();
        for _ in 0..edits {
            let taste = if random.chance(70) { WILD } else { DEEP };
            let lines = edit(random, script.document(), taste);
            script.edit(1 + random.below(3) as u64, &lines);
        }
        script.at_border(|buffer| Call::Save { buffer });
        script.at_border(|buffer| Call::Keys { way: b"", buffer });
        for _ in 0..2 * edits {
            read(random, script, WILD);
            read(random, script, DEEP);
        }
    }
}

/// The ways of the root and of the empty key, in an empty document and with that key.
fn empty(script: &mut Script) {
    for lines in [None, Some(b"at=\ndo=assign\nvalue=n\n"), Some(b"at=\ndo=assign\nvalue={\n")] {
        if let Some(lines) = lines {
            script.edit(1, lines);
        }
        for way in [&b""[..], b"{", b"[", b"{{", b"{[", b"^", b"[^", b"[1.1", b"[1.1{", b"[1.1["] {
            script.at_border(|buffer| Call::Keys { way, buffer });
            script.at_border(|buffer| Call::Values { way, buffer });
            for index in [0, 1, 2, 4_294_967_295] {
                script.element(way, index);
            }
        }
        script.at_border(|buffer| Call::Save { buffer });
    }
}

/// A read by chance, of places that are there and of others.
pub fn read(random: &mut Random, script: &mut Script, taste: Taste) {
    let (mut way, last) = way(random, script.document(), taste);
    if last == Last::Head && random.chance(95) {
        way.truncate(way.len() - "[^".len());
    }
    let asked = random.below(3);
    match asked {
        0 if random.chance(10) => way.clear(),
        0 => way.push('{'),
        1 => way.push('['),
        _ => {}
    }
    let way = way.as_bytes();
    let index = random.below(6) as u64;
    let call = |buffer| match asked {
        0 => Call::Keys { way, buffer },
        1 => Call::Element { way, index, buffer },
        _ => Call::Values { way, buffer },
    };
    let reply = script.call(call(30_000));
    if reply.answer.number() == 0 && random.chance(40) {
        let length = reply.written.len();
        script.call(call(if random.chance(50) { length } else { length.saturating_sub(1) }));
    }
}
