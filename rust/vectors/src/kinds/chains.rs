//! Long chains of settling: messages that come in the reverse order, or in any; and a small
//! world of ids in which much is dropped.

use sheet::{Answer, Document};

use crate::make::{deps, edit, honest_edit, id, message, WILD};
use crate::random::Random;
use crate::script::{Script, ROOM};

pub fn play(random: &mut Random, script: &mut Script) {
    for terminals in [1, 2, 3, 8] {
        let messages = talk(random, terminals, 64);
        backwards(script, &messages);
        mixed(random, script, &messages);
    }
    for _ in 0..60 {
        small_world(random, script);
    }
}

/// The messages of terminals that hear each other at once.
fn talk(random: &mut Random, terminals: usize, count: usize) -> Vec<Vec<u8>> {
    let mut document = Document::new();
    let mut messages = Vec::new();
    for _ in 0..count {
        let device = random.from_to(1, terminals) as u64;
        let lines = honest_edit(random, &document, device);
        let mut buffer = vec![0; ROOM];
        let Answer::Done { written, .. } = document.edit(device, &lines, &mut buffer) else {
            unreachable!("an honest edit is taken");
        };
        buffer.truncate(written);
        messages.push(buffer);
    }
    messages
}

fn backwards(script: &mut Script, messages: &[Vec<u8>]) {
    script.reset();
    for message in messages.iter().rev() {
        script.receive(message);
    }
    script.save();
}

fn mixed(random: &mut Random, script: &mut Script, messages: &[Vec<u8>]) {
    let mut messages = messages.to_vec();
    random.shuffle(&mut messages);
    script.reset();
    for message in &messages {
        script.receive(message);
        if random.chance(10) {
            let again = random.below(messages.len());
            script.receive(&messages[again]);
        }
    }
    script.save();
}

/// Ids up to 6.3 with any deps below them.
fn small_world(random: &mut Random, script: &mut Script) {
    script.reset();
    for _ in 0..24 {
        let counter = random.from_to(1, 6) as u32;
        let terminal = random.from_to(1, 3);
        let mut deps = deps(&[]);
        for entry in &mut deps.0[..3] {
            *entry = if random.chance(45) { 0 } else { random.below(counter as usize) as u32 };
        }
        let lines = edit(random, script.document(), WILD);
        script.receive(&message(id(counter, terminal as u8), &deps, &lines));
    }
    script.save();
}
