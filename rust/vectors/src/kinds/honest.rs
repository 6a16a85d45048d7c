//! Honest terminals: they edit apart, and what they send comes late, twice and in any order.
//! The script plays the calls of each terminal in turn; their last sheets are the same.

use super::reads::read;
use crate::call::Call;
use crate::make::{honest_edit, HONEST};
use crate::random::Random;
use crate::script::Script;

pub fn play(random: &mut Random, script: &mut Script) {
    for terminals in [2, 3, 4, 8, 3, 2] {
        script.append(meeting(random, terminals, 60));
    }
}

struct Terminal {
    device: u64,
    script: Script,
    /// The messages on their way to this terminal.
    coming: Vec<Vec<u8>>,
}

/// The calls of some terminals, each from an empty document on, with up to `edits` edits
/// in all: few enough for all to wait at once.
fn meeting(random: &mut Random, terminals: u64, edits: usize) -> Script {
    let new = |device| Terminal { device, script: Script::new(), coming: Vec::new() };
    let mut terminals: Vec<Terminal> = (1..=terminals).map(new).collect();
    for _ in 0..edits {
        let editing = random.below(terminals.len());
        let terminal = &mut terminals[editing];
        for _ in 0..random.below(5) {
            receive_one(random, terminal);
        }
        let lines = honest_edit(random, terminal.script.document(), terminal.device);
        if random.chance(20) {
            // No message is shorter than 47 bytes.
            let buffer = random.below(47);
            terminal.script.call(Call::Edit { device: terminal.device, lines: &lines, buffer });
        }
        let message = terminal.script.edit(terminal.device, &lines).expect("an honest edit is taken");
        if random.chance(30) {
            read(random, &mut terminal.script, HONEST);
        }
        if random.chance(5) {
            terminal.script.save();
        }
        for (index, other) in terminals.iter_mut().enumerate() {
            if index != editing {
                other.coming.push(message.clone());
            }
        }
    }
    let mut all = Script::new();
    let mut last: Option<Vec<u8>> = None;
    for mut terminal in terminals {
        while !terminal.coming.is_empty() {
            receive_one(random, &mut terminal);
        }
        let sheet = terminal.script.save();
        assert!(last.is_none_or(|last| last == sheet), "honest terminals end with the same sheet");
        last = Some(sheet);
        all.append(terminal.script);
    }
    all
}

/// Any of the messages that are on their way, which may then come once more.
fn receive_one(random: &mut Random, terminal: &mut Terminal) {
    if terminal.coming.is_empty() {
        return;
    }
    let at = if random.chance(40) { 0 } else { random.below(terminal.coming.len()) };
    terminal.script.receive(&terminal.coming[at]);
    if !random.chance(20) {
        terminal.coming.remove(at);
    }
}
