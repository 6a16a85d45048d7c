//! The five messages of document 01, in its order and with the last two exchanged; each document is
//! saved.

use crate::random::Random;
use crate::script::Script;
use crate::streams::orders;

pub fn play(_: &mut Random, script: &mut Script) {
    let [first, exchanged] = orders();
    receive_and_save(script, &first);
    script.reset();
    receive_and_save(script, &exchanged);
}

fn receive_and_save(script: &mut Script, messages: &[Vec<u8>]) {
    for message in messages {
        script.receive(message);
    }
    script.save();
}
