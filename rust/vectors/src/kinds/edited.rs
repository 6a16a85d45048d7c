//! What a terminal gets that loads no sheet: every call of the other kinds but the loads, answered
//! anew. It is too long to be kept, and made when it is played.

use super::{chains, damaged, deep, deleted, edges, example, full, honest, reads, waiting, wild, Play};
use crate::call::Call;
use crate::random::Random;
use crate::script::Script;

const SOURCES: [Play; 11] = [
    example::play,
    edges::play,
    reads::play,
    honest::play,
    wild::play,
    damaged::play,
    deleted::play,
    deep::play,
    full::play,
    waiting::play,
    chains::play,
];

pub fn play(random: &mut Random, script: &mut Script) {
    for source in SOURCES {
        let source = super::script(source, random);
        let mut rest = &source[..];
        while let Some(call) = Call::take(&mut rest) {
            if !matches!(call, Call::Load { .. }) {
                script.call(call);
            }
        }
    }
}
