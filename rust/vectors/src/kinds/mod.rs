//! The kinds of scripts.

mod applied;
mod applied_limits;
mod chains;
mod damaged;
mod deep;
mod deleted;
mod edges;
mod edited;
mod example;
mod full;
mod honest;
mod layout;
mod reads;
mod received;
mod waiting;
mod wild;

use crate::random::Random;
use crate::script::Script;

/// Makes the calls of a kind, behind the `reset` that begins a script.
pub type Play = fn(&mut Random, &mut Script);

/// A kind's name and what plays it.
pub type Kind = (&'static str, Play);

/// The kinds whose scripts are kept.
pub const KINDS: &[Kind] = &[
    ("example", example::play),
    ("honest", honest::play),
    ("wild", wild::play),
    ("damaged", damaged::play),
    ("full", full::play),
    ("waiting", waiting::play),
    ("chains", chains::play),
    ("deep", deep::play),
    ("deleted", deleted::play),
    ("reads", reads::play),
    ("edges", edges::play),
    ("layout", layout::play),
    ("applied", applied::play),
    ("received", received::play),
];

/// The kinds whose scripts are too long to be kept: they are made when they are played.
pub const MADE: &[Kind] = &[("edited", edited::play)];

/// Every kind.
pub fn all() -> impl Iterator<Item = &'static Kind> {
    KINDS.iter().chain(MADE)
}

/// The script of a kind, by chance as `random` now has it.
pub fn script(play: Play, random: &Random) -> Vec<u8> {
    let mut script = Script::new();
    play(&mut random.clone(), &mut script);
    script.into_text()
}
