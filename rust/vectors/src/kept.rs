//! The files that are kept in the repository's `vectors/` folder.

use crate::kinds::{script, KINDS};
use crate::random::Random;
use crate::replay::replay;
use crate::streams::{examples, streams, FIVE};

/// The seed of the kept scripts.
pub const SEED: u64 = 1;

/// Every kept file's name and bytes.
pub fn files() -> Vec<(String, Vec<u8>)> {
    let mut files = Vec::new();
    for (name, play) in KINDS {
        let script = script(*play, &Random::new(SEED));
        let answers = replay(&script);
        files.push((format!("{name}.script"), script));
        files.push((format!("{name}.answers"), answers));
    }
    let examples = examples().map(|(name, stream)| (name, stream, FIVE.as_bytes().to_vec()));
    let others = streams().into_iter().map(|(name, stream)| {
        let sheet = sheet::merge(&stream).sheet();
        (name, stream, sheet)
    });
    for (name, stream, sheet) in examples.into_iter().chain(others) {
        files.push((format!("{name}.stream"), stream));
        files.push((format!("{name}.sheet"), sheet));
    }
    files
}
