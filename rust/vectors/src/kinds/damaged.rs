//! Damaged messages, edits, ways and sheets.

use sheet::Document;

use crate::call::Call;
use crate::make::{damaged, edit, next, way, wild, HONEST, WILD};
use crate::random::Random;
use crate::script::{Script, ROOM};

pub fn play(random: &mut Random, script: &mut Script) {
    for _ in 0..6 {
        script.reset();
        for call in 0..120 {
            step(random, script);
            if call % 40 == 39 {
                script.save();
            }
        }
    }
    for edits in [1, 3, 6, 10] {
        let sheet = grown(random, edits).sheet();
        each_line(script, &sheet);
        for _ in 0..90 {
            let sheet = if random.chance(60) { damaged(random, &sheet) } else { moved_lines(random, &sheet) };
            if script.load(&sheet).number() == 0 {
                script.save();
            }
        }
    }
}

/// One call, damaged or not.
fn step(random: &mut Random, script: &mut Script) {
    let lines = edit(random, script.document(), HONEST);
    match random.below(6) {
        0 => {
            script.edit(random.from_to(1, 4) as u64, &lines);
        }
        1 | 2 => {
            let whole = wild(random, script.document(), WILD, 1..=4);
            script.receive(&damaged(random, &whole));
        }
        3 => {
            let whole = next(script.document(), random.from_to(1, 4) as u8, &lines);
            script.receive(&damaged(random, &whole));
        }
        4 => {
            let lines = damaged(random, &lines);
            script.call(Call::Edit { device: 1, lines: &lines, buffer: ROOM });
        }
        _ => {
            let (way, _) = way(random, script.document(), HONEST);
            let way = damaged(random, way.as_bytes());
            script.keys(&way);
            script.values(&way);
            script.element(&way, 1);
        }
    }
}

/// A document of some edits by chance.
pub fn grown(random: &mut Random, edits: usize) -> Document {
    let mut document = Document::new();
    let mut made = 0;
    while made < edits {
        let lines = edit(random, &document, HONEST);
        let device = random.from_to(1, 3) as u64;
        if document.edit(device, &lines, &mut [0; ROOM]).number() == 0 {
            made += 1;
        }
    }
    document
}

/// The sheet without each of its lines, with each twice, and cut short at each line's end.
fn each_line(script: &mut Script, sheet: &[u8]) {
    let lines: Vec<&[u8]> = sheet.split_inclusive(|&byte| byte == b'\n').collect();
    if sheet.len() > 400 {
        return;
    }
    for at in 0..lines.len() {
        let without = [&lines[..at], &lines[at + 1..]].concat().concat();
        let twice = [&lines[..=at], &lines[at..]].concat().concat();
        let upto = lines[..=at].concat();
        for sheet in [&without[..], &twice, &upto, &upto[..upto.len() - 1]] {
            if script.load(sheet).number() == 0 {
                script.save();
            }
        }
    }
}

/// The sheet with two of its lines exchanged, or one put elsewhere.
fn moved_lines(random: &mut Random, sheet: &[u8]) -> Vec<u8> {
    let mut lines: Vec<&[u8]> = sheet.split_inclusive(|&byte| byte == b'\n').collect();
    let count = lines.len();
    match random.below(3) {
        0 => lines.swap(random.below(count), random.below(count)),
        1 => {
            let line = lines.remove(random.below(count));
            lines.insert(random.below(count), line);
        }
        _ => {
            let line = lines[random.below(count)];
            lines.insert(random.below(count), line);
        }
    }
    lines.concat()
}
