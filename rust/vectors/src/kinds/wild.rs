//! Wild ids and deps: ready or not, old, ahead, of every terminal, at the ends of the counters.

use super::reads::read;
use crate::make::{deps, edit, id, lines, message, wild, WILD};
use crate::random::Random;
use crate::script::Script;

pub fn play(random: &mut Random, script: &mut Script) {
    small(script);
    for terminals in [1..=1, 1..=2, 1..=3, 1..=8, 7..=8] {
        script.reset();
        for call in 0..220 {
            let message = wild(random, script.document(), WILD, terminals.clone());
            script.receive(&message);
            if random.chance(5) {
                script.receive(&message);
            }
            if random.chance(10) {
                let lines = edit(random, script.document(), WILD);
                script.edit(random.below(10) as u64, &lines);
            }
            if random.chance(10) {
                read(random, script, WILD);
            }
            if call % 70 == 69 {
                script.save();
            }
        }
    }
    ends(script);
}

/// Every id and deps up to 2 of two terminals, after each of a few beginnings.
fn small(script: &mut Script) {
    let at = |key: &str| lines(key, "assign", "t");
    for beginning in [&[][..], &[(1, 1)], &[(1, 2)], &[(1, 1), (2, 1)], &[(1, 1), (2, 2)]] {
        for counter in 1..=3 {
            for terminal in 1..=2 {
                for dep in 0..9 {
                    script.reset();
                    for &(counter, terminal) in beginning {
                        let seen = *script.document().seen();
                        script.receive(&message(id(counter, terminal), &seen, &at("61")));
                    }
                    let deps = deps(&[dep / 3, dep % 3]);
                    script.receive(&message(id(counter, terminal), &deps, &at("62")));
                }
            }
        }
    }
    script.save();
}

/// The last counters, and the answer 11.
fn ends(script: &mut Script) {
    let last = 4_294_967_295;
    let lines = lines("61", "assign", "n");
    for seen in [last - 2, last - 1, last] {
        let sheet = format!("sheet=1\nseen={seen},0,0,0,0,0,0,3\nend=0\n");
        script.load(sheet.as_bytes());
        for device in [0, 1, 8, 9, 255] {
            script.edit(device, &lines);
        }
        script.receive(&message(id(last, 8), &deps(&[last - 1, 0, 0, 0, 0, 0, 0, 3]), &lines));
        script.receive(&message(id(last, 8), &deps(&[last, 0, 0, 0, 0, 0, 0, 3]), &lines));
        script.receive(&message(id(4, 8), &deps(&[0, 0, 0, 0, 0, 0, 0, 3]), &lines));
        script.edit(2, &lines);
        script.edit(2, b"at=61[1.1\ndo=delete\n");
        script.edit(2, b"at=61[^\ndo=delete\n");
        script.save();
    }
}
