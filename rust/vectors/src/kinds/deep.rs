//! Deep ways: eight keys and nine, as map and as list, edited, cleared and read.

use super::reads::read;
use crate::call::Call;
use crate::make::{deps, edit, hex, id, id_text, lines, message, next_id, wild, DEEP};
use crate::random::Random;
use crate::script::{Script, ROOM};

pub fn play(random: &mut Random, script: &mut Script) {
    maps(script);
    lists(script);
    longest(script);
    for _ in 0..4 {
        script.reset();
        for _ in 0..50 {
            if random.chance(40) {
                let message = wild(random, script.document(), DEEP, 1..=3);
                script.receive(&message);
            } else {
                let lines = edit(random, script.document(), DEEP);
                script.edit(4, &lines);
            }
            if random.chance(30) {
                read(random, script, DEEP);
            }
        }
        script.save();
    }
}

/// Each depth from 1 to 9 under a map.
fn maps(script: &mut Script) {
    script.reset();
    for depth in 1..=9 {
        let way = vec!["61"; depth].join("{");
        script.edit(1, &lines(&way, "delete", ""));
        script.edit(1, &lines(&way, "assign", "n"));
        script.edit(1, &lines(&format!("{way}[^"), "insert", "t"));
        script.values(way.as_bytes());
        script.keys(format!("{way}{{").as_bytes());
        script.element(format!("{way}[").as_bytes(), 1);
    }
    script.save();
    for depth in (1..=9).rev() {
        let way = vec!["61"; depth].join("{");
        script.edit(2, &lines(&way, "assign", if depth % 2 == 0 { "{" } else { "[" }));
        script.save();
    }
}

/// A list in a list, down to depth 8 and one beyond.
fn lists(script: &mut Script) {
    script.reset();
    let mut way = "6c".to_string();
    for _ in 2..=9 {
        let new = id_text(next_id(script.document(), 1));
        script.edit(1, &lines(&format!("{way}[^"), "insert", "["));
        script.element(format!("{way}[").as_bytes(), 1);
        way = format!("{way}[{new}");
        script.edit(2, &lines(&way, "delete", ""));
        script.values(way.as_bytes());
        script.edit(1, &lines(&way, "assign", "s"));
        script.values(way.as_bytes());
        script.edit(1, &lines(&way, "insert", "{"));
    }
    script.save();
}

/// The longest message, 463 bytes, and one more; and the longest ways.
fn longest(script: &mut Script) {
    let last = 4_294_967_294u32;
    let seen = [last; 8].map(|counter| counter.to_string()).join(",");
    script.load(format!("sheet=1\nseen={seen}\nend=0\n").as_bytes());
    let keys: Vec<String> = (0..9).map(|key| hex(&[key; 16])).collect();
    let way = keys[..8].join("{");
    let value = format!("s{}", hex(&[0xee; 32]));
    script.edit(8, &lines(&keys.join("{"), "assign", &value));
    script.edit(8, &lines(&way, "assign", &format!("{value}ee")));
    script.edit(8, &lines(&format!("{way}ee"), "assign", &value));
    let longest = lines(&way, "assign", &value);
    for buffer in [0, 462, 463, ROOM] {
        script.call(Call::Edit { device: 8, lines: &longest, buffer });
    }
    script.values(way.as_bytes());
    script.keys(format!("{way}{{").as_bytes());
    script.element(format!("{way}[").as_bytes(), 1);
    script.values(keys.join("{").as_bytes());
    script.save();
    // The same as a message, while it isn't ready and once it is, and one byte longer.
    let whole = message(id(last + 1, 7), &deps(&[last; 8]), &longest);
    assert_eq!(whole.len(), sheet::LONGEST);
    script.reset();
    script.receive(&whole);
    script.load(format!("sheet=1\nseen={seen}\nend=0\n").as_bytes());
    script.receive(&[&whole[..], b"\n"].concat());
    script.receive(&whole);
    script.save();
}
