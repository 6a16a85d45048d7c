//! The limits of edits and reads, reached by edits and messages alone: the device's number, the last
//! counters, the longest message, the depth of ways, buffers of just the length, a full root, every
//! index of a list, the order of the refusals, and edits that settle what waits.

use sheet::{DEPTH, LONGEST, MOST};

use crate::call::Call;
use crate::make::{deps, hex, id, lines, message};
use crate::random::Random;
use crate::script::Script;

/// The numbers of no device, and those of the first and the last one.
const DEVICES: [u64; 8] = [0, 9, 10, 255, 256, 4_294_967_297, u64::MAX - 1, u64::MAX];

pub fn play(_: &mut Random, script: &mut Script) {
    devices(script);
    last_counters(script);
    longest_message(script);
    depths(script);
    full_root(script);
    indexes(script);
    absent_places(script);
    order_of_refusals(script);
    settled_by_an_edit(script);
}

/// 1 for every number but 1 to 8, whatever the lines and the buffer are.
fn devices(script: &mut Script) {
    let good = lines("61", "assign", "i1");
    for device in DEVICES {
        for lines in [&good[..], b"at=61\ndo=assign\n", b""] {
            for buffer in [0, LONGEST] {
                script.call(Call::Edit { device, lines, buffer });
            }
        }
    }
    for device in 1..=8 {
        script.edit_at_border(device, &good);
    }
    script.save();
}

/// What was seen is 4294967294, and then 4294967295: an edit has an id, and then none.
fn last_counters(script: &mut Script) {
    for terminal in 1..=8 {
        script.reset();
        let last = message(id(u32::MAX - 1, terminal), &deps(&[]), &lines("61", "assign", "["));
        script.receive(&last);
        for lines in [lines("61", "assign", "t"), lines("61[^", "insert", "t"), lines("62", "delete", "")] {
            script.edit_at_border(3, &lines);
        }
        script.call(Call::Edit { device: 3, lines: b"at=61\n", buffer: 0 });
        script.call(Call::Edit { device: 9, lines: &lines("61", "assign", "t"), buffer: 0 });
        script.call(Call::Edit { device: 8, lines: &lines("61[9.9", "insert", "t"), buffer: 0 });
        script.save();
    }
}

/// The longest message there is, 463 bytes: eight counters of ten digits, eight keys and a string.
fn longest_message(script: &mut Script) {
    script.reset();
    for terminal in 1..=8 {
        script.receive(&message(id(u32::MAX - 1, terminal), &deps(&[]), &lines("", "delete", "")));
    }
    let keys: Vec<String> = (0..DEPTH as u8).map(|key| hex(&[key; 16])).collect();
    let longest = lines(&keys.join("{"), "assign", &format!("s{}", hex(&[0xee; 32])));
    script.edit_at_border(8, &longest);
    script.save();
}

/// Ways of one to nine keys, through maps and through lists.
fn depths(script: &mut Script) {
    script.reset();
    for depth in 1..=DEPTH + 1 {
        let at = vec!["6b"; depth].join("{");
        script.edit_at_border(1, &lines(&at, "assign", "{"));
        reads(script, &at);
    }
    script.reset();
    let mut at = "6c".to_string();
    script.edit(2, &lines(&at, "assign", "["));
    for _ in 1..=DEPTH {
        let head = format!("{at}[^");
        script.edit_at_border(2, &lines(&head, "insert", "["));
        reads(script, &at);
        reads(script, &head);
        at = format!("{at}[{}.2", script.document().seen().largest());
    }
    reads(script, &at);
    script.save();
}

/// Everything that is read of a way.
fn reads(script: &mut Script, way: &str) {
    let (map, list) = (format!("{way}{{"), format!("{way}["));
    for way in [way.as_bytes(), map.as_bytes(), list.as_bytes()] {
        script.at_border(|buffer| Call::Keys { way, buffer });
        script.at_border(|buffer| Call::Values { way, buffer });
        for index in [0, 1, 2, u64::MAX] {
            script.at_border(|buffer| Call::Element { way, index, buffer });
        }
    }
}

/// 256 places right under the root; some of them deleted; and one more.
fn full_root(script: &mut Script) {
    script.reset();
    for key in 0..MOST.places {
        let length = if key % 16 == 0 { 16 } else { key % 5 };
        let key = [&[key as u8][..], &[0; 16][..length.max(1) - 1]].concat();
        script.edit(1 + (key[0] % 8) as u64, &lines(&hex(&key), "assign", if key[0] % 3 == 0 { "n" } else { "{" }));
    }
    assert_eq!(script.document().size().places, MOST.places);
    script.at_border(|buffer| Call::Keys { way: b"", buffer });
    for lines in [lines("ff{61", "assign", "t"), lines("ffff", "assign", "t"), lines("ffff", "delete", "")] {
        script.edit_at_border(4, &lines);
    }
    for key in 0..MOST.places {
        if key % 7 == 3 {
            let way = script.document().root().map.iter().flatten().nth(key).map(|(key, _)| hex(key.as_slice()));
            script.edit(5, &lines(&way.expect("256 keys"), "delete", ""));
        }
    }
    script.at_border(|buffer| Call::Keys { way: b"", buffer });
    script.save();
}

/// A list of elements with absent ones among them: 0, each index, the one behind, and the greatest.
fn indexes(script: &mut Script) {
    script.reset();
    script.edit(1, &lines("6c", "assign", "["));
    for _ in 0..12 {
        script.edit(1, &lines("6c[^", "insert", "t"));
    }
    script.edit(1, &lines("6c{61", "assign", "i7"));
    for absent in [3, 4, 8, 13, 2] {
        for index in (0..=14).chain([u64::MAX - 1, u64::MAX]) {
            script.at_border(|buffer| Call::Element { way: b"6c[", index, buffer });
        }
        script.edit(2, &lines(&format!("6c[{absent}.1"), "delete", ""));
    }
    for index in (0..=14).chain([u64::MAX]) {
        script.at_border(|buffer| Call::Element { way: b"6c[", index, buffer });
    }
    script.at_border(|buffer| Call::Keys { way: b"6c{", buffer });
    script.save();
}

/// Places without marks on the way: known, but not read, nor what hangs under them.
fn absent_places(script: &mut Script) {
    script.reset();
    for (at, deed, value) in [
        ("61", "assign", "{"),
        ("61{62", "assign", "{"),
        ("61{62{63", "assign", "i1"),
        ("61{64", "assign", "["),
        ("61{64[^", "insert", "t"),
        ("61{64[5.1{65", "assign", "t"),
        ("61{62", "delete", ""),
        ("61{64[5.1", "delete", ""),
        ("61", "delete", ""),
        ("61{66", "assign", "n"),
    ] {
        script.edit(1, &lines(at, deed, value));
        for way in ["61", "61{62", "61{62{63", "61{64", "61{64[5.1", "61{64[5.1{65", "67", "67{61"] {
            reads(script, way);
        }
        script.at_border(|buffer| Call::Keys { way: b"", buffer });
    }
}

/// Edits that break several rules at once, with no buffer at all.
fn order_of_refusals(script: &mut Script) {
    script.reset();
    for key in 0..MOST.places - 1 {
        script.edit(1, &lines(&hex(&[key as u8, 1]), "assign", "n"));
    }
    script.edit(1, &lines("6c", "assign", "["));
    for (at, deed, value) in [
        ("6c[9.9", "insert", "n"),
        ("6d[9.1", "insert", "n"),
        ("6d[1.1", "assign", "n"),
        ("6d{61[1.1{62", "assign", "n"),
        ("6c[^", "insert", "n"),
        ("6d", "assign", "n"),
        ("6d", "delete", ""),
        ("6c", "assign", "t"),
    ] {
        for buffer in [0, 40, LONGEST] {
            script.call(Call::Edit { device: 2, lines: &lines(at, deed, value), buffer });
        }
    }
    script.save();
}

/// Messages that wait for an edit: they are applied behind it, or dropped.
fn settled_by_an_edit(script: &mut Script) {
    script.reset();
    script.edit(1, &lines("6c", "assign", "["));
    for (counter, terminal, first, lines) in [
        (3, 2, &[2][..], lines("6c[2.1", "insert", "i1")),
        (4, 2, &[2, 3], lines("6c[2.1", "delete", "")),
        (3, 3, &[2], lines("6c[1.1", "insert", "i2")),
        (9, 4, &[3], lines("62", "assign", "t")),
        (4, 5, &[3], lines("6c[7.7", "delete", "")),
    ] {
        script.receive(&message(id(counter, terminal), &deps(first), &lines));
    }
    for lines in [lines("6c[9.9", "insert", "n"), lines("6c[^", "insert", "s61"), lines("6c[2.1", "assign", "{")] {
        script.edit_at_border(1, &lines);
        script.save();
    }
}
