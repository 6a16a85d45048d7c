//! Messages in an order in which none waits, received and saved only: documents at their
//! limits, cleared, deep, with inserts in adverse orders and with every refusal that can come.

use sheet::Document;

use super::applied_limits::{clear_list, clear_map, marks, places, values};
use crate::make::{deps, edit, heard, hex, id, id_text, lines, message, next_id, value, Taste};
use crate::random::Random;
use crate::script::Script;

pub fn play(random: &mut Random, script: &mut Script) {
    refusals(script);
    kinds_of_values(script);
    repeats(random, script);
    places(script);
    marks(script);
    values(script);
    clear_map(random, script, "assign", "{");
    clear_map(random, script, "delete", "");
    clear_list(script, "assign", "[");
    clear_list(script, "delete", "");
    stepping_over(script);
    after_each(random, script);
    deep_lists(script);
    for deeper in [60, 85] {
        near(random, script, deeper);
    }
}

/// Every refusal of a message that can come, each on a document with a list of two elements.
/// Each is tried twice, and the sheet stays as it was.
fn refusals(script: &mut Script) {
    script.receive_next(1, "6c", "assign", "[");
    script.receive_next(1, "6c[^", "insert", "t");
    script.receive_next(2, "6c[2.1", "insert", "{");
    script.receive_next(2, "6d{61", "assign", "i1");
    script.save();
    let assign = lines("6d", "assign", "n");
    for (counter, terminal, seen, edit) in [
        // 2: not above deps
        (4, 3, deps(&[2, 4]), assign.clone()),
        (4, 2, deps(&[2, 4]), assign.clone()),
        (9, 8, deps(&[2, 4, 0, 0, 0, 0, 0, 9]), assign.clone()),
        // 3: a repeat, and older
        (2, 1, deps(&[1]), lines("6c[^", "insert", "t")),
        (1, 1, deps(&[]), lines("6c", "assign", "[")),
        (3, 2, deps(&[2]), assign.clone()),
        // 4: own deps entry below the seen one
        (5, 1, deps(&[1, 4]), assign.clone()),
        (5, 2, deps(&[2, 3]), assign.clone()),
        (9, 2, deps(&[]), assign.clone()),
        // 8: an element that deps doesn't cover
        (5, 3, deps(&[1, 4]), lines("6c[2.1", "insert", "n")),
        (5, 3, deps(&[2, 2]), lines("6c[3.2", "assign", "n")),
        (5, 3, deps(&[2]), lines("6c[3.2{61", "assign", "n")),
        (5, 3, deps(&[2]), lines("6c[3.2", "delete", "")),
        // 8: an element that isn't there
        (5, 3, deps(&[2, 4]), lines("6c[1.1", "assign", "n")),
        (5, 3, deps(&[2, 4]), lines("6c[4.2", "insert", "n")),
        (5, 3, deps(&[2, 4]), lines("6c[4.2", "delete", "")),
        (5, 3, deps(&[2, 4]), lines("6d[2.1", "insert", "n")),
        (5, 3, deps(&[2, 4]), lines("ff[2.1", "delete", "")),
        (5, 3, deps(&[2, 4]), lines("6c[2.1[2.1", "assign", "{")),
        (5, 3, deps(&[2, 4]), lines("6c[2.1{61{62[1.1", "delete", "")),
        (5, 3, deps(&[2, 4]), lines("6c[2.1{61{62[1.1", "assign", "t")),
    ] {
        for _ in 0..2 {
            receive(script, &message(id(counter, terminal), &seen, &edit));
        }
    }
    // 1
    let whole = message(id(5, 3), &deps(&[2, 4]), &assign);
    for end in [0, 4, 12, whole.len() - 1] {
        receive(script, &whole[..end]);
    }
    receive(script, &[&whole[..], b"\n"].concat());
    receive(script, &message(id(5, 3), &deps(&[2, 4]), &lines("6c[^", "assign", "t")));
    receive(script, &message(id(5, 3), &deps(&[2, 4]), &lines(&["61"; 9].join("{"), "assign", "t")));
    script.save();
    receive(script, &whole);
    script.save();
}

/// Receives a message that doesn't wait.
pub fn receive(script: &mut Script, message: &[u8]) {
    let number = script.receive(message).number();
    assert!(!(5..=7).contains(&number), "it waits: {number}");
}

/// Every kind of value at a key, over each other and by terminals apart, and in a list.
fn kinds_of_values(script: &mut Script) {
    script.reset();
    let values = [
        "n".to_string(),
        "t".to_string(),
        "f".to_string(),
        "i0".to_string(),
        "i-1".to_string(),
        format!("i{}", i64::MAX),
        format!("i{}", i64::MIN),
        "s".to_string(),
        "s00".to_string(),
        format!("s{}", hex(b"eight.by")),
        format!("s{}", hex(&[0xff; 31])),
        format!("s{}", hex(&[0xee; 32])),
        "{".to_string(),
        "[".to_string(),
    ];
    for value in &values {
        script.receive_next(1, "61", "assign", value);
        script.receive_next(1, "6c[^", "insert", value);
        script.receive_next(2, &format!("62{{{}", hex(&[0x61; 16])), "assign", value);
    }
    script.save();
    let seen = *script.document().seen();
    for (turn, value) in values.iter().enumerate() {
        let terminal = 1 + turn % 8;
        let deps = heard(script.document(), terminal, &[10]);
        let counter = deps.largest().max(seen.largest()) + 1 + turn as u32;
        receive(script, &message(id(counter, terminal as u8), &deps, &lines("61", "assign", value)));
    }
    script.save();
    script.receive_next(8, "61", "delete", "");
    script.save();
}

/// Assigns to the same three places again and again, by terminals that have heard of each
/// other or not, so that the values before are covered, or some, or none.
fn repeats(random: &mut Random, script: &mut Script) {
    script.reset();
    for turn in 0..150 {
        let at = *random.pick(&["61", "61{62", "63", "63{"]);
        let at = if at.ends_with('{') { "63{64{65" } else { at };
        let deed = if random.chance(6) { "delete" } else { "assign" };
        let edit = lines(at, deed, &value(random));
        let message = ready(random, script.document(), &edit);
        receive(script, &message);
        if turn % 25 == 24 {
            script.save();
        }
    }
}

/// A ready message with these lines: its terminal may not have heard of all the others' last.
fn ready(random: &mut Random, document: &Document, lines: &[u8]) -> Vec<u8> {
    let seen = document.seen();
    let own = random.below(8);
    let mut deps = *seen;
    for (index, entry) in deps.0.iter_mut().enumerate() {
        if index != own && random.chance(35) {
            *entry = random.below(*entry as usize + 1) as u32;
        }
    }
    let counter = deps.largest() + 1 + if random.chance(10) { 2 } else { 0 };
    message(id(counter, own as u8 + 1), &deps, lines)
}

/// Inserts after one element and at the head, whose ids are smaller than many that stand there.
fn stepping_over(script: &mut Script) {
    script.reset();
    script.receive_next(8, "6c", "assign", "[");
    script.receive_next(8, "6c[^", "insert", "t");
    for (terminal, count) in [(2, 60), (1, 30), (4, 20), (3, 40), (7, 25), (5, 10)] {
        for turn in 0..count {
            let deps = heard(script.document(), terminal, &[0, 0, 0, 0, 0, 0, 0, 2]);
            let at = if turn % 3 == 0 { "6c[^" } else { "6c[2.8" };
            let counter = deps.largest() + 1 + turn % 2;
            receive(script, &message(id(counter, terminal as u8), &deps, &lines(at, "insert", "n")));
        }
    }
    script.save();
}

/// A list that grows after each of its elements, from the last to the first, and by chance.
fn after_each(random: &mut Random, script: &mut Script) {
    script.reset();
    script.receive_next(1, "6c[^", "insert", "{");
    let mut there = vec![id(1, 1)];
    for round in 0..5 {
        let mut order = there.clone();
        if round % 2 == 1 {
            order.reverse();
        }
        for prev in order {
            let new = next_id(script.document(), 1 + round % 8);
            script.receive_next(new.terminal, &format!("6c[{}", id_text(prev)), "insert", "t");
            there.push(new);
        }
    }
    for _ in 0..60 {
        let prev = *random.pick(&there);
        let edit = lines(&format!("6c[{}", id_text(prev)), "insert", "n");
        let message = ready(random, script.document(), &edit);
        receive(script, &message);
    }
    script.save();
}

/// Lists in lists and maps in lists, eight deep, with edits at each depth.
fn deep_lists(script: &mut Script) {
    script.reset();
    let mut way = "6c".to_string();
    for depth in 2..=8 {
        let new = id_text(next_id(script.document(), 1));
        script.receive_next(1, &format!("{way}[^"), "insert", "[");
        if depth == 8 {
            script.receive_next(2, &format!("{way}[{new}"), "insert", "s");
            script.receive_next(2, &format!("{way}[{new}[^"), "insert", "s");
        }
        script.receive_next(3, &format!("{way}{{61"), "assign", "t");
        way = format!("{way}[{new}");
        script.receive_next(2, &way, "delete", "");
        script.receive_next(2, &way, "assign", "i1");
        script.receive_next(4, &way, "insert", "{");
    }
    script.save();
    for value in ["{", "["] {
        script.receive_next(5, &way, "assign", value);
        script.receive_next(5, way.rsplit_once('[').map_or("", |(above, _)| above), "assign", value);
    }
    script.save();
    script.receive_next(5, "6c", "delete", "");
    script.save();
}

/// A document grown by chance, by messages that are ready, until much is refused with 10.
fn near(random: &mut Random, script: &mut Script, deeper: usize) {
    script.reset();
    let taste = Taste { deeper, astray: 2 };
    let mut refused = 0;
    let mut calls = 0;
    while refused < 30 && calls < 350 {
        let edit = edit(random, script.document(), taste);
        let message = ready(random, script.document(), &edit);
        let mut after = script.document().clone();
        let number = after.receive(&message).number();
        // A clearing near the root would make too much room again.
        if after.size().marks + 40 < script.document().size().marks {
            continue;
        }
        refused += usize::from(number == 10);
        calls += 1;
        receive(script, &message);
    }
    script.save();
}
