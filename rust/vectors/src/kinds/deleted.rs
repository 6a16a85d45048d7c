//! Ways through deleted elements: a neighbour who hasn't heard of the delete edits under the
//! element, inserts after it and deletes it again; and reads through it.

use crate::make::{deps, id, id_text, lines, message, value};
use crate::random::Random;
use crate::script::Script;

pub fn play(random: &mut Random, script: &mut Script) {
    both_orders(script);
    for _ in 0..8 {
        neighbours(random, script);
    }
}

/// Example 7 in both orders, with each kind of edit of the neighbour.
fn both_orders(script: &mut Script) {
    let neighbours = [
        lines("73[2.1{61", "assign", "t"),
        lines("73[2.1{61{62", "delete", ""),
        lines("73[2.1[^", "insert", "n"),
        lines("73[2.1", "insert", "n"),
        lines("73[2.1", "assign", "i7"),
        lines("73[2.1", "assign", "["),
        lines("73[2.1", "delete", ""),
        lines("73", "assign", "{"),
        lines("73", "delete", ""),
    ];
    for neighbour in &neighbours {
        for element in ["s61", "{", "["] {
            let deleted = message(id(3, 1), &deps(&[2]), &lines("73[2.1", "delete", ""));
            let edited = message(id(3, 2), &deps(&[2]), neighbour);
            for order in [[&deleted, &edited], [&edited, &deleted]] {
                script.reset();
                script.receive(&message(id(1, 1), &deps(&[]), &lines("73", "assign", "[")));
                script.receive(&message(id(2, 1), &deps(&[1]), &lines("73[^", "insert", element)));
                for message in order {
                    script.receive(message);
                    reads(script, "2.1");
                }
                script.save();
            }
        }
    }
}

fn reads(script: &mut Script, element: &str) {
    script.element(b"73[", 1);
    script.values(format!("73[{element}").as_bytes());
    script.keys(format!("73[{element}{{").as_bytes());
    script.element(format!("73[{element}[").as_bytes(), 1);
}

/// A list whose elements are deleted by terminal 1, while terminals 2 and 3 go on with what
/// they saw a while ago.
fn neighbours(random: &mut Random, script: &mut Script) {
    script.reset();
    script.receive(&message(id(1, 1), &deps(&[]), &lines("73", "assign", "[")));
    for _ in 0..50 {
        let seen = *script.document().seen();
        let terminal = random.from_to(1, 3);
        let mut deps = seen;
        if terminal > 1 {
            deps.0[0] = seen.0[0].saturating_sub(random.below(6) as u32);
        }
        let new = id(deps.largest().max(seen.0[terminal - 1]) + 1, terminal as u8);
        let list = script.document().root().map.iter().flat_map(|map| map.values()).next();
        let known: Vec<String> = list
            .map_or(&[][..], |place| place.under.elements())
            .iter()
            .map(|element| id_text(element.id))
            .collect();
        let prev = if known.is_empty() || random.chance(20) { "^" } else { random.pick(&known) };
        let lines = match random.below(6) {
            0..=2 => lines(&format!("73[{prev}"), "insert", &value(random)),
            _ if prev == "^" => lines("73[^", "insert", "{"),
            3 if terminal == 1 => lines(&format!("73[{prev}"), "delete", ""),
            3 => lines(&format!("73[{prev}{{61"), "delete", ""),
            4 => lines(&format!("73[{prev}{{6{}", random.below(3)), "assign", &value(random)),
            _ => lines(&format!("73[{prev}[^"), "insert", &value(random)),
        };
        script.receive(&message(new, &deps, &lines));
        if random.chance(25) && prev != "^" {
            reads(script, prev);
        }
    }
    script.save();
}
