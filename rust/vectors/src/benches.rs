//! The scripts that bench/works times: messages that build a terminal, `save` with the number of
//! turns, and what a turn plays.

use crate::fullest::fullest;
use crate::make::{deps, hex, id, lines, message};
use crate::script::Script;
use crate::streams::five;

/// A name, what builds the terminal, and what a turn plays.
pub type Work = (&'static str, fn(&mut Script), fn(&mut Script));

pub const WORKS: &[Work] = &[
    ("small", nothing, receive_five),
    ("stream", nothing, stream),
    ("typical", typical, assigns),
    ("held", held, assigns),
    ("late", late, first),
    ("backwards", backwards, first),
    ("clearing", wide, clear),
    ("insert", deep, insert_deep),
    ("assign", deep, assign_deep),
    ("made", crowded, make_eight),
    ("editsmall", receive_five, edit_small),
    ("edittypical", typical, edits),
    ("editfull", fullest, edit_full),
    ("keyssmall", receive_five, keys_of_root),
    ("keystypical", typical, keys_typical),
    ("keysfull", rooted, keys_of_root),
    ("valuestypical", typical, values_typical),
    ("valuesfull", fullest, values_full),
    ("elementsmall", receive_five, first_element),
    ("elementlong", listed, elements),
    ("savesmall", receive_five, save),
    ("savetypical", typical, save),
    ("savefull", fullest, save),
];

/// The script of a name with so many turns, if there is such a one.
pub fn script(name: &str, turns: usize) -> Option<Vec<u8>> {
    let (_, build, turn) = WORKS.iter().find(|(other, ..)| *other == name)?;
    let mut script = Script::bare();
    build(&mut script);
    script.turns(turns);
    turn(&mut script);
    Some(script.into_text())
}

fn nothing(_: &mut Script) {}

fn save(script: &mut Script) {
    script.save();
}

/// The five messages of document 01.
fn receive_five(script: &mut Script) {
    for message in five() {
        script.receive(&message);
    }
}

/// A way of three keys.
fn way(turn: u8) -> String {
    let keys = [turn % 4, turn / 4 % 4, turn / 16].map(|key| hex(&[b'a' + key]));
    keys.join("{")
}

/// 100 messages of four terminals, in order.
fn stream(script: &mut Script) {
    for turn in 0..100 {
        script.receive_next(1 + turn % 4, &way(turn), "assign", "i7");
    }
}

/// 100 places under ways of three keys.
fn typical(script: &mut Script) {
    for turn in 0..80 {
        script.receive_next(1, &way(turn), "assign", "i7");
    }
}

/// 32 assigns of a value to such ways.
fn assigns(script: &mut Script) {
    for turn in 0..32 {
        script.receive_next(2, &way(turn * 37 % 80), "assign", "s68656c6c6f");
    }
}

/// The same document, and 64 that wait for a message of terminal 3 that doesn't come.
fn held(script: &mut Script) {
    typical(script);
    for turn in 0..64 {
        let counter = 600 + u32::from(turn);
        let mut deps = *script.document().seen();
        deps.0[2] = counter - 1;
        script.receive(&message(id(counter, 3), &deps, &lines(&way(turn), "assign", "i7")));
    }
}

/// 65 messages of one terminal, at ways of three keys.
fn chain() -> Vec<Vec<u8>> {
    let message = |turn: u8| {
        let counter = u32::from(turn);
        message(id(counter, 1), &deps(&[counter - 1]), &lines(&way(turn), "assign", "i7"))
    };
    (1..=65).map(message).collect()
}

/// 64 that wait for the first of their chain.
fn late(script: &mut Script) {
    for message in &chain()[1..] {
        script.receive(message);
    }
}

/// The same, in the reverse order.
fn backwards(script: &mut Script) {
    for message in chain()[1..].iter().rev() {
        script.receive(message);
    }
}

/// The message that they wait for: 65 are applied.
fn first(script: &mut Script) {
    script.receive(&chain()[0]);
}

/// 250 places under a key of the root, with 1,000 marks.
fn wide(script: &mut Script) {
    for turn in 0..=248 {
        script.receive_next(1, &format!("6d{{61{{{}", hex(&[turn])), "assign", "t");
    }
    for turn in 0..84 {
        script.receive_next(1, &format!("6d{{61{{{}", hex(&[turn])), "assign", "i7");
    }
    script.receive_next(1, "6d", "assign", "n");
}

/// All of them are cleared.
fn clear(script: &mut Script) {
    script.receive_next(2, "6d", "assign", "{");
}

/// A document with room for 30 places and 240 marks, nearly all of what it has behind the way of
/// eight keys that is taken.
fn deep(script: &mut Script) {
    script.receive_next(1, &["00"; 8].join("{"), "assign", "t");
    for turn in 0..215 {
        let above = if turn < 127 { "ff{61{62" } else { "ff{61" };
        script.receive_next(1, &format!("{above}{{{}", hex(&[turn])), "assign", "i7");
    }
    for _ in 0..4 {
        script.receive_next(1, "ff", "assign", "n");
    }
}

/// 30 inserts at depth 8, of which the last fills the document.
fn insert_deep(script: &mut Script) {
    let way = ["00"; 7].join("{");
    for _ in 0..30 {
        script.receive_next(2, &format!("{way}[^"), "insert", "t");
    }
}

/// The same of assigns to new keys.
fn assign_deep(script: &mut Script) {
    let way = ["00"; 7].join("{");
    for key in 1..=30 {
        script.receive_next(2, &format!("{way}{{{}", hex(&[key])), "assign", "t");
    }
}

/// A cleared list of 183 elements, and eight places with 960 marks: of the documents with so many
/// places and marks one that the second implementation copies fast.
fn crowded(script: &mut Script) {
    for _ in 0..183 {
        script.receive_next(1, "fe[^", "insert", "t");
    }
    script.receive_next(1, "fe", "delete", "");
    for _ in 0..120 {
        script.receive_next(1, &["ff"; 8].join("{"), "assign", "i7");
    }
}

/// Eight assigns at ways of eight keys that are all unknown, each ahead of all others, of which the
/// last fills the document.
fn make_eight(script: &mut Script) {
    for key in (0..8).rev() {
        script.receive_next(2, &vec![hex(&[key]); 8].join("{"), "assign", "t");
    }
}

/// Two edits of document 01's list.
fn edit_small(script: &mut Script) {
    script.edit(3, &lines("73[3.1", "insert", "s64"));
    script.edit(3, &lines("73[3.2", "assign", "t"));
}

/// 32 edits that assign a value at ways of three keys.
fn edits(script: &mut Script) {
    for turn in 0..32 {
        script.edit(2, &lines(&way(turn * 37 % 80), "assign", "s68656c6c6f"));
    }
}

/// Edits of the fullest document: values that replace four, at the ends of its longest ways, and then deletes.
fn edit_full(script: &mut Script) {
    for way in (0..64).step_by(8) {
        let keys = [way, 1, 2, 3].map(|key| hex(&[key; 16]));
        script.edit(8, &lines(&keys.join("{"), "delete", ""));
        script.edit(8, &lines(&keys.join("{"), "assign", "t"));
    }
}

fn keys_of_root(script: &mut Script) {
    script.keys(b"");
}

/// The keys of the root, of each key of the root and of 16 places under these.
fn keys_typical(script: &mut Script) {
    keys_of_root(script);
    for turn in 0..16 {
        let way = way(turn);
        for keys in 1..=2 {
            let way: Vec<&str> = way.split('{').take(keys).collect();
            script.keys(format!("{}{{", way.join("{")).as_bytes());
        }
    }
}

/// 256 keys of the root.
fn rooted(script: &mut Script) {
    for key in 0..=255 {
        script.receive_next(1, &hex(&[key; 16]), "assign", "n");
    }
}

/// The values of 32 places at ways of three keys.
fn values_typical(script: &mut Script) {
    for turn in 0..32 {
        script.values(way(turn * 37 % 80).as_bytes());
    }
}

/// The values of each place of the fullest document that has some.
fn values_full(script: &mut Script) {
    for way in 0..64 {
        let keys = [way, 1, 2, 3].map(|key| hex(&[key; 16]));
        script.values(keys.join("{").as_bytes());
    }
}

fn first_element(script: &mut Script) {
    script.element(b"73[", 1);
    script.element(b"73[", 2);
}

/// A list of 200 elements, every third of them absent, behind a map of 50 keys.
fn listed(script: &mut Script) {
    for key in 0..50 {
        script.receive_next(1, &format!("6c{{{}", hex(&[key])), "assign", "n");
    }
    for _ in 0..200 {
        script.receive_next(1, "6c[^", "insert", "t");
    }
    for element in (51..251).step_by(3) {
        script.receive_next(1, &format!("6c[{element}.1"), "delete", "");
    }
}

/// Each of its elements by its index, and the one behind the last.
fn elements(script: &mut Script) {
    for index in 1..=134 {
        script.element(b"6c[", index);
    }
}
