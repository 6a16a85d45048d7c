//! 64 and 65 waiting, the same id twice, and what is dropped when it is no longer waited for.

use crate::make::{deps, id, lines, message, next, wild, WILD};
use crate::random::Random;
use crate::script::Script;

pub fn play(random: &mut Random, script: &mut Script) {
    own_chain(script);
    on_another(random, script);
    dropped(script);
    all_dropped(script);
    held_back(script);
    for _ in 0..3 {
        gaps(random, script);
    }
    crowded(random, script);
}

fn at(key: &str) -> Vec<u8> {
    lines(key, "assign", "t")
}

/// 2.1 to 65.1 wait for 1.1.
fn own_chain(script: &mut Script) {
    script.reset();
    for counter in 2..=65 {
        script.receive(&message(id(counter, 1), &deps(&[counter - 1]), &at("61")));
        if counter == 33 {
            script.receive(&message(id(20, 1), &deps(&[19]), &at("61")));
        }
    }
    script.receive(&message(id(66, 1), &deps(&[65]), &at("61")));
    script.receive(&message(id(65, 1), &deps(&[64]), &at("61")));
    script.receive(&message(id(65, 1), &deps(&[63]), &at("62")));
    script.receive(&message(id(1, 2), &deps(&[]), &at("62")));
    script.receive(&message(id(2, 2), &deps(&[1, 1]), &at("62")));
    script.save();
    script.receive(&message(id(1, 1), &deps(&[]), &at("61")));
    script.receive(&message(id(66, 1), &deps(&[65]), &at("61")));
    script.save();
}

/// 64 of eight terminals wait, most for a message of terminal 8; an edit lets them go on.
fn on_another(random: &mut Random, script: &mut Script) {
    script.reset();
    let mut waiting = Vec::new();
    for counter in 2..=10 {
        for terminal in 1..=7 {
            let mut deps = deps(&[0, 0, 0, 0, 0, 0, 0, 1]);
            deps.0[terminal - 1] = if counter == 2 { 0 } else { counter - 1 };
            let key = format!("6{terminal}");
            waiting.push(message(id(counter, terminal as u8), &deps, &at(&key)));
        }
    }
    random.shuffle(&mut waiting);
    for message in &waiting {
        script.receive(message);
    }
    script.receive(&message(id(12, 1), &deps(&[11, 1]), &at("61")));
    script.receive(&message(id(12, 2), &deps(&[1, 11]), &at("61")));
    script.save();
    script.edit(8, &at("68"));
    script.save();
}

/// What settling drops: 3, 4, and 8 once it is ready.
fn dropped(script: &mut Script) {
    script.reset();
    // 3: another text under the same id is ready and is applied.
    script.receive(&message(id(5, 1), &deps(&[0, 1]), &at("61")));
    script.receive(&message(id(5, 1), &deps(&[0, 2]), &at("62")));
    script.receive(&message(id(5, 1), &deps(&[]), &at("63")));
    script.save();
    // 4: its own entry falls behind; 3: its counter does.
    script.receive(&message(id(9, 1), &deps(&[5, 1]), &at("64")));
    script.receive(&message(id(7, 1), &deps(&[5, 2]), &at("65")));
    script.receive(&message(id(8, 1), &deps(&[5]), &at("66")));
    script.save();
    // 8: it is ready once 1.2 is there, but no list has the element.
    script.receive(&message(id(2, 3), &deps(&[0, 1]), &lines("66[1.2", "delete", "")));
    script.receive(&message(id(3, 3), &deps(&[0, 1, 2]), &at("67")));
    script.receive(&message(id(2, 4), &deps(&[0, 1]), &lines("66[^", "insert", "n")));
    script.receive(&message(id(3, 5), &deps(&[0, 1, 0, 2]), &lines("66[2.4", "insert", "n")));
    script.receive(&message(id(3, 6), &deps(&[0, 1, 0, 1]), &lines("66[2.4", "insert", "n")));
    script.receive(&message(id(1, 2), &deps(&[]), &at("68")));
    script.save();
    // An edit's id is one that waits.
    script.receive(&message(id(9, 7), &deps(&[0, 0, 0, 0, 0, 0, 1]), &at("69")));
    script.receive(&message(id(10, 7), &deps(&[0, 0, 0, 0, 0, 0, 9]), &at("6a")));
    script.edit(7, &at("6b"));
    script.save();
    // A load that is refused leaves them waiting, one that is taken doesn't.
    script.receive(&message(id(12, 7), &deps(&[0, 0, 0, 0, 0, 0, 11]), &at("6c")));
    script.load(b"sheet=1\n");
    script.receive(&message(id(12, 7), &deps(&[0, 0, 0, 0, 0, 0, 11]), &at("6c")));
    let sheet = script.save();
    script.load(&sheet);
    script.receive(&message(id(12, 7), &deps(&[0, 0, 0, 0, 0, 0, 11]), &at("6c")));
}

/// 64 that wait, under one terminal, are all old at once: 3 or 4.
fn all_dropped(script: &mut Script) {
    script.reset();
    for counter in 2..=65 {
        let own = if counter % 2 == 0 { counter - 1 } else { 1 };
        script.receive(&message(id(counter, 1), &deps(&[own]), &at("61")));
    }
    script.receive(&message(id(50, 1), &deps(&[]), &at("62")));
    script.receive(&message(id(70, 1), &deps(&[50]), &at("62")));
    script.save();
}

/// What 10 stops stays and is applied when there is room; what is greater goes ahead.
fn held_back(script: &mut Script) {
    script.reset();
    for key in 0..=255 {
        let message = next(script.document(), 1, &lines(&crate::make::hex(&[key]), "assign", "n"));
        script.receive(&message);
    }
    script.receive(&message(id(2, 2), &deps(&[0, 0, 1]), &at("00")));
    script.receive(&message(id(2, 4), &deps(&[0, 0, 1]), &at("01")));
    script.receive(&message(id(257, 5), &deps(&[256, 0, 1]), &at("02")));
    script.receive(&message(id(257, 6), &deps(&[256, 0, 1]), &lines("03{61", "delete", "")));
    script.receive(&message(id(1, 3), &deps(&[]), &lines("05", "delete", "")));
    script.receive(&message(id(2, 2), &deps(&[0, 0, 1]), &at("00")));
    script.receive(&message(id(3, 2), &deps(&[0, 2, 1]), &at("00")));
    script.receive(&message(id(2, 3), &deps(&[7, 0, 1]), &lines("00", "delete", "")));
    script.receive(&message(id(3, 3), &deps(&[0, 0, 2]), &lines("06", "delete", "")));
    script.receive(&message(id(8, 3), &deps(&[7, 0, 3]), &lines("06", "delete", "")));
    script.receive(&message(id(300, 3), &deps(&[256, 0, 8]), &lines("07", "delete", "")));
    script.receive(&message(id(301, 3), &deps(&[256, 0, 300]), &lines("08", "delete", "")));
    script.save();
}

/// More than can wait, of every terminal; then the first of each, and all once more.
fn gaps(random: &mut Random, script: &mut Script) {
    script.reset();
    let mut first = Vec::new();
    let mut later = Vec::new();
    for terminal in 1..=8 {
        let mut own = 0;
        for place in 0..11 {
            let counter = own + random.from_to(1, 2) as u32;
            let mut deps = deps(&[]);
            deps.0[terminal - 1] = own;
            let key = format!("6{}", random.below(9));
            let message = message(id(counter, terminal as u8), &deps, &at(&key));
            if place == 0 { &mut first } else { &mut later }.push(message);
            own = counter;
        }
    }
    random.shuffle(&mut first);
    random.shuffle(&mut later);
    for message in later.iter().chain(&first).chain(&later) {
        script.receive(message);
    }
    script.save();
}

/// Wild messages until many wait, then what they wait for.
fn crowded(random: &mut Random, script: &mut Script) {
    for _ in 0..3 {
        script.reset();
        for _ in 0..150 {
            let message = wild(random, script.document(), WILD, 1..=8);
            script.receive(&message);
        }
        script.save();
    }
}
