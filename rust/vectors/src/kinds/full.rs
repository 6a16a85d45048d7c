//! Documents at their limits: 256 places, 1,024 marks, 256 values; clearing many places;
//! inserts that step over many elements.

use sheet::Document;

use crate::call::Call;
use crate::make::{deps, edit, heard, hex, id, lines, message, wild, Taste};
use crate::random::Random;
use crate::script::{Script, ROOM};

pub fn play(random: &mut Random, script: &mut Script) {
    places(script);
    marks(script);
    values(script);
    clearing(script);
    inserts(random, script);
    any_order(random, script);
    longest_sheet(script);
    over_in_sheets(script);
    many_values(script);
    for deeper in [30, 60, 85] {
        near(random, script, deeper);
    }
}

fn places(script: &mut Script) {
    script.reset();
    for key in 0..=255 {
        script.receive_next(1, &hex(&[key]), "assign", "{");
    }
    for (at, deed, value) in [
        ("0000", "assign", "n"),
        ("0000", "delete", ""),
        ("0000{00", "delete", ""),
        ("00{00", "assign", "n"),
        ("00{00", "delete", ""),
        ("00[^", "insert", "n"),
        ("00{00{00", "delete", ""),
        ("00", "assign", "i1"),
        ("ff", "assign", "["),
        ("ff", "delete", ""),
        ("ff[^", "insert", "{"),
    ] {
        script.receive_next(2, at, deed, value);
        script.edit(3, &lines(at, deed, value));
    }
    script.at_border(|buffer| Call::Keys { way: b"", buffer });
    script.at_border(|buffer| Call::Save { buffer });
}

fn marks(script: &mut Script) {
    script.reset();
    let deep = ["61"; 8].join("{");
    for _ in 0..127 {
        script.receive_next(1, &deep, "assign", "t");
    }
    for _ in 0..7 {
        script.receive_next(1, "61", "assign", "f");
    }
    script.receive_next(2, "61{61", "assign", "f");
    script.receive_next(2, "61", "assign", "f");
    script.receive_next(2, "61", "assign", "f");
    script.receive_next(2, "62", "delete", "");
    script.receive_next(2, "62{61", "delete", "");
    script.receive_next(2, "61[^", "insert", "n");
    script.edit(3, &lines("61", "assign", "f"));
    script.receive_next(2, &["61"; 5].join("{"), "assign", "[");
    script.receive_next(2, "61[^", "insert", "n");
    script.save();
    script.receive_next(1, "61", "assign", "{");
    script.save();
}

fn values(script: &mut Script) {
    script.reset();
    for key in 0..=255 {
        script.receive_next(1, &hex(&[key]), "assign", "t");
    }
    let apart = lines("00", "assign", "f");
    script.receive(&message(id(1, 2), &deps(&[]), &apart));
    script.receive_next(3, "01", "assign", "n");
    script.receive_next(3, "02", "delete", "");
    script.receive(&message(id(1, 2), &deps(&[]), &apart));
    script.receive(&message(id(2, 2), &deps(&[0, 1]), &apart));
    script.receive(&message(id(1, 4), &deps(&[]), &apart));
    script.receive_next(4, "00{00", "delete", "");
    script.receive_next(4, "00", "assign", "[");
    script.receive(&message(id(1, 5), &deps(&[]), &lines("00", "assign", "i-1")));
    script.values(b"00");
    script.save();
}

/// A list of 250 elements, some with a neighbour's mark, is cleared.
fn clearing(script: &mut Script) {
    script.reset();
    script.receive_next(1, "6c", "assign", "[");
    let mut prev = "^".to_string();
    for counter in 2..=251 {
        script.receive_next(1, &format!("6c[{prev}"), "insert", "t");
        prev = format!("{counter}.1");
    }
    for (element, counter) in [(2, 300), (100, 301), (251, 302)] {
        let deps = heard(script.document(), 2, &[251]);
        let at = format!("6c[{element}.1");
        script.receive(&message(id(counter, 2), &deps, &lines(&at, "assign", "f")));
    }
    script.receive(&message(id(303, 1), &deps(&[251, 300]), &lines("6c", "delete", "")));
    script.element(b"6c[", 1);
    script.element(b"6c[", 2);
    script.element(b"6c[", 3);
    script.save();
    script.receive_next(3, "6c[150.1", "insert", "{");
    script.receive_next(3, "6c", "delete", "");
    script.keys(b"");
    script.save();
}

/// Terminals that haven't seen each other insert at the head and after one element.
fn inserts(random: &mut Random, script: &mut Script) {
    script.reset();
    script.receive_next(8, "6c", "assign", "[");
    script.receive_next(8, "6c[^", "insert", "t");
    for counter in 3..=122 {
        let deps = deps(&[0, if counter == 3 { 0 } else { counter - 1 }, 0, 0, 0, 0, 0, 2]);
        script.receive(&message(id(counter, 2), &deps, &lines("6c[2.8", "insert", "n")));
    }
    for counter in 3..=62 {
        let at = if counter % 2 == 0 { "6c[2.8" } else { "6c[^" };
        let deps = deps(&[if counter == 3 { 0 } else { counter - 1 }, 0, 0, 0, 0, 0, 0, 2]);
        script.receive(&message(id(counter, 1), &deps, &lines(at, "insert", "{")));
    }
    for _ in 0..60 {
        let terminal = random.from_to(3, 7);
        let deps = heard(script.document(), terminal, &[0, 0, 0, 0, 0, 0, 0, 2]);
        let counter = deps.largest() + random.from_to(1, 9) as u32;
        let at = if random.chance(50) { "6c[2.8" } else { "6c[^" };
        script.receive(&message(id(counter, terminal as u8), &deps, &lines(at, "insert", "[")));
    }
    script.save();
}

/// A list that was loaded in any order, which no inserts would give.
fn any_order(random: &mut Random, script: &mut Script) {
    let mut elements: Vec<(usize, usize)> = (1..=20).flat_map(|c| (1..=5).map(move |r| (c, r))).collect();
    random.shuffle(&mut elements);
    let mut sheet = "sheet=1\nseen=20,20,20,20,20,0,0,0\nplace=1{l6c\nmark=20.5\n".to_string();
    for (counter, terminal) in &elements {
        sheet.push_str(&format!("place=2[-{counter}.{terminal}\n"));
        if counter % 3 == 0 {
            sheet.push_str("mark=20.5\n");
        }
    }
    sheet.push_str("end=101\n");
    script.load(sheet.as_bytes());
    for _ in 0..100 {
        let terminal = random.from_to(6, 8);
        let own = script.document().seen().0[terminal - 1];
        let counter = own + random.from_to(1, 2) as u32;
        let covered = (counter - 1).min(20);
        let deps = heard(script.document(), terminal, &[covered; 5]);
        let covered: Vec<_> = elements.iter().filter(|(c, _)| *c as u32 <= covered).collect();
        let at = if covered.is_empty() || random.chance(20) {
            "6c[^".to_string()
        } else {
            let (counter, terminal) = random.pick(&covered);
            format!("6c[{counter}.{terminal}")
        };
        script.receive(&message(id(counter, terminal as u8), &deps, &lines(&at, "insert", "n")));
        if random.chance(10) {
            script.element(b"6c[", random.from_to(1, 60) as u64);
        }
    }
    script.save();
}

/// The longest sheet that there is: 51,053 bytes.
fn longest_sheet(script: &mut Script) {
    let last = 4_294_967_294u32;
    let seen = [last; 8].map(|counter| counter.to_string()).join(",");
    let mut sheet = format!("sheet=1\nseen={seen}\n");
    for place in 0..=255 {
        sheet.push_str(&format!("place=1{{b{}\n", hex(&[place; 16])));
        for terminal in 1..=4 {
            sheet.push_str(&format!("mark={last}.{terminal}\n"));
        }
        sheet.push_str(&format!("value={last}.4:s{}\n", hex(&[255 - place; 32])));
    }
    sheet.push_str("end=256\n");
    assert_eq!(sheet.len(), 51_053, "the longest sheet");
    script.load(sheet.as_bytes());
    for buffer in [51_053, 51_052, 0] {
        script.call(Call::Save { buffer });
    }
    script.at_border(|buffer| Call::Keys { way: b"", buffer });
    let key = hex(&[7; 16]);
    let longest = lines(&key, "assign", &format!("s{}", hex(&[9; 32])));
    for (device, lines) in [(1, &longest), (2, &lines(&key, "delete", "")), (2, &longest)] {
        for buffer in [200, ROOM] {
            script.call(Call::Edit { device, lines, buffer });
        }
    }
    let lines = lines(&key, "delete", "");
    script.receive(&message(id(last, 8), &deps(&[last - 1; 8]), &lines));
    script.receive(&message(id(last + 1, 8), &deps(&[last; 8]), &lines));
    script.receive(&message(id(last + 1, 7), &deps(&[last; 8]), &longest));
    script.edit(8, &longest);
    script.values(key.as_bytes());
}

/// Sheets at each limit and one over it, and one with a very long line.
fn over_in_sheets(script: &mut Script) {
    let head = "sheet=1\nseen=200,0,0,0,0,0,0,0\n";
    let ids = |name: &str, behind: &str| -> String {
        (1..=128).map(|counter| format!("{name}={counter}.1{behind}\n")).collect()
    };
    let places: String = (0..256).map(|key| format!("place=1{{b{key:02x}\n")).collect();
    let marks: String = (0..8).map(|key| format!("place=1{{-0{key}\n{}", ids("mark", ""))).collect();
    let values: String =
        (0..2).map(|key| format!("place=1{{-0{key}\n{}{}", ids("mark", ""), ids("value", ":n"))).collect();
    for (full, more, count) in [
        (&places, "", 256),
        (&places, "place=2{-00\n", 257),
        (&places, "place=2[-1.1\n", 257),
        (&marks, "", 8),
        (&marks, "mark=129.1\n", 8),
        (&values, "place=1{-03\nmark=1.1\n", 3),
        (&values, "place=1{-03\nmark=1.1\nvalue=1.1:t\n", 3),
    ] {
        if script.load(format!("{head}{full}{more}end={count}\n").as_bytes()).number() == 0 {
            script.call(Call::Save { buffer: 0 });
            script.receive_next(2, "02", "assign", "n");
            script.receive_next(2, "ffff", "assign", "n");
        }
    }
    let long = "0".repeat(30_000);
    script.load(format!("{head}place=1{{-{long}\nend=1\n").as_bytes());
}

/// A place with 256 values, which no inserts or assigns would give.
fn many_values(script: &mut Script) {
    let ids: Vec<String> = (1..=32).flat_map(|c| (1..=8).map(move |r| format!("{c}.{r}"))).collect();
    let mut sheet = "sheet=1\nseen=32,32,32,32,32,32,32,32\nplace=1{-61\n".to_string();
    for id in &ids {
        sheet.push_str(&format!("mark={id}\n"));
    }
    for id in &ids {
        sheet.push_str(&format!("value={id}:i{}\n", id.len()));
    }
    sheet.push_str("end=1\n");
    script.load(sheet.as_bytes());
    script.at_border(|buffer| Call::Values { way: b"61", buffer });
    let half = deps(&[16, 16, 16, 16, 32]);
    script.receive(&message(id(33, 5), &half, &lines("61", "assign", "t")));
    script.values(b"61");
    script.receive(&message(id(34, 5), &deps(&[32, 16, 0, 0, 33]), &lines("61", "delete", "")));
    script.save();
}

/// A document grown by chance until most of what would add to it is refused, and then
/// what wild terminals send.
fn near(random: &mut Random, script: &mut Script, deeper: usize) {
    let taste = Taste { deeper, astray: 1 };
    let mut document = Document::new();
    let mut refused = 0;
    while refused < 20 {
        let lines = edit(random, &document, taste);
        let spare = document.clone();
        let answer = document.edit(random.from_to(1, 3) as u64, &lines, &mut [0; ROOM]);
        if answer.number() == 10 {
            refused += 1;
        }
        // A delete near the root would make too much room again.
        if document.size().marks < spare.size().marks / 2 {
            document = spare;
        }
    }
    script.load(&document.sheet());
    for call in 0..120 {
        let message = wild(random, script.document(), taste, 1..=4);
        script.receive(&message);
        if call % 8 == 7 {
            let lines = edit(random, script.document(), taste);
            script.edit(5, &lines);
        }
    }
    script.save();
}
