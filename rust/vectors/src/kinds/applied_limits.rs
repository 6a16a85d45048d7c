//! Documents at their limits, of messages that are ready: 256 places, 1,024 marks, 256 values,
//! one over, and 250 places cleared.

use sheet::{Size, MOST};

use super::applied::receive;
use crate::call::Call;
use crate::make::{deps, heard, hex, id, lines, message};
use crate::random::Random;
use crate::script::Script;

/// 256 places, most of them by ways of eight new keys; then every way to be one over.
pub fn places(script: &mut Script) {
    script.reset();
    let under = ["61"; 6].join("{");
    for key in 0..31 {
        script.receive_next(1, &format!("{}{{{under}{{{}", hex(&[key]), hex(&[key, key])), "assign", "t");
    }
    for key in 0..4 {
        script.receive_next(2, &hex(&[0x80, key]), "assign", "[");
    }
    // 252 places: eight new ones are too many, and five
    script.receive_next(3, &["ff"; 8].join("{"), "assign", "n");
    script.receive_next(3, &["ff"; 5].join("{"), "assign", "n");
    script.receive_next(3, &["ff"; 5].join("{"), "delete", "");
    for _ in 0..4 {
        script.receive_next(3, "8000[^", "insert", "{");
    }
    assert_eq!(script.document().size().places, MOST.places);
    script.save();
    for (at, deed, value) in [
        ("0000", "assign", "n"),
        ("0000", "delete", ""),
        ("00{00", "assign", "n"),
        ("8001[^", "insert", "n"),
        ("8000[^", "insert", "n"),
        ("8000[36.3", "insert", "n"),
        ("8000[36.3", "delete", ""),
        ("8000[37.3", "assign", "n"),
        ("00", "assign", "i1"),
        ("00{61", "assign", "["),
        ("1e", "assign", "{"),
        ("1e", "delete", ""),
        ("1e{62", "delete", ""),
        ("1e{62", "assign", "t"),
        ("8000", "delete", ""),
        ("8000[^", "insert", "{"),
    ] {
        script.receive_next(4, at, deed, value);
    }
    script.at_border(|buffer| Call::Save { buffer });
}

/// 1,024 marks, by ways of eight keys; refused with one over at each depth; cleared in parts.
pub fn marks(script: &mut Script) {
    script.reset();
    let deep = ["61"; 8].join("{");
    for turn in 0..126 {
        let terminal = 1 + (turn % 2) as u8;
        script.receive_next(terminal, &deep, "assign", "t");
    }
    // 1,008 marks
    script.receive_next(3, "61[^", "insert", "t");
    script.receive_next(3, "62{61", "assign", "i5");
    script.receive_next(3, &["61"; 7].join("{"), "assign", "[");
    for _ in 0..33 {
        script.receive_next(4, &["61"; 7].join("{"), "assign", "s");
    }
    while script.document().size().marks < MOST.marks {
        script.receive_next(4, "61", "assign", "f");
    }
    script.save();
    for depth in 1..=8 {
        script.receive_next(5, &["61"; 8][..depth].join("{"), "assign", "f");
    }
    script.receive_next(5, "62", "delete", "");
    script.receive_next(5, &["61"; 7].join("{"), "assign", "t");
    script.receive_next(5, "61{61", "assign", "t");
    script.receive_next(5, "61[^", "insert", "t");
    // an assign of a branch clears first: it has room where a value hasn't
    script.receive_next(5, &["61"; 6].join("{"), "assign", "{");
    script.save();
    script.receive_next(5, "61{61", "assign", "[");
    script.save();
    script.receive_next(5, "61", "delete", "");
    script.save();
}

/// 256 values: eight terminals at 32 keys, none of which has heard of another.
pub fn values(script: &mut Script) {
    script.reset();
    for key in 0..32 {
        for terminal in 1..=8 {
            apart(script, terminal, &hex(&[key]), &format!("i{}", usize::from(key) * 8 + terminal));
        }
    }
    assert_eq!(script.document().size().values, MOST.values);
    script.save();
    apart(script, 1, "ff", "t");
    apart(script, 1, "00{00", "t");
    apart(script, 1, "00", "t");
    apart(script, 2, "ff", "{");
    apart(script, 2, "1f", "[");
    apart(script, 3, "1f", "n");
    apart(script, 4, "1f", "n");
    apart(script, 5, "fe", "n");
    apart(script, 6, "fe", "n");
    script.receive_next(7, "10", "assign", "s616263");
    apart(script, 6, "fe", "n");
    script.receive_next(7, "10", "delete", "");
    apart(script, 5, "10", "n");
    script.save();
}

/// An assign of a terminal that has heard of no other.
fn apart(script: &mut Script, terminal: usize, at: &str, value: &str) {
    let deps = heard(script.document(), terminal, &[]);
    let new = id(deps.largest() + 1, terminal as u8);
    receive(script, &message(new, &deps, &lines(at, "assign", value)));
}

/// 250 places under a key of the root, with 1,000 marks and more, are cleared: what one of
/// two terminals wrote, and then the rest.
pub fn clear_map(random: &mut Random, script: &mut Script, deed: &str, value: &str) {
    script.reset();
    let ways = (0..6).flat_map(|one| (0..40).map(move |two| (one, two)));
    let mut ways: Vec<String> =
        ways.map(|(one, two)| format!("6d{{61{{{}{{{}", hex(&[one]), hex(&[two]))).collect();
    random.shuffle(&mut ways);
    for (turn, way) in ways.iter().enumerate() {
        let plain = ["t", "i7", "s6162", "[", "{"][turn % 5];
        script.receive_next(1 + (turn % 2) as u8, way, "assign", plain);
    }
    for way in ways.iter().take(10) {
        script.receive_next(3, way, "assign", "f");
    }
    script.receive_next(3, "6d{61{62{63", "assign", "f");
    script.receive_next(3, "6d[^", "insert", "f");
    assert_eq!(script.document().size(), Size { places: 251, marks: 1_006, values: 150 });
    clear(script, "6d", deed, value);
}

/// The same of a list of 250 elements.
pub fn clear_list(script: &mut Script, deed: &str, value: &str) {
    script.reset();
    let mut prev = "^".to_string();
    for turn in 0..250u32 {
        let terminal = 1 + turn % 2;
        script.receive_next(terminal as u8, &format!("6c{{61[{prev}"), "insert", "t");
        prev = format!("{}.{terminal}", turn + 1);
    }
    for turn in 0..90 {
        let element = turn * 7 % 250;
        script.receive_next(3, &format!("6c{{61[{}.{}", element + 1, 1 + element % 2), "assign", "i3");
    }
    assert_eq!(script.document().size(), Size { places: 252, marks: 1_020, values: 250 });
    clear(script, "6c", deed, value);
}

/// Clears what the first terminal wrote at a key of the root, then all.
fn clear(script: &mut Script, at: &str, deed: &str, value: &str) {
    let seen = script.document().seen().0;
    let first = deps(&[seen[0]]);
    receive(script, &message(id(seen[0] + 1, 8), &first, &lines(at, deed, value)));
    script.save();
    script.receive_next(7, at, deed, value);
    script.save();
}
