//! The kinds `edges` and `edited`: no sheet is loaded, and every limit of edits and reads is reached.

mod common;
use std::collections::{BTreeMap, BTreeSet};

use common::kept;
use vectors::call::Call;
use vectors::kinds::{script, MADE};
use vectors::random::Random;
use vectors::replay::{replay, take_answer};

fn edited() -> Vec<u8> {
    let (name, play) = MADE[0];
    assert_eq!(name, "edited");
    script(play, &Random::new(1))
}

fn calls(script: &[u8]) -> Vec<Call<'_>> {
    let mut rest = script;
    std::iter::from_fn(|| Call::take(&mut rest)).collect()
}

#[test]
fn no_sheet_is_loaded() {
    for script in [kept("edges.script"), edited()] {
        assert!(!calls(&script).iter().any(|call| matches!(call, Call::Load { .. })));
    }
}

/// How often each answer stands there.
fn counts(answers: &[u8]) -> BTreeMap<String, usize> {
    let mut counts = BTreeMap::new();
    let mut rest = answers;
    while let Some((words, _)) = take_answer(&mut rest) {
        *counts.entry(words[..2].join(" ")).or_default() += 1;
    }
    counts
}

#[test]
fn each_answer_of_an_edit_and_a_read_stands_there_but_9() {
    for (answers, least) in [(kept("edges.answers"), 8), (replay(&edited()), 16)] {
        let counts = counts(&answers);
        for (name, numbers) in [
            ("edit", &[0, 1, 8, 10, 11, 13][..]),
            ("keys", &[0, 1, 13, 14]),
            ("values", &[0, 1, 13, 14]),
            ("element", &[0, 1, 13, 14]),
        ] {
            for number in 0..15 {
                let count = counts.get(&format!("{name} {number}")).copied().unwrap_or(0);
                assert_eq!(count >= least, numbers.contains(&number), "{name} {number}: {count}");
            }
        }
    }
}

#[test]
fn the_limits_of_edits_and_reads_are_reached() {
    let script = kept("edges.script");
    let calls = calls(&script);
    let devices: BTreeSet<u64> =
        calls.iter().filter_map(|call| if let Call::Edit { device, .. } = call { Some(*device) } else { None }).collect();
    for device in (0..=9).chain([u64::MAX]) {
        assert!(devices.contains(&device), "{device}");
    }
    let indexes: BTreeSet<u64> =
        calls.iter().filter_map(|call| if let Call::Element { index, .. } = call { Some(*index) } else { None }).collect();
    assert!([0, 1, 12, 13, u64::MAX].iter().all(|index| indexes.contains(index)));
    let answers = kept("edges.answers");
    let mut rest = &answers[..];
    let mut longest = BTreeMap::new();
    let mut needed = BTreeSet::new();
    let mut settled = (0, 0);
    while let Some((words, written)) = take_answer(&mut rest) {
        let most = longest.entry(words[0]).or_insert(0);
        *most = written.len().max(*most);
        match words[..] {
            ["edit", "13", bytes, _] => drop(needed.insert(bytes.to_string())),
            ["edit", "0", applied, dropped, ..] => {
                settled.0 += usize::from(applied != "1");
                settled.1 += usize::from(dropped != "0");
            }
            _ => {}
        }
    }
    assert_eq!(longest["edit"], 463, "the longest message");
    assert!(needed.contains("463"));
    assert_eq!(settled, (2, 2), "edits that settle what waits");
    // 256 keys of the root, of 1 to 16 bytes: 16 of 16, the others by turns of one to four
    assert!(longest["keys"] > 256 * 3, "{}", longest["keys"]);
}
