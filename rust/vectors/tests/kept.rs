//! The kept vectors are what the generator gives, and they show what they are kept for.

mod common;
use std::collections::BTreeSet;
use std::fs;

use common::{folder, kept};
use sheet::{Branches, Document, MOST, MOST_WAITING};
use vectors::call::{Call, LONGEST_BUFFER};
use vectors::counts::Counts;
use vectors::kept::files;
use vectors::kinds::{script, KINDS};
use vectors::random::Random;
use vectors::replay::{perform, replay};
use vectors::streams::{examples, FIVE};

/// 4 MiB
const MOST_KEPT: usize = 4 * 1024 * 1024;

#[test]
fn the_generator_gives_the_very_bytes() {
    let files = files();
    for (name, bytes) in &files {
        assert!(kept(name) == *bytes, "{name} is not what `vectors keep` writes");
    }
    let made: BTreeSet<String> = files.into_iter().map(|(name, _)| name).collect();
    let there: BTreeSet<String> = fs::read_dir(folder())
        .unwrap()
        .map(|entry| entry.unwrap().file_name().into_string().unwrap())
        .filter(|name| !name.starts_with('.'))
        .collect();
    assert_eq!(there, made);
}

#[test]
fn they_are_4_mib_at_most() {
    let size: usize = files().iter().map(|(_, bytes)| bytes.len()).sum();
    assert!(size <= MOST_KEPT, "{size}");
}

#[test]
fn the_examples_give_the_sheet_of_document_01() {
    for (name, stream) in examples() {
        assert_eq!(String::from_utf8(sheet::merge(&stream).sheet()).unwrap(), FIVE, "{name}");
    }
}

#[test]
fn each_answer_is_there_but_9() {
    let mut counts = Counts::default();
    for (name, _) in KINDS {
        counts.add(&kept(&format!("{name}.answers")));
    }
    for (number, &count) in counts.calls.iter().enumerate() {
        assert_eq!(count == 0, number == 9, "{number} stands there {count} times");
    }
    assert!(counts.verdicts[0] > 300 && counts.verdicts[1] > 300, "{:?}", counts.verdicts);
    assert_eq!(counts.verdicts[2..], [0; 13]);
}

#[test]
fn a_script_is_its_calls_again_and_its_lines_are_short() {
    for (name, _) in KINDS {
        let script = kept(&format!("{name}.script"));
        let mut again = Vec::new();
        let mut rest = &script[..];
        while let Some(call) = Call::take(&mut rest) {
            call.write(&mut again);
            let buffer = match call {
                Call::Edit { buffer, .. }
                | Call::Element { buffer, .. }
                | Call::Save { buffer }
                | Call::Keys { buffer, .. }
                | Call::Values { buffer, .. } => buffer,
                _ => 0,
            };
            assert!(buffer <= LONGEST_BUFFER);
        }
        assert!(again == script, "{name}");
    }
}

#[test]
fn no_answer_says_changed() {
    for (name, _) in KINDS {
        let answers = kept(&format!("{name}.answers"));
        for line in answers.split(|&byte| byte == b'\n') {
            assert!(!line.ends_with(b" changed"), "{name}");
        }
    }
}

#[test]
fn the_limits_are_reached() {
    let mut most = sheet::Size::default();
    let mut most_waiting = 0;
    let mut deepest = 0;
    let mut longest = 0;
    for (name, _) in KINDS {
        let script = kept(&format!("{name}.script"));
        let mut document = Document::new();
        let mut rest = &script[..];
        while let Some(call) = Call::take(&mut rest) {
            let reply = perform(&mut document, &call, &mut Vec::new());
            let size = document.size();
            most.places = most.places.max(size.places);
            most.marks = most.marks.max(size.marks);
            most.values = most.values.max(size.values);
            most_waiting = most_waiting.max(document.waiting().len());
            longest = longest.max(reply.written.len());
            if let Call::Save { .. } = call {
                deepest = deepest.max(depth(document.root()));
            }
        }
    }
    assert_eq!(most, MOST);
    assert_eq!(most_waiting, MOST_WAITING);
    assert_eq!(deepest, 8);
    assert_eq!(longest, 51_053, "the longest sheet");
}

/// The greatest depth of a place under `branches`.
fn depth(branches: &Branches) -> usize {
    let keys = branches.map.iter().flat_map(|map| map.values());
    let elements = branches.elements().iter().map(|element| &element.place);
    keys.chain(elements).map(|place| 1 + depth(&place.under)).max().unwrap_or(0)
}

#[test]
fn another_seed_gives_another_script_that_can_be_played() {
    for (name, play) in KINDS {
        for seed in 2..6 {
            let script = script(*play, &Random::new(seed));
            assert!(!replay(&script).is_empty());
            let same = script == kept(&format!("{name}.script"));
            let fixed = ["example", "edges"].contains(name);
            assert_eq!(same, fixed, "{name}: only these two have nothing that chance chooses");
        }
    }
}
