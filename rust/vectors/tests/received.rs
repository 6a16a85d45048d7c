//! The kind `received`: resets, messages and saves only, with every answer that can come to them, and
//! the documents of the kinds that it is made of.

mod common;
use std::collections::BTreeMap;

use common::kept;
use vectors::call::Call;
use vectors::replay::take_answer;

#[test]
fn its_calls_are_resets_messages_and_saves() {
    let script = kept("received.script");
    let mut rest = &script[..];
    let mut last = None;
    while let Some(call) = Call::take(&mut rest) {
        assert!(matches!(call, Call::Reset | Call::Receive { .. } | Call::Save { .. }), "{call:?}");
        let saved = matches!(last, None | Some(Call::Save { .. }));
        assert!(call != Call::Reset || saved, "ahead of a reset the document is saved");
        last = Some(call);
    }
    assert!(matches!(last, Some(Call::Save { .. })));
    assert!(script.len() < 900_000, "{}", script.len());
    assert!(kept("received.answers").len() < 900_000);
}

#[test]
fn each_answer_stands_there() {
    let answers = kept("received.answers");
    let mut rest = &answers[..];
    let mut counts: BTreeMap<String, usize> = BTreeMap::new();
    let mut longest = 0;
    while let Some((words, written)) = take_answer(&mut rest) {
        *counts.entry(words[..2].join(" ")).or_default() += 1;
        if let ["receive", "0", applied, dropped] = words[..] {
            *counts.entry("settled".to_string()).or_default() += usize::from(applied != "1");
            *counts.entry("dropped".to_string()).or_default() += usize::from(dropped != "0");
        }
        longest = longest.max(written.len());
    }
    assert_eq!(longest, 51_053, "the longest sheet");
    let least = [
        ("reset 0", 300),
        ("receive 0", 4000),
        ("settled", 300),
        ("dropped", 200),
        ("receive 1", 300),
        ("receive 2", 200),
        ("receive 3", 800),
        ("receive 4", 300),
        ("receive 5", 1500),
        ("receive 6", 200),
        ("receive 7", 200),
        ("receive 8", 80),
        ("receive 10", 10),
        ("save 0", 400),
        ("save 13", 14),
    ];
    for (answer, least) in least {
        let count = counts.remove(answer).unwrap_or(0);
        assert!(count >= least, "{answer}: {count}");
    }
    assert!(counts.is_empty(), "{counts:?}");
}

/// The sheets that are saved.
fn sheets(answers: &[u8]) -> Vec<&[u8]> {
    let mut rest = answers;
    let answers = std::iter::from_fn(|| take_answer(&mut rest));
    answers.filter(|(words, _)| words[0] == "save").map(|(_, sheet)| sheet).collect()
}

#[test]
fn the_documents_go_the_same_way() {
    let received = kept("received.answers");
    // Nothing is loaded in these kinds, so each of their sheets comes again, in order.
    for kind in ["honest", "deleted", "chains"] {
        let source = kept(&format!("{kind}.answers"));
        let mut again = sheets(&received).into_iter();
        for sheet in sheets(&source) {
            assert!(again.any(|other| other == sheet), "{kind}");
        }
    }
}
