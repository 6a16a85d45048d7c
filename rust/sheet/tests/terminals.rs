//! Terminals that edit apart and exchange late, twice and in any order end with equal sheets.

use sheet::{merge, Answer, Document};
use vectors::make::honest_edit;
use vectors::random::Random;

struct Terminal {
    device: u64,
    document: Document,
    /// Messages on their way to this terminal.
    coming: Vec<Vec<u8>>,
}

impl Terminal {
    fn edit(&mut self, random: &mut Random) -> Vec<u8> {
        let lines = honest_edit(random, &self.document, self.device);
        let mut message = vec![0; sheet::LONGEST];
        match self.document.edit(self.device, &lines, &mut message) {
            Answer::Done { written, .. } => message.truncate(written),
            refusal => panic!("an honest edit is refused: {refusal:?}"),
        }
        message
    }

    /// Receives any of the messages on their way, which may come again.
    fn receive(&mut self, random: &mut Random) {
        if !self.coming.is_empty() {
            let at = random.below(self.coming.len());
            let number = self.document.receive(&self.coming[at]).number();
            assert!(matches!(number, 0 | 3 | 5 | 6 | 7), "an honest message is answered {number}");
            if number != 7 && !random.chance(30) {
                self.coming.remove(at);
            }
        }
    }
}

/// Lets terminals edit and exchange; gives them, and every message in the order it was made.
fn exchange(random: &mut Random, terminals: u64, edits: usize) -> (Vec<Terminal>, Vec<Vec<u8>>) {
    let new = |device| Terminal { device, document: Document::new(), coming: Vec::new() };
    let mut terminals: Vec<Terminal> = (1..=terminals).map(new).collect();
    let mut messages = Vec::new();
    for _ in 0..edits {
        let editing = random.below(terminals.len());
        for _ in 0..random.below(8) {
            terminals[editing].receive(random);
        }
        let message = terminals[editing].edit(random);
        for (index, other) in terminals.iter_mut().enumerate() {
            if index != editing {
                other.coming.push(message.clone());
            }
        }
        messages.push(message);
    }
    for terminal in &mut terminals {
        while !terminal.coming.is_empty() {
            terminal.receive(random);
        }
    }
    (terminals, messages)
}

#[test]
fn end_with_equal_sheets() {
    let mut random = Random::new(11);
    for round in 0..300 {
        let count = random.from_to(2, 8) as u64;
        let edits = random.from_to(5, 120);
        let (terminals, messages) = exchange(&mut random, count, edits);
        let first = &terminals[0].document;
        assert!(first.waiting().is_empty(), "round {round}");
        for terminal in &terminals {
            assert_eq!(terminal.document, *first, "round {round}");
            assert_eq!(terminal.document.sheet(), first.sheet());
        }
        // And the same as one that hears everything in the order it was made.
        assert_eq!(merge(&messages.concat()), *first, "round {round}");
    }
}

#[test]
fn any_order_and_number_of_messages_gives_the_same_sheet() {
    let mut random = Random::new(12);
    for round in 0..200 {
        let (terminals, mut messages) = exchange(&mut random, 4, 60);
        for _ in 0..3 {
            random.shuffle(&mut messages);
            assert_eq!(merge(&messages.concat()), terminals[0].document, "round {round}");
        }
        // Some twice, from the start.
        let mut twice = [&messages[..20], &messages].concat();
        random.shuffle(&mut twice);
        assert_eq!(merge(&twice.concat()), terminals[0].document, "round {round}");
    }
}

#[test]
fn a_terminal_that_loads_goes_on_as_before() {
    let mut random = Random::new(13);
    for _ in 0..100 {
        let (mut terminals, _) = exchange(&mut random, 3, 40);
        let mut loaded = Document::new();
        loaded.load(&terminals[0].document.sheet());
        for _ in 0..10 {
            let message = terminals[1].edit(&mut random);
            assert_eq!(loaded.receive(&message), terminals[0].document.receive(&message));
            assert_eq!(loaded, terminals[0].document);
        }
    }
}
