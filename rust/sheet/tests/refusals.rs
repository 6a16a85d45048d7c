//! All but 0 and 5 leave document, waiting messages and buffers unchanged.

use sheet::{Answer, Document};
use vectors::make::{self, damaged, edit, way, wild, Taste};
use vectors::random::Random;

const FILL: u8 = 0xa5;

/// Calls by chance, each checked; counts the answers.
struct Trial {
    random: Random,
    document: Document,
    counts: [usize; 15],
}

impl Trial {
    fn check(&mut self, before: &Document, answer: Answer, buffer: &[u8]) {
        self.counts[usize::from(answer.number())] += 1;
        let written = match answer {
            Answer::Done { written, .. } => written,
            Answer::Waits => {
                let (last, waiting) = self.document.waiting().split_last().unwrap();
                assert_eq!(waiting, before.waiting());
                assert!(!waiting.iter().any(|other| other.id == last.id));
                assert_eq!(self.document.sheet(), before.sheet());
                0
            }
            _ => {
                assert_eq!(self.document, *before, "{answer:?}");
                0
            }
        };
        assert!(buffer[written..].iter().all(|&byte| byte == FILL), "{answer:?}");
        assert!(buffer[..written].iter().all(|&byte| byte != FILL), "{answer:?}");
    }

    fn step(&mut self, taste: Taste) {
        let before = self.document.clone();
        let length = *self.random.pick(&[0, 3, 50, 90, 500, 60_000]);
        let mut buffer = vec![FILL; length];
        let (text, _) = way(&mut self.random, &before, taste);
        let answer = match self.random.below(12) {
            0..=4 => {
                let message = wild(&mut self.random, &before, taste, 1..=4);
                self.document.receive(&message)
            }
            5 => {
                let message = wild(&mut self.random, &before, taste, 1..=4);
                let message = damaged(&mut self.random, &message);
                self.document.receive(&message)
            }
            6 | 7 => {
                let lines = edit(&mut self.random, &before, taste);
                let lines = if self.random.chance(80) { lines } else { damaged(&mut self.random, &lines) };
                self.document.edit(self.random.below(10) as u64, &lines, &mut buffer)
            }
            8 => self.document.keys(format!("{text}{{").as_bytes(), &mut buffer),
            9 => self.document.values(text.as_bytes(), &mut buffer),
            10 => {
                self.document.element(format!("{text}[").as_bytes(), self.random.below(4) as u64, &mut buffer)
            }
            _ if self.random.chance(80) => self.document.save(&mut buffer),
            _ => {
                let sheet = damaged(&mut self.random, &before.sheet());
                self.document.load(&sheet)
            }
        };
        self.check(&before, answer, &buffer);
    }
}

#[test]
fn change_nothing() {
    let mut trial = Trial { random: Random::new(21), document: Document::new(), counts: [0; 15] };
    for deeper in [30, 55, 85] {
        for _ in 0..4 {
            trial.document = Document::new();
            for _ in 0..700 {
                trial.step(Taste { deeper, astray: 10 });
            }
        }
    }
    // The last counter, for 11.
    trial.document.load(b"sheet=1\nseen=4294967295,0,0,0,0,0,0,0\nend=0\n");
    for _ in 0..100 {
        trial.step(make::WILD);
    }
    // 65 that wait, for 7.
    trial.document = Document::new();
    for counter in 2..=66 {
        let message = make::message(make::id(counter, 1), &make::deps(&[1]), b"at=61\ndo=delete\n");
        let before = trial.document.clone();
        let answer = trial.document.receive(&message);
        trial.check(&before, answer, &[]);
    }
    for (number, count) in trial.counts.into_iter().enumerate() {
        assert_eq!(count == 0, number == 9, "{number} was answered {count} times");
    }
}
