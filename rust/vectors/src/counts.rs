//! How often each answer number stands in a script's answers, or is given to a stream's messages.

use sheet::{Answer, Document};

use crate::replay::take_answer;

/// The number of answers 0 to 14: of calls, and of verdicts on the layout.
#[derive(Clone, Copy, Default, PartialEq, Eq, Debug)]
pub struct Counts {
    pub calls: [usize; 15],
    pub verdicts: [usize; 15],
}

impl Counts {
    /// Adds the answers of one script.
    pub fn add(&mut self, answers: &[u8]) {
        let mut rest = answers;
        while let Some((words, _)) = take_answer(&mut rest) {
            let number: usize = words[1].parse().expect("an answer's number");
            let of = if words[0].starts_with("is") { &mut self.verdicts } else { &mut self.calls };
            of[number] += 1;
        }
    }
}

/// Of the messages of a stream, and how many of them were applied and dropped in all.
pub fn of_stream(stream: &[u8]) -> (Counts, usize, usize) {
    let mut document = Document::new();
    let mut counts = Counts::default();
    let (mut all_applied, mut all_dropped) = (0, 0);
    for message in sheet::messages(stream) {
        let answer = document.receive(message);
        counts.calls[usize::from(answer.number())] += 1;
        if let Answer::Done { applied, dropped, .. } = answer {
            all_applied += applied;
            all_dropped += dropped;
        }
    }
    (counts, all_applied, all_dropped)
}
