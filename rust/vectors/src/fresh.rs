//! Streams for `merge`: honest messages late, shuffled and repeated, damaged ones, wild ones; and
//! crowds of wild ones, which fill the document and the room to wait.

use std::collections::VecDeque;

use sheet::{Answer, Document, Id, MOST_WAITING};

use crate::make::{damaged, edit, honest_edit, next, next_id, wild, DEEP, FLAT, WILD};
use crate::random::Random;

/// Honest terminals are numbered from 1 to this; the wild ones follow.
const HONEST_TERMINALS: usize = 4;
/// How many honest messages are on their way at most.
const MOST_COMING: usize = 24;

/// An honest terminal and the messages that it hasn't had yet, in the order they were made.
struct Terminal {
    document: Document,
    coming: Vec<Vec<u8>>,
}

/// The stream so far, and what `merge` makes of it.
struct Stream {
    bytes: Vec<u8>,
    /// Where the last message begins, which what follows can still make longer.
    open: usize,
    merged: Document,
    /// The last 50 messages, some of which come again.
    sent: VecDeque<Vec<u8>>,
}

impl Stream {
    fn new() -> Stream {
        Stream { bytes: Vec::new(), open: 0, merged: Document::new(), sent: VecDeque::new() }
    }

    fn push(&mut self, message: Vec<u8>) {
        self.bytes.extend_from_slice(&message);
        self.sent.push_back(message);
        if self.sent.len() > 50 {
            self.sent.pop_front();
        }
        let messages: Vec<&[u8]> = sheet::messages(&self.bytes[self.open..]).collect();
        if let Some((_, whole)) = messages.split_last() {
            for message in whole {
                self.merged.receive(message);
                self.open += message.len();
            }
        }
    }

    /// One of the last messages.
    fn again(&self, random: &mut Random) -> Vec<u8> {
        self.sent[random.below(self.sent.len())].clone()
    }

    /// Whether a message needn't come again.
    fn has(&self, id: Id) -> bool {
        self.merged.seen().covers(id) || self.merged.waiting().iter().any(|waiting| waiting.id == id)
    }
}

/// A stream of `count` messages. Every third seed gives a crowd.
pub fn stream(seed: u64, count: usize) -> Vec<u8> {
    let write = if seed % 3 == 0 { crowd } else { mixed };
    write(&mut Random::new(seed), count)
}

/// Seven terminals that send what they like, most of it near what `merge` has seen, ready or not;
/// and one whose messages wait for one of its own, which comes once there is no room to wait.
fn crowd(random: &mut Random, count: usize) -> Vec<u8> {
    let taste = *random.pick(&[FLAT, WILD, DEEP]);
    let mut stream = Stream::new();
    let mut chain: Option<Chain> = None;
    for _ in 0..count {
        let merged = &stream.merged;
        let message = match random.below(100) {
            0..=7 if !stream.sent.is_empty() => stream.again(random),
            8..=11 => {
                let message = wild(random, merged, taste, 1..=7);
                damaged(random, &message)
            }
            12..=35 => {
                let begun = chain.get_or_insert_with(|| Chain::new(random, merged));
                if merged.waiting().len() == MOST_WAITING && random.chance(20) {
                    let first = begun.first.clone();
                    chain = None;
                    first
                } else {
                    honest_message(random, &mut begun.document, 8)
                }
            }
            36..=59 => {
                let lines = edit(random, merged, taste);
                next(merged, random.from_to(1, 7) as u8, &lines)
            }
            _ => wild(random, merged, taste, 1..=7),
        };
        stream.push(message);
    }
    stream.bytes
}

/// Terminal 8, which goes on from what `merge` had, and the first message that it then sent.
struct Chain {
    document: Document,
    first: Vec<u8>,
}

impl Chain {
    fn new(random: &mut Random, merged: &Document) -> Chain {
        let mut document = Document::new();
        document.load(&merged.sheet());
        let first = honest_message(random, &mut document, 8);
        Chain { document, first }
    }
}

/// Four honest terminals, whose messages all come, and four wild ones.
fn mixed(random: &mut Random, count: usize) -> Vec<u8> {
    let new = || Terminal { document: Document::new(), coming: Vec::new() };
    let mut terminals: Vec<Terminal> = (0..HONEST_TERMINALS).map(|_| new()).collect();
    let mut stream = Stream::new();
    let mut coming: VecDeque<(Id, Vec<u8>)> = VecDeque::new();
    for _ in 0..count {
        coming.retain(|(id, _)| !stream.has(*id));
        while coming.len() < MOST_COMING {
            coming.push_back(honest(random, &mut terminals));
        }
        let message = match random.below(100) {
            0..=9 if !stream.sent.is_empty() => stream.again(random),
            10..=13 => broken(random, &coming[0].1),
            14..=17 => {
                let message = wild(random, &stream.merged, WILD, HONEST_TERMINALS + 1..=8);
                damaged(random, &message)
            }
            // The honest ones don't hear of the wild ones' places: room is left for them.
            18..=24 if stream.merged.size().places < 180 => {
                wild(random, &stream.merged, WILD, HONEST_TERMINALS + 1..=8)
            }
            kind => {
                // It comes again, behind the others, if it gets lost: if there is no room
                // to wait, or if a damaged message before or behind it joins it.
                let at = if kind < 75 { 0 } else { random.below(coming.len()) };
                let (id, message) = coming.remove(at).expect("as many are coming");
                coming.push_back((id, message.clone()));
                message
            }
        };
        stream.push(message);
    }
    stream.bytes
}

/// Damaged so that no honest terminal seems to have said something else: what it says
/// next would be lost.
fn broken(random: &mut Random, message: &[u8]) -> Vec<u8> {
    loop {
        let damaged = damaged(random, message);
        let read = sheet::read_message(&damaged);
        if !read.is_ok_and(|operation| usize::from(operation.id.terminal) <= HONEST_TERMINALS) {
            return damaged;
        }
    }
}

/// The message of an honest terminal that first hears some of what the others said.
fn honest(random: &mut Random, terminals: &mut [Terminal]) -> (Id, Vec<u8>) {
    let editing = random.below(terminals.len());
    let terminal = &mut terminals[editing];
    let heard = random.below(terminal.coming.len() + 1);
    for message in terminal.coming.drain(..heard) {
        terminal.document.receive(&message);
    }
    let device = editing as u8 + 1;
    let id = next_id(&terminal.document, device);
    let message = honest_message(random, &mut terminal.document, device);
    for (index, other) in terminals.iter_mut().enumerate() {
        if index != editing {
            other.coming.push(message.clone());
        }
    }
    (id, message)
}

/// The message of an honest edit of a terminal's document.
fn honest_message(random: &mut Random, document: &mut Document, terminal: u8) -> Vec<u8> {
    let device = u64::from(terminal);
    let lines = honest_edit(random, document, device);
    let mut message = vec![0; sheet::LONGEST];
    let Answer::Done { written, .. } = document.edit(device, &lines, &mut message) else {
        unreachable!("an honest edit is taken");
    };
    message.truncate(written);
    message
}
