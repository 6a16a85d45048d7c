//! Receiving, editing and settling, with the order of the trials.
//! Document 01, "What is answered".

use crate::answer::{fill, Answer};
use crate::document::{Document, MOST_WAITING};
use crate::id::{ready, Id, TERMINALS};
use crate::judge::{elements_known, prev_smaller, size_after, size_of, Size};
use crate::message::{read_edit, read_message, write_head, Operation, LONGEST};

impl Document {
    /// Receives one message. Tries 1, 2, 3, 4; if not ready 6, 7, 5; if ready 8, 9, 10, 0.
    pub fn receive(&mut self, message: &[u8]) -> Answer {
        let Ok(operation) = read_message(message) else {
            return Answer::NotInLayout;
        };
        if operation.id.counter <= operation.deps.largest() {
            return Answer::NotAboveDeps;
        }
        if let Some(refusal) = self.old(&operation) {
            return refusal;
        }
        if !self.ready(&operation) {
            return self.wait(operation);
        }
        match self.judge(&operation) {
            Err(refusal) => refusal,
            Ok(size) => self.apply_and_settle(&operation, size, 0),
        }
    }

    /// Makes a local edit of the terminal numbered `device`, from a message's lines from
    /// `at=` on. Tries 1, 11, 8, 9, 10, 13, 0. Its message fills the buffer's start.
    pub fn edit(&mut self, device: u64, lines: &[u8], buffer: &mut [u8]) -> Answer {
        let Ok(edit) = read_edit(lines) else {
            return Answer::NotInLayout;
        };
        if !(1..=TERMINALS as u64).contains(&device) {
            return Answer::NotInLayout;
        }
        let Some(counter) = self.seen.largest().checked_add(1) else {
            return Answer::CountersUsedUp;
        };
        let id = Id { counter, terminal: device as u8 };
        let operation = Operation { id, deps: self.seen, edit };
        let size = match self.judge(&operation) {
            Err(refusal) => return refusal,
            Ok(size) => size,
        };
        let mut message = Vec::with_capacity(LONGEST);
        write_head(&mut message, id, &operation.deps);
        message.extend_from_slice(lines);
        match fill(buffer, &message) {
            Answer::Done { written, .. } => self.apply_and_settle(&operation, size, written),
            short => short,
        }
    }

    /// 3 or 4: what was applied, or would skip back.
    fn old(&self, operation: &Operation) -> Option<Answer> {
        let seen = self.seen.of(operation.id);
        if operation.id.counter <= seen {
            Some(Answer::NotAboveSeen)
        } else if operation.deps.of(operation.id) < seen {
            Some(Answer::OwnDepsBelowSeen)
        } else {
            None
        }
    }

    fn ready(&self, operation: &Operation) -> bool {
        ready(operation.id, &operation.deps, &self.seen)
    }

    /// 6, 7 or 5, of an operation that is not ready.
    fn wait(&mut self, operation: Operation) -> Answer {
        if self.waiting.iter().any(|waiting| waiting.id == operation.id) {
            Answer::WaitsAlready
        } else if self.waiting.len() >= MOST_WAITING {
            Answer::TooManyWait
        } else {
            self.waiting.push(operation);
            Answer::Waits
        }
    }

    /// 8 or 9, of a ready operation.
    fn astray(&self, operation: &Operation) -> Option<Answer> {
        if !elements_known(&self.root, operation) {
            Some(Answer::NotAnElement)
        } else if !prev_smaller(operation) {
            Some(Answer::PrevNotSmaller)
        } else {
            None
        }
    }

    /// The size after a ready operation that isn't astray; None if 10 stops it.
    fn size_after(&self, operation: &Operation) -> Option<Size> {
        Some(size_after(&self.root, self.size, operation)).filter(Size::fits)
    }

    /// 8, 9 or 10, of a ready operation, or the size after it.
    fn judge(&self, operation: &Operation) -> Result<Size, Answer> {
        match self.astray(operation) {
            Some(refusal) => Err(refusal),
            None => self.size_after(operation).ok_or(Answer::OverLimit),
        }
    }

    fn apply(&mut self, operation: &Operation, size: Size) {
        self.root.apply(operation);
        self.seen.raise(operation.id);
        self.size = size;
        debug_assert_eq!(self.size, size_of(&self.root));
    }

    /// 0, of an operation that every trial has let pass.
    fn apply_and_settle(&mut self, operation: &Operation, size: Size, written: usize) -> Answer {
        self.apply(operation, size);
        let (applied, dropped) = self.settle();
        Answer::Done { applied: 1 + applied, dropped, written }
    }

    /// Settles the waiting messages; gives how many were applied and how many dropped.
    fn settle(&mut self) -> (usize, usize) {
        let mut applied = 0;
        let mut dropped = 0;
        loop {
            let mut waiting = std::mem::take(&mut self.waiting);
            let before = waiting.len();
            waiting.retain(|operation| !self.falls(operation));
            dropped += before - waiting.len();
            self.waiting = waiting;

            let Some((index, size)) = self.next_to_apply() else {
                return (applied, dropped);
            };
            let operation = self.waiting.remove(index);
            self.apply(&operation, size);
            applied += 1;
        }
    }

    /// Of the waiting operations that are ready and that 10 doesn't stop, the one with the
    /// smallest id: where it waits, and the size after it.
    fn next_to_apply(&self) -> Option<(usize, Size)> {
        let waiting = self.waiting.iter().enumerate();
        let ready = waiting.filter(|(_, operation)| self.ready(operation));
        let (_, index, size) = ready
            .filter_map(|(index, operation)| Some((operation.id, index, self.size_after(operation)?)))
            .min_by_key(|(id, ..)| *id)?;
        Some((index, size))
    }

    /// Whether settling drops a waiting operation: it is now 3, 4 or (ready) 8 or 9.
    fn falls(&self, operation: &Operation) -> bool {
        self.old(operation).is_some() || (self.ready(operation) && self.astray(operation).is_some())
    }
}
