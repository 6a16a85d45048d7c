//! The document: what was seen, the places, and the messages that wait.
//! Document 01, "Ids, what was seen, what depends", "Places" and "What is answered".

use crate::id::Counters;
use crate::judge::Size;
use crate::message::Operation;
use crate::place::Branches;

/// The most messages that wait.
pub const MOST_WAITING: usize = 64;

/// A terminal's document.
#[derive(Clone, PartialEq, Eq, Debug)]
pub struct Document {
    pub(crate) seen: Counters,
    pub(crate) root: Branches,
    /// Kept with every change, so that 10 is judged without a count of the whole document.
    pub(crate) size: Size,
    /// In order of arrival, no id twice.
    pub(crate) waiting: Vec<Operation>,
}

impl Document {
    /// An empty document that has seen nothing.
    pub fn new() -> Document {
        Document {
            seen: Counters::default(),
            root: Branches::root(),
            size: Size::default(),
            waiting: Vec::new(),
        }
    }

    pub fn seen(&self) -> &Counters {
        &self.seen
    }

    pub fn root(&self) -> &Branches {
        &self.root
    }

    pub fn size(&self) -> Size {
        self.size
    }

    /// The messages that wait, in order of arrival.
    pub fn waiting(&self) -> &[Operation] {
        &self.waiting
    }
}

impl Default for Document {
    fn default() -> Document {
        Document::new()
    }
}
