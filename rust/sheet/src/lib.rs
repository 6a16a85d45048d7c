//! The sheet: a document that terminals edit apart and that comes out the same.
//! This is the second reading of document 01, written from it alone, to be run beside
//! the proved one. Each file is headed by the section that it follows.

mod answer;
mod document;
mod id;
mod judge;
mod load;
mod message;
mod place;
mod read;
mod save;
mod stream;
mod terminal;
mod text;
mod value;
mod way;

pub use answer::Answer;
pub use document::{Document, MOST_WAITING};
pub use id::{ready, Counters, Id, TERMINALS};
pub use judge::{size_of, Size, MOST};
pub use load::read_sheet;
pub use message::{read_edit, read_message, Deed, Edit, NotInLayout, Operation, LONGEST};
pub use place::{Branches, Element, Place};
pub use stream::{merge, messages, Messages};
pub use text::Bytes;
pub use value::{Plain, Text, Value};
pub use way::{read_element_way, read_keys_way, read_values_way, read_way, Key, Step, Way, DEPTH};
