//! Messages: an operation with its id, what it depends on, its way and what it does there.
//! Document 01, "Messages".

use crate::id::{Counters, Id};
use crate::text::{read_counters, read_id, take_named, write_counters, write_id};
use crate::value::Value;
use crate::way::{read_way, Step, Way};

/// The length of the longest message.
pub const LONGEST: usize = 463;

/// What is done at the way's last key.
#[derive(Clone, Copy, PartialEq, Eq, Debug)]
pub enum Deed {
    Assign(Value),
    Insert(Value),
    Delete,
}

/// A message's lines from `at=` on: all that a local edit gives.
#[derive(Clone, Copy, PartialEq, Eq, Debug)]
pub struct Edit {
    pub way: Way,
    pub deed: Deed,
}

/// A whole message.
#[derive(Clone, Copy, PartialEq, Eq, Debug)]
pub struct Operation {
    pub id: Id,
    pub deps: Counters,
    pub edit: Edit,
}

/// The bytes aren't a message, an edit or a way: answer 1.
#[derive(Clone, Copy, PartialEq, Eq, Debug)]
pub struct NotInLayout;

/// Reads one whole message.
pub fn read_message(message: &[u8]) -> Result<Operation, NotInLayout> {
    operation(message).ok_or(NotInLayout)
}

/// Reads a message's lines from `at=` on.
pub fn read_edit(lines: &[u8]) -> Result<Edit, NotInLayout> {
    edit(lines).ok_or(NotInLayout)
}

fn operation(message: &[u8]) -> Option<Operation> {
    let mut rest = message.strip_prefix(b"op=1\n")?;
    let id = read_id(take_named(&mut rest, b"id=")?)?;
    let deps = read_counters(take_named(&mut rest, b"deps=")?)?;
    let edit = edit(rest)?;
    Some(Operation { id, deps, edit })
}

fn edit(lines: &[u8]) -> Option<Edit> {
    let mut rest = lines;
    let way = read_way(take_named(&mut rest, b"at=")?)?;
    let (last, _) = way.split_last()?;
    let deed = match take_named(&mut rest, b"do=")? {
        b"assign" if *last != Step::Head => Deed::Assign(value(&mut rest)?),
        b"insert" if !matches!(last, Step::Key(_)) => Deed::Insert(value(&mut rest)?),
        b"delete" if *last != Step::Head => Deed::Delete,
        _ => return None,
    };
    rest.is_empty().then_some(Edit { way, deed })
}

fn value(rest: &mut &[u8]) -> Option<Value> {
    Value::read(take_named(rest, b"value=")?)
}

/// Writes the lines ahead of `at=`.
pub fn write_head(out: &mut Vec<u8>, id: Id, deps: &Counters) {
    out.extend_from_slice(b"op=1\nid=");
    write_id(out, id);
    out.extend_from_slice(b"\ndeps=");
    write_counters(out, deps);
    out.push(b'\n');
}

impl Edit {
    /// Writes the lines from `at=` on.
    pub fn write(&self, out: &mut Vec<u8>) {
        out.extend_from_slice(b"at=");
        self.way.write(out);
        let (name, value): (&[u8], _) = match &self.deed {
            Deed::Assign(value) => (b"assign", Some(value)),
            Deed::Insert(value) => (b"insert", Some(value)),
            Deed::Delete => (b"delete", None),
        };
        out.extend_from_slice(b"\ndo=");
        out.extend_from_slice(name);
        out.push(b'\n');
        if let Some(value) = value {
            out.extend_from_slice(b"value=");
            value.write(out);
            out.push(b'\n');
        }
    }
}

impl Operation {
    /// Writes the whole message.
    pub fn write(&self, out: &mut Vec<u8>) {
        write_head(out, self.id, &self.deps);
        self.edit.write(out);
    }
}
