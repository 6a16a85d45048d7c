//! Ways: one to eight keys from the root down.
//! Document 01, "Messages" (`at=`) and "Reads" (a read's way).

use crate::id::Id;
use crate::text::{read_hex, read_id, write_hex, write_id, Bytes};

/// The most keys in a way; also the greatest depth of a place.
pub const DEPTH: usize = 8;

/// A key of a map: 0 to 16 bytes, any bytes.
pub type Key = Bytes<16>;

/// One key of a way. It says by itself which branch it hangs under: a `Key` under
/// the map branch of the place before it (or the root), the others under the list branch.
#[derive(Clone, Copy, PartialEq, Eq, Debug)]
pub enum Step {
    Key(Key),
    Element(Id),
    /// `^`
    Head,
}

impl Step {
    /// A key that follows `branch`, which is `{` or `[`.
    fn read(branch: u8, text: &[u8]) -> Option<Step> {
        match (branch, text) {
            (b'{', hex) => read_hex(hex).map(Step::Key),
            (_, b"^") => Some(Step::Head),
            (_, id) => read_id(id).map(Step::Element),
        }
    }
}

/// The keys of a way, held in place. No keys at all name the root.
#[derive(Clone, Copy, Debug)]
pub struct Way {
    steps: [Step; DEPTH],
    length: usize,
}

impl Way {
    pub fn root() -> Way {
        Way { steps: [Step::Head; DEPTH], length: 0 }
    }

    pub fn steps(&self) -> &[Step] {
        &self.steps[..self.length]
    }

    /// The last key and the keys before it. The root has none.
    pub fn split_last(&self) -> Option<(&Step, &[Step])> {
        self.steps().split_last()
    }

    fn push(&mut self, step: Step) -> Option<()> {
        *self.steps.get_mut(self.length)? = step;
        self.length += 1;
        Some(())
    }

    pub fn write(&self, out: &mut Vec<u8>) {
        for (index, step) in self.steps().iter().enumerate() {
            if index > 0 {
                out.push(if matches!(step, Step::Key(_)) { b'{' } else { b'[' });
            }
            match step {
                Step::Key(key) => write_hex(out, key.as_slice()),
                Step::Element(id) => write_id(out, *id),
                Step::Head => out.push(b'^'),
            }
        }
    }
}

impl PartialEq for Way {
    fn eq(&self, other: &Way) -> bool {
        self.steps() == other.steps()
    }
}

impl Eq for Way {}

/// The way of a message: `^` may stand last, after `[`.
pub fn read_way(text: &[u8]) -> Option<Way> {
    let mut way = Way::root();
    let mut branch = b'{';
    let mut rest = text;
    loop {
        let end = rest.iter().position(|byte| matches!(byte, b'{' | b'['));
        let step = Step::read(branch, &rest[..end.unwrap_or(rest.len())])?;
        way.push(step)?;
        match end {
            None => return Some(way),
            Some(_) if step == Step::Head => return None,
            Some(end) => {
                branch = rest[end];
                rest = &rest[end + 1..];
            }
        }
    }
}

/// The way of a read of values: as a message's, without `^`.
pub fn read_values_way(text: &[u8]) -> Option<Way> {
    let way = read_way(text)?;
    let head = way.split_last().is_some_and(|(last, _)| *last == Step::Head);
    (!head).then_some(way)
}

/// The way of a read of keys: `{` follows the last key too; no bytes name the root.
pub fn read_keys_way(text: &[u8]) -> Option<Way> {
    match text {
        [] => Some(Way::root()),
        [way @ .., b'{'] => read_values_way(way),
        _ => None,
    }
}

/// The way of a read of an element: `[` follows the last key too.
pub fn read_element_way(text: &[u8]) -> Option<Way> {
    match text {
        [way @ .., b'['] => read_values_way(way),
        _ => None,
    }
}
