//! Loading a sheet: each line is judged with those before it.
//! Document 01, "The saved sheet".

use std::collections::{BTreeMap, BTreeSet};

use crate::answer::Answer;
use crate::document::Document;
use crate::id::{Counters, Id};
use crate::judge::Size;
use crate::place::{Branches, Element, Place};
use crate::text::{read_counters, read_hex, read_id, read_number, take_line};
use crate::value::Plain;
use crate::way::{Key, DEPTH};

impl Document {
    /// Loads a sheet in place of the document and its waiting messages. Tries 12, 0.
    pub fn load(&mut self, sheet: &[u8]) -> Answer {
        match read_sheet(sheet) {
            Err(line) => Answer::BreaksAt { line },
            Ok(document) => {
                *self = document;
                Answer::Done { applied: 0, dropped: 0, written: 0 }
            }
        }
    }
}

/// The document of a sheet, or the number of the first line that breaks a rule.
pub fn read_sheet(sheet: &[u8]) -> Result<Document, usize> {
    let mut rest = sheet;
    take_line(&mut rest).filter(|line| line == b"sheet=1").ok_or(1usize)?;
    let seen = take_line(&mut rest).and_then(read_seen).ok_or(2usize)?;
    let mut loading = Loading::new(seen);
    for number in 3.. {
        match take_line(&mut rest).and_then(|line| loading.take(line)) {
            None => return Err(number),
            Some(Taken::Line) => {}
            Some(Taken::End) if rest.is_empty() => break,
            Some(Taken::End) => return Err(number + 1),
        }
    }
    Ok(loading.document())
}

fn read_seen(line: &[u8]) -> Option<Counters> {
    read_counters(line.strip_prefix(b"seen=")?)
}

/// A line that breaks no rule.
enum Taken {
    Line,
    End,
}

/// How a place hangs under its parent.
enum Hanging {
    Key(Key),
    Element(Id),
}

/// What was taken from the lines so far.
struct Loading {
    seen: Counters,
    root: Branches,
    /// The last place of each depth, from 1 on, that can still have places under it.
    /// Each is hung under its parent when the next place of its depth, or less, begins.
    open: Vec<(Hanging, Place)>,
    size: Size,
    elements: BTreeSet<Id>,
}

impl Loading {
    fn new(seen: Counters) -> Loading {
        Loading {
            seen,
            root: Branches::root(),
            open: Vec::with_capacity(DEPTH),
            size: Size::default(),
            elements: BTreeSet::new(),
        }
    }

    /// Takes a line between `seen=` and `end=`, or `end=`. None if it breaks a rule.
    fn take(&mut self, line: &[u8]) -> Option<Taken> {
        if let Some(place) = line.strip_prefix(b"place=") {
            self.take_place(place)?;
        } else if let Some(mark) = line.strip_prefix(b"mark=") {
            self.take_mark(mark)?;
        } else if let Some(value) = line.strip_prefix(b"value=") {
            self.take_value(value)?;
        } else {
            let count = read_number(line.strip_prefix(b"end=")?)?;
            return (count == self.size.places as u64).then_some(Taken::End);
        }
        self.size.fits().then_some(Taken::Line)
    }

    fn take_place(&mut self, text: &[u8]) -> Option<()> {
        let [depth @ b'1'..=b'8', branch, flags, name @ ..] = text else {
            return None;
        };
        let above = usize::from(depth - b'1');
        if above > self.open.len() {
            return None;
        }
        self.close_to(above);
        let parent = self.open.last().map_or(&self.root, |(_, place)| &place.under);
        let hanging = match branch {
            b'{' => Hanging::Key(next_key(parent, read_hex(name)?)?),
            b'[' => Hanging::Element(next_element(parent, read_id(name)?)?),
            _ => return None,
        };
        if let Hanging::Element(id) = hanging {
            if !self.seen.covers(id) || !self.elements.insert(id) {
                return None;
            }
        }
        self.open.push((hanging, flagged(*flags)?));
        self.size.places += 1;
        Some(())
    }

    fn take_mark(&mut self, text: &[u8]) -> Option<()> {
        let mark = read_id(text)?;
        let (_, place) = self.open.last()?;
        let ascends = place.marks.last().is_none_or(|last| *last < mark);
        let among = match self.open.as_slice() {
            [.., (_, parent), _] => parent.marks.contains(&mark),
            _ => true,
        };
        if !place.values.is_empty() || !ascends || !among || !self.seen.covers(mark) {
            return None;
        }
        self.open.last_mut()?.1.marks.insert(mark);
        self.size.marks += 1;
        Some(())
    }

    fn take_value(&mut self, text: &[u8]) -> Option<()> {
        let colon = text.iter().position(|&byte| byte == b':')?;
        let id = read_id(&text[..colon])?;
        let plain = Plain::read(&text[colon + 1..])?;
        let (_, place) = self.open.last_mut()?;
        let ascends = place.values.last_key_value().is_none_or(|(last, _)| *last < id);
        if !ascends || !place.marks.contains(&id) {
            return None;
        }
        place.values.insert(id, plain);
        self.size.values += 1;
        Some(())
    }

    /// Hangs the open places below the first `depth` ones under their parents.
    fn close_to(&mut self, depth: usize) {
        while self.open.len() > depth {
            let Some((hanging, place)) = self.open.pop() else {
                return;
            };
            let parent = self.open.last_mut().map_or(&mut self.root, |(_, place)| &mut place.under);
            match hanging {
                Hanging::Key(key) => {
                    parent.map.get_or_insert_default().insert(key, place);
                }
                Hanging::Element(id) => {
                    let list = parent.list.get_or_insert_default();
                    list.push(Element { id, place });
                }
            }
        }
    }

    fn document(mut self) -> Document {
        self.close_to(0);
        Document { seen: self.seen, root: self.root, size: self.size, waiting: Vec::new() }
    }
}

/// A key may come next if the parent has the map branch, the key is greater than the
/// last one, and no element of the parent came yet.
fn next_key(parent: &Branches, key: Key) -> Option<Key> {
    let last = parent.map.as_ref()?.last_key_value();
    let ascends = last.is_none_or(|(last, _)| *last < key);
    (ascends && parent.elements().is_empty()).then_some(key)
}

/// An element may come next if the parent has the list branch.
fn next_element(parent: &Branches, id: Id) -> Option<Id> {
    parent.list.as_ref().map(|_| id)
}

/// A place without marks and values, with the flags that `-`, `m`, `l` or `b` names.
fn flagged(flags: u8) -> Option<Place> {
    let (map, list) = match flags {
        b'-' => (false, false),
        b'm' => (true, false),
        b'l' => (false, true),
        b'b' => (true, true),
        _ => return None,
    };
    let under = Branches { map: map.then(BTreeMap::new), list: list.then(Vec::new) };
    Some(Place { under, ..Place::default() })
}
