//! What is tried of a ready operation before it is applied: the answers 8, 9 and 10.
//! Document 01, "What is answered". Judged on the document before the operation.

use std::collections::BTreeMap;

use crate::id::Counters;
use crate::message::{Deed, Operation};
use crate::place::{Branches, Place};
use crate::value::Value;
use crate::way::Step;

/// How many places, marks and values a document has.
#[derive(Clone, Copy, PartialEq, Eq, Default, Debug)]
pub struct Size {
    pub places: usize,
    pub marks: usize,
    pub values: usize,
}

/// The most that a document can have.
pub const MOST: Size = Size { places: 256, marks: 1024, values: 256 };

impl Size {
    pub fn fits(&self) -> bool {
        self.places <= MOST.places && self.marks <= MOST.marks && self.values <= MOST.values
    }
}

/// Not 8: each element id in the way is covered by deps and is an element of its list.
pub fn elements_known(root: &Branches, operation: &Operation) -> bool {
    let mut here = Some(root);
    for step in operation.edit.way.steps() {
        let place = here.and_then(|branches| branches.child(step));
        if let Step::Element(id) = step {
            if !operation.deps.covers(*id) || place.is_none() {
                return false;
            }
        }
        here = place.map(|place| &place.under);
    }
    true
}

/// Not 9: an insert stands after an element with a smaller id, or after the head.
/// 2 and 8 rule out that this is ever false: prev is covered, so it is smaller.
pub fn prev_smaller(operation: &Operation) -> bool {
    match (&operation.edit.deed, operation.edit.way.split_last()) {
        (Deed::Insert(_), Some((Step::Element(prev), _))) => *prev < operation.id,
        _ => true,
    }
}

/// For 10: the size of the document after the operation, from its size before.
/// No place has the operation's id as a mark yet: its counter is above the seen one.
pub fn size_after(root: &Branches, before: Size, operation: &Operation) -> Size {
    let deed = &operation.edit.deed;
    let Some((last, steps)) = operation.edit.way.split_last() else {
        return before;
    };
    let mut size = before;
    let mut here = Some(root);
    for step in steps {
        let place = here.and_then(|branches| branches.child(step));
        if place.is_none() {
            size.places += 1;
        }
        if *deed != Deed::Delete {
            size.marks += 1;
        }
        here = place.map(|place| &place.under);
    }
    let target = here.and_then(|branches| branches.child(last));
    match deed {
        Deed::Delete => size = less_covered(size, target, &operation.deps),
        Deed::Insert(value) => {
            size.places += 1;
            size = size_assigned(size, None, value, &operation.deps);
        }
        Deed::Assign(value) => {
            if target.is_none() {
                size.places += 1;
            }
            size = size_assigned(size, target, value, &operation.deps);
        }
    }
    size
}

/// The size after `value` is assigned to `target`, which is None if it is new.
fn size_assigned(mut size: Size, target: Option<&Place>, value: &Value, deps: &Counters) -> Size {
    if let Value::Plain(_) = value {
        size.values += 1;
        size.values -= target.map_or(0, |place| covered_values(place, deps));
    } else {
        size = less_covered(size, target, deps);
    }
    size.marks += 1;
    size
}

fn covered_values(place: &Place, deps: &Counters) -> usize {
    place.values.keys().filter(|id| deps.covers(**id)).count()
}

/// The size after `target`, if there is one, is cleared.
fn less_covered(mut size: Size, target: Option<&Place>, deps: &Counters) -> Size {
    if let Some(place) = target {
        size.marks -= place.marks.iter().filter(|mark| deps.covers(**mark)).count();
        size.values -= covered_values(place, deps);
        for child in place.under.places() {
            size = less_covered(size, Some(child), deps);
        }
    }
    size
}

/// The size of what stands under `branches`, counted from nothing.
pub fn size_of(branches: &Branches) -> Size {
    branches.places().fold(Size::default(), |sum, place| {
        let under = size_of(&place.under);
        Size {
            places: sum.places + under.places + 1,
            marks: sum.marks + under.marks + place.marks.len(),
            values: sum.values + under.values + place.values.len(),
        }
    })
}

impl Branches {
    /// The places right under both branches: the keys, then the elements.
    fn places(&self) -> impl Iterator<Item = &Place> {
        let keys = self.map.iter().flat_map(BTreeMap::values);
        keys.chain(self.elements().iter().map(|element| &element.place))
    }
}
