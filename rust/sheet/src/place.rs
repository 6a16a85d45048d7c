//! The tree of places, applying an operation to it, and clearing.
//! Document 01, "Places" and "Applying an operation".

use std::collections::{BTreeMap, BTreeSet};

use crate::id::{Counters, Id};
use crate::message::{Deed, Operation};
use crate::value::{Plain, Value};
use crate::way::{Key, Step};

/// The branches of a place or of the root. A branch whose flag is set is there, with
/// whatever hangs under it; one whose flag isn't set is None.
#[derive(Clone, PartialEq, Eq, Default, Debug)]
pub struct Branches {
    pub map: Option<BTreeMap<Key, Place>>,
    pub list: Option<Vec<Element>>,
}

#[derive(Clone, PartialEq, Eq, Default, Debug)]
pub struct Place {
    pub marks: BTreeSet<Id>,
    pub values: BTreeMap<Id, Plain>,
    pub under: Branches,
}

/// An element of a list; it stands in the list's order with or without marks.
#[derive(Clone, PartialEq, Eq, Debug)]
pub struct Element {
    pub id: Id,
    pub place: Place,
}

impl Place {
    /// A place is present when it has a mark.
    pub fn present(&self) -> bool {
        !self.marks.is_empty()
    }

    /// Covered marks and covered values go, here and in every place under this one.
    fn clear(&mut self, deps: &Counters) {
        self.marks.retain(|mark| !deps.covers(*mark));
        self.values.retain(|id, _| !deps.covers(*id));
        self.under.clear(deps);
    }

    fn assign(&mut self, value: &Value, operation: &Operation) {
        match value {
            Value::Plain(plain) => {
                self.values.retain(|id, _| !operation.deps.covers(*id));
                self.values.insert(operation.id, *plain);
            }
            Value::Map => {
                self.clear(&operation.deps);
                self.under.set_map();
            }
            Value::List => {
                self.clear(&operation.deps);
                self.under.set_list();
            }
        }
        self.marks.insert(operation.id);
    }
}

impl Branches {
    /// The root: a map, always there.
    pub fn root() -> Branches {
        Branches { map: Some(BTreeMap::new()), list: None }
    }

    /// The elements of the list, in order; none if there is no list.
    pub fn elements(&self) -> &[Element] {
        self.list.as_deref().unwrap_or_default()
    }

    /// The place that `step` names here, if it is known.
    pub fn child(&self, step: &Step) -> Option<&Place> {
        match step {
            Step::Key(key) => self.map.as_ref()?.get(key),
            Step::Element(id) => {
                self.elements().iter().find(|element| element.id == *id).map(|element| &element.place)
            }
            Step::Head => None,
        }
    }

    fn child_mut(&mut self, step: &Step) -> Option<&mut Place> {
        match step {
            Step::Key(key) => self.map.as_mut()?.get_mut(key),
            Step::Element(id) => {
                let list = self.list.as_mut()?;
                list.iter_mut().find(|element| element.id == *id).map(|element| &mut element.place)
            }
            Step::Head => None,
        }
    }

    /// The place that `step` names here; a key is made if it is unknown. An element
    /// is known, since an operation that names an unknown one is refused (8).
    fn made(&mut self, step: &Step) -> &mut Place {
        match step {
            Step::Key(key) => self.set_map().entry(*key).or_default(),
            _ => self.child_mut(step).expect("judged: an element of this list"),
        }
    }

    /// Sets the flag of the branch that `step` hangs under.
    fn enter(&mut self, step: &Step) {
        if let Step::Key(_) = step {
            self.set_map();
        } else {
            self.set_list();
        }
    }

    fn set_map(&mut self) -> &mut BTreeMap<Key, Place> {
        self.map.get_or_insert_default()
    }

    fn set_list(&mut self) -> &mut Vec<Element> {
        self.list.get_or_insert_default()
    }

    fn clear(&mut self, deps: &Counters) {
        for place in self.map.iter_mut().flat_map(BTreeMap::values_mut) {
            place.clear(deps);
        }
        for element in self.list.iter_mut().flatten() {
            element.place.clear(deps);
        }
    }

    /// Applies an operation that was judged: its elements are known here.
    pub fn apply(&mut self, operation: &Operation) {
        self.descend(operation.edit.way.steps(), operation);
    }

    fn descend(&mut self, steps: &[Step], operation: &Operation) {
        match steps {
            [] => unreachable!("a message's way has a key"),
            [last] => self.change(last, operation),
            [step, rest @ ..] => {
                let place = self.made(step);
                if operation.edit.deed != Deed::Delete {
                    place.marks.insert(operation.id);
                }
                place.under.enter(&rest[0]);
                place.under.descend(rest, operation);
            }
        }
    }

    /// Does the operation's deed at the last key of its way.
    fn change(&mut self, last: &Step, operation: &Operation) {
        match &operation.edit.deed {
            Deed::Assign(value) => self.made(last).assign(value, operation),
            Deed::Insert(value) => self.insert(last, operation.id).assign(value, operation),
            Deed::Delete => {
                if let Some(place) = self.child_mut(last) {
                    place.clear(&operation.deps);
                }
            }
        }
    }

    /// Puts a new element after `prev`: before the first that is smaller.
    fn insert(&mut self, prev: &Step, id: Id) -> &mut Place {
        let list = self.set_list();
        let after = match prev {
            Step::Element(prev) => 1 + list.iter().position(|element| element.id == *prev).expect("judged"),
            _ => 0,
        };
        let greater = list[after..].iter().take_while(|element| element.id > id).count();
        let place = Place::default();
        list.insert(after + greater, Element { id, place });
        &mut list[after + greater].place
    }
}
