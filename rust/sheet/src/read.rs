//! Reads: keys, values and an element. Document 01, "Reads".

use crate::answer::{fill, Answer};
use crate::document::Document;
use crate::place::{Branches, Place};
use crate::text::{write_hex, write_id};
use crate::way::{read_element_way, read_keys_way, read_values_way, Step, Way};

impl Document {
    /// The keys of the present places under a way's map, or under the root.
    pub fn keys(&self, way: &[u8], buffer: &mut [u8]) -> Answer {
        let Some(way) = read_keys_way(way) else {
            return Answer::NotInLayout;
        };
        let Some(branches) = self.branches_at(&way) else {
            return Answer::NotThere;
        };
        let mut out = Vec::new();
        for (key, place) in branches.map.iter().flatten() {
            if place.present() {
                write_hex(&mut out, key.as_slice());
                out.push(b'\n');
            }
        }
        fill(buffer, &out)
    }

    /// The values of a present place, in id order.
    pub fn values(&self, way: &[u8], buffer: &mut [u8]) -> Answer {
        let Some(way) = read_values_way(way) else {
            return Answer::NotInLayout;
        };
        let Some(place) = self.place_at(&way) else {
            return Answer::NotThere;
        };
        let mut out = Vec::new();
        for (id, plain) in &place.values {
            write_id(&mut out, *id);
            out.push(b':');
            plain.write(&mut out);
            out.push(b'\n');
        }
        fill(buffer, &out)
    }

    /// The id of the present element numbered `index`, from 1, under a way's list.
    pub fn element(&self, way: &[u8], index: u64, buffer: &mut [u8]) -> Answer {
        let Some(way) = read_element_way(way) else {
            return Answer::NotInLayout;
        };
        let Some(branches) = self.branches_at(&way) else {
            return Answer::NotThere;
        };
        let mut present = branches.elements().iter().filter(|element| element.place.present());
        let before = index.checked_sub(1).and_then(|before| usize::try_from(before).ok());
        let Some(element) = before.and_then(|before| present.nth(before)) else {
            return Answer::NotThere;
        };
        let mut out = Vec::new();
        write_id(&mut out, element.id);
        out.push(b'\n');
        fill(buffer, &out)
    }

    /// The place that a way names, if every place on the way is known and present.
    fn place_at(&self, way: &Way) -> Option<&Place> {
        let (last, before) = way.split_last()?;
        let mut branches = &self.root;
        for step in before {
            branches = &present_child(branches, step)?.under;
        }
        present_child(branches, last)
    }

    /// As `place_at`, but the root has branches too.
    fn branches_at(&self, way: &Way) -> Option<&Branches> {
        if way.steps().is_empty() {
            Some(&self.root)
        } else {
            self.place_at(way).map(|place| &place.under)
        }
    }
}

fn present_child<'a>(branches: &'a Branches, step: &Step) -> Option<&'a Place> {
    branches.child(step).filter(|place| place.present())
}
