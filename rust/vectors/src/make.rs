//! Making ways, values, edits and messages as text, by chance or by the parts given.

use std::ops::RangeInclusive;

use sheet::{Branches, Counters, Document, Id, Size};

use crate::random::Random;

/// A message's lines from `at=` on.
pub fn lines(at: &str, deed: &str, value: &str) -> Vec<u8> {
    let value = if deed == "delete" { String::new() } else { format!("value={value}\n") };
    format!("at={at}\ndo={deed}\n{value}").into_bytes()
}

/// A whole message of an id, its deps and its lines from `at=` on.
pub fn message(id: Id, deps: &Counters, lines: &[u8]) -> Vec<u8> {
    let deps: Vec<String> = deps.0.iter().map(u32::to_string).collect();
    let head = format!("op=1\nid={}\ndeps={}\n", id_text(id), deps.join(","));
    [head.as_bytes(), lines].concat()
}

/// The message of an edit that a terminal would make now.
pub fn next(document: &Document, terminal: u8, lines: &[u8]) -> Vec<u8> {
    message(next_id(document, terminal), document.seen(), lines)
}

/// Its id.
pub fn next_id(document: &Document, terminal: u8) -> Id {
    id(document.seen().largest() + 1, terminal)
}

pub fn id_text(id: Id) -> String {
    format!("{}.{}", id.counter, id.terminal)
}

pub fn id(counter: u32, terminal: u8) -> Id {
    Id { counter, terminal }
}

/// Eight counters that begin with those given; the others are 0.
pub fn deps(first: &[u32]) -> Counters {
    let mut counters = Counters::default();
    counters.0[..first.len()].copy_from_slice(first);
    counters
}

/// The deps of a terminal that has heard of these first counters and of its own messages.
pub fn heard(document: &Document, terminal: usize, first: &[u32]) -> Counters {
    let mut deps = deps(first);
    deps.0[terminal - 1] = document.seen().0[terminal - 1];
    deps
}

pub fn hex(bytes: &[u8]) -> String {
    bytes.iter().map(|byte| format!("{byte:02x}")).collect()
}

/// A few short keys that are met again and again, and now and then a long one.
pub fn key(random: &mut Random) -> String {
    match random.below(20) {
        0 => String::new(),
        1 => hex(&[random.byte(); 16]),
        2 => hex(&[random.byte(), random.byte()]),
        3 | 4 => "6161".to_string(),
        _ => hex(&[b'a' + random.below(4) as u8]),
    }
}

pub fn value(random: &mut Random) -> String {
    match random.below(16) {
        0 => "n".to_string(),
        1 => "t".to_string(),
        2 => "f".to_string(),
        3 => format!("i{}", random.number() as i64),
        4 => format!("i{}", random.pick(&[0, -1, i64::MAX, i64::MIN, 1_000_000_000])),
        5..=7 => format!("i{}", random.below(100)),
        8 => {
            let length = random.below(33);
            let bytes: Vec<u8> = (0..length).map(|_| random.byte()).collect();
            format!("s{}", hex(&bytes))
        }
        9 | 10 => format!("s{}", hex(&[b'a' + random.below(26) as u8])),
        11..=13 => "{".to_string(),
        _ => "[".to_string(),
    }
}

/// How a way is chosen.
#[derive(Clone, Copy)]
pub struct Taste {
    /// Percent of the steps, from the first on, after which the way goes on.
    pub deeper: usize,
    /// Percent of the elements that are named though the list hasn't them.
    pub astray: usize,
}

/// Edits of an honest terminal: no element that it doesn't know.
pub const HONEST: Taste = Taste { deeper: 55, astray: 0 };
/// Now and then an element that isn't there.
pub const WILD: Taste = Taste { deeper: 55, astray: 8 };
/// Short ways.
pub const FLAT: Taste = Taste { deeper: 25, astray: 4 };
/// Long ways.
pub const DEEP: Taste = Taste { deeper: 88, astray: 3 };

/// How a way ends.
#[derive(Clone, Copy, PartialEq, Eq)]
pub enum Last {
    Key,
    Element,
    Head,
}

/// A way through a document by chance: along places that are there, or to new ones.
pub fn way(random: &mut Random, document: &Document, taste: Taste) -> (String, Last) {
    let mut text = String::new();
    let mut here = Some(document.root());
    let mut as_list = false;
    for depth in 1.. {
        let (name, child, last) = step(random, here, as_list, taste);
        text.push_str(&name);
        let end = depth == sheet::DEPTH || last == Last::Head || !random.chance(taste.deeper);
        if end {
            return (text, last);
        }
        here = child;
        as_list = match here {
            Some(Branches { map: None, list: Some(_) }) => random.chance(90),
            Some(Branches { map: Some(_), list: None }) => random.chance(10),
            _ => random.chance(50),
        };
        text.push(if as_list { '[' } else { '{' });
    }
    unreachable!("a way ends at depth 8")
}

/// One key of a way: its text, what hangs under it, and its kind.
fn step<'a>(
    random: &mut Random,
    here: Option<&'a Branches>,
    as_list: bool,
    taste: Taste,
) -> (String, Option<&'a Branches>, Last) {
    if as_list {
        let elements = here.map_or(&[][..], Branches::elements);
        if random.chance(taste.astray) {
            let stray = id(1 + random.below(12) as u32, 1 + random.below(8) as u8);
            let found = elements.iter().find(|element| element.id == stray);
            return (id_text(stray), found.map(|element| &element.place.under), Last::Element);
        }
        if elements.is_empty() || random.chance(20) {
            return ("^".to_string(), None, Last::Head);
        }
        let element = random.pick(elements);
        return (id_text(element.id), Some(&element.place.under), Last::Element);
    }
    let keys: Vec<_> = here.and_then(|here| here.map.as_ref()).into_iter().flatten().collect();
    if !keys.is_empty() && random.chance(60) {
        let (key, place) = *random.pick(&keys);
        return (hex(key.as_slice()), Some(&place.under), Last::Key);
    }
    let name = key(random);
    let found = keys.iter().find(|(key, _)| hex(key.as_slice()) == name);
    (name, found.map(|(_, place)| &place.under), Last::Key)
}

/// A message's lines from `at=` on, chosen by a document.
pub fn edit(random: &mut Random, document: &Document, taste: Taste) -> Vec<u8> {
    let (at, last) = way(random, document, taste);
    let deed = match (last, random.below(10)) {
        (Last::Head, _) | (Last::Element, 0..=4) => "insert",
        (_, 5 | 6) => "delete",
        _ => "assign",
    };
    lines(&at, deed, &value(random))
}

/// Well below the limits, so that terminals that edit apart don't pass them together.
pub const ROOMY: Size = Size { places: 150, marks: 600, values: 150 };

/// An edit that the document takes and that leaves it roomy, or a delete.
pub fn honest_edit(random: &mut Random, document: &Document, device: u64) -> Vec<u8> {
    loop {
        let lines = edit(random, document, HONEST);
        let mut copy = document.clone();
        let taken = copy.edit(device, &lines, &mut [0; sheet::LONGEST]).number() == 0;
        let size = copy.size();
        let grown = size.places > document.size().places && size.places > ROOMY.places;
        let full = !lines.ends_with(b"delete\n") && (size.marks > ROOMY.marks || size.values > ROOMY.values);
        if taken && !grown && !full {
            return lines;
        }
    }
}

/// A message of one of `terminals` whose id and deps are near what a document has seen,
/// ready or not.
pub fn wild(
    random: &mut Random,
    document: &Document,
    taste: Taste,
    terminals: RangeInclusive<usize>,
) -> Vec<u8> {
    let lines = edit(random, document, taste);
    let seen = document.seen();
    let terminal = random.from_to(*terminals.start(), *terminals.end());
    let own = terminal - 1;
    let mut deps = *seen;
    for (index, entry) in deps.0.iter_mut().enumerate() {
        if random.chance(if index == own { 15 } else { 10 }) {
            *entry = entry.saturating_add(random.below(4) as u32).saturating_sub(random.below(4) as u32);
        }
    }
    let least = if random.chance(92) { deps.largest() } else { seen.0[own].saturating_sub(1) };
    let counter = least.saturating_add(1).saturating_add(random.below(2) as u32);
    message(id(counter, terminal as u8), &deps, &lines)
}

/// The same bytes with one to three bytes changed, put in or taken out, or cut short.
pub fn damaged(random: &mut Random, bytes: &[u8]) -> Vec<u8> {
    let mut bytes = bytes.to_vec();
    for _ in 0..random.from_to(1, 3) {
        let at = random.below(bytes.len() + 1);
        let byte = damage(random);
        match random.below(8) {
            0 => bytes.truncate(at),
            1 | 2 => bytes.insert(at, byte),
            _ if at == bytes.len() => bytes.push(byte),
            3 | 4 => {
                bytes.remove(at);
            }
            5 if at + 1 < bytes.len() => bytes.swap(at, at + 1),
            _ => bytes[at] = byte,
        }
    }
    bytes
}

/// Mostly a byte that means something somewhere.
fn damage(random: &mut Random) -> u8 {
    const BYTES: &[u8] = b"0123456789abcdef.,:={[^-\nmlbntfisopedvg A+";
    if random.chance(90) {
        *random.pick(BYTES)
    } else {
        random.byte()
    }
}
