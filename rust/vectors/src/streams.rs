//! The kept streams of `merge`, by name.

use crate::fresh;
use crate::make::{deps, id, lines, message};

/// The sheet of the five messages, as document 01 shows it.
pub const FIVE: &str = "\
sheet=1
seen=4,3,0,0,0,0,0,0
place=1{l73
mark=1.1
mark=2.1
mark=3.1
mark=3.2
place=2[-2.1
place=2[-3.2
mark=3.2
value=3.2:s63
place=2[-3.1
mark=3.1
value=3.1:s62
end=4
";

/// The five messages of document 01.
pub fn five() -> [Vec<u8>; 5] {
    [
        message(id(1, 1), &deps(&[]), &lines("73", "assign", "[")),
        message(id(2, 1), &deps(&[1]), &lines("73[^", "insert", "s61")),
        message(id(3, 1), &deps(&[2]), &lines("73[2.1", "insert", "s62")),
        message(id(3, 2), &deps(&[2]), &lines("73[2.1", "insert", "s63")),
        message(id(4, 1), &deps(&[3]), &lines("73[2.1", "delete", "")),
    ]
}

/// The five messages, and with the last two exchanged.
pub fn orders() -> [[Vec<u8>; 5]; 2] {
    let mut exchanged = five();
    exchanged.swap(3, 4);
    [five(), exchanged]
}

/// The streams of both orders. The sheet of both is `FIVE`.
pub fn examples() -> [(&'static str, Vec<u8>); 2] {
    let [first, exchanged] = orders().map(|messages| messages.concat());
    [("merge-example", first), ("merge-example-other", exchanged)]
}

/// A stream for each other name. Its sheet is what the library's `merge` gives.
pub fn streams() -> Vec<(&'static str, Vec<u8>)> {
    let example = five().concat();
    let late = String::from_utf8_lossy(&example).replacen("op=1\n", "op=1 \n", 1).into_bytes();
    let joined: Vec<u8> = [b"op=1\n", &example[..], b"op=1\n"].concat();
    vec![
        ("merge-empty", Vec::new()),
        ("merge-junk-first", [b"junk\n", &example[..]].concat()),
        ("merge-junk-joined", [b"junk\nop=1", &example[..]].concat()),
        ("merge-lf-first", [b"\n", &example[..]].concat()),
        ("merge-first-damaged", late),
        ("merge-begun-twice", joined),
        ("merge-last-cut", example[..example.len() - 1].to_vec()),
        ("merge-last-op-cut", [&example[..], b"op=1"].concat()),
        ("merge-lf-behind", [&example[..], b"\n"].concat()),
        ("merge-only-op", b"op=1\n".to_vec()),
        ("merge-fresh-1", fresh::stream(1, 120)),
        ("merge-fresh-2", fresh::stream(2, 400)),
    ]
}
