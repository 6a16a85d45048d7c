//! The calls of a script, as they are written and read. docs/REPLAY.md, "Scripts".

use std::fmt::Display;

/// The longest bytes that a call carries, and the longest buffer.
pub const LONGEST_MESSAGE: usize = 1024;
pub const LONGEST_WAY: usize = 512;
pub const LONGEST_SHEET: usize = 65_536;
pub const LONGEST_BUFFER: usize = 65_536;
/// The longest first line of a call, without its LF.
pub const LONGEST_LINE: usize = 40;

/// One call.
#[derive(Clone, Copy, PartialEq, Eq, Debug)]
pub enum Call<'a> {
    Reset,
    Receive {
        message: &'a [u8],
    },
    Edit {
        device: u64,
        lines: &'a [u8],
        buffer: usize,
    },
    Save {
        buffer: usize,
    },
    Load {
        sheet: &'a [u8],
    },
    Keys {
        way: &'a [u8],
        buffer: usize,
    },
    Values {
        way: &'a [u8],
        buffer: usize,
    },
    Element {
        way: &'a [u8],
        index: u64,
        buffer: usize,
    },
    /// The last five ask only whether the bytes are in the layout.
    IsMessage {
        bytes: &'a [u8],
    },
    IsLines {
        bytes: &'a [u8],
    },
    IsKeysWay {
        bytes: &'a [u8],
    },
    IsValuesWay {
        bytes: &'a [u8],
    },
    IsElementWay {
        bytes: &'a [u8],
    },
}

impl<'a> Call<'a> {
    /// The word that begins the call's first line, and its answer's.
    pub fn name(&self) -> &'static str {
        match self {
            Call::Reset => "reset",
            Call::Receive { .. } => "receive",
            Call::Edit { .. } => "edit",
            Call::Save { .. } => "save",
            Call::Load { .. } => "load",
            Call::Keys { .. } => "keys",
            Call::Values { .. } => "values",
            Call::Element { .. } => "element",
            Call::IsMessage { .. } => "ismessage",
            Call::IsLines { .. } => "islines",
            Call::IsKeysWay { .. } => "iskeysway",
            Call::IsValuesWay { .. } => "isvaluesway",
            Call::IsElementWay { .. } => "iselementway",
        }
    }

    /// Writes the call at the end of a script.
    pub fn write(&self, out: &mut Vec<u8>) {
        let name = self.name();
        match *self {
            Call::Reset => line(out, &[&name]),
            Call::Save { buffer } => line(out, &[&name, &short(buffer, LONGEST_BUFFER)]),
            Call::Receive { message: bytes } | Call::IsMessage { bytes } | Call::IsLines { bytes } => {
                line(out, &[&name, &short(bytes.len(), LONGEST_MESSAGE)]);
                block(out, bytes);
            }
            Call::Load { sheet } => {
                line(out, &[&name, &short(sheet.len(), LONGEST_SHEET)]);
                block(out, sheet);
            }
            Call::IsKeysWay { bytes } | Call::IsValuesWay { bytes } | Call::IsElementWay { bytes } => {
                line(out, &[&name, &short(bytes.len(), LONGEST_WAY)]);
                block(out, bytes);
            }
            Call::Edit { device, lines, buffer } => {
                let length = short(lines.len(), LONGEST_MESSAGE);
                line(out, &[&name, &length, &device, &short(buffer, LONGEST_BUFFER)]);
                block(out, lines);
            }
            Call::Keys { way, buffer } | Call::Values { way, buffer } => {
                let length = short(way.len(), LONGEST_WAY);
                line(out, &[&name, &length, &short(buffer, LONGEST_BUFFER)]);
                block(out, way);
            }
            Call::Element { way, index, buffer } => {
                let length = short(way.len(), LONGEST_WAY);
                line(out, &[&name, &length, &index, &short(buffer, LONGEST_BUFFER)]);
                block(out, way);
            }
        }
    }

    /// Takes the next call off a script; None at its end. A script that isn't in the
    /// layout is a fault of its writer, so that panics.
    pub fn take(rest: &mut &'a [u8]) -> Option<Call<'a>> {
        if rest.is_empty() {
            return None;
        }
        let first = take_line(rest);
        let mut words = first.split(' ');
        let name = words.next().expect("a call's name");
        let numbers: Vec<usize> = words.map(|word| word.parse().expect("a number")).collect();
        let call = match (name, numbers.as_slice()) {
            ("reset", []) => Call::Reset,
            ("save", &[buffer]) => Call::Save { buffer },
            ("receive", &[length]) => Call::Receive { message: take_block(rest, length) },
            ("load", &[length]) => Call::Load { sheet: take_block(rest, length) },
            ("edit", &[length, device, buffer]) => {
                Call::Edit { device: device as u64, lines: take_block(rest, length), buffer }
            }
            ("keys", &[length, buffer]) => Call::Keys { way: take_block(rest, length), buffer },
            ("values", &[length, buffer]) => Call::Values { way: take_block(rest, length), buffer },
            ("element", &[length, index, buffer]) => {
                Call::Element { way: take_block(rest, length), index: index as u64, buffer }
            }
            ("ismessage", &[length]) => Call::IsMessage { bytes: take_block(rest, length) },
            ("islines", &[length]) => Call::IsLines { bytes: take_block(rest, length) },
            ("iskeysway", &[length]) => Call::IsKeysWay { bytes: take_block(rest, length) },
            ("isvaluesway", &[length]) => Call::IsValuesWay { bytes: take_block(rest, length) },
            ("iselementway", &[length]) => Call::IsElementWay { bytes: take_block(rest, length) },
            _ => panic!("no such call: {first}"),
        };
        Some(call)
    }
}

fn short(length: usize, most: usize) -> usize {
    assert!(length <= most, "{length} is over {most}");
    length
}

/// Writes words and numbers with a space between them, and an LF.
pub fn line(out: &mut Vec<u8>, words: &[&dyn Display]) {
    let words: Vec<String> = words.iter().map(|word| word.to_string()).collect();
    let line = words.join(" ");
    short(line.len(), LONGEST_LINE);
    out.extend_from_slice(line.as_bytes());
    out.push(b'\n');
}

/// Writes bytes and an LF; their number stands in the line before.
pub fn block(out: &mut Vec<u8>, bytes: &[u8]) {
    out.extend_from_slice(bytes);
    out.push(b'\n');
}

/// Takes a line of words and numbers off a script or its answers.
pub fn take_line<'a>(rest: &mut &'a [u8]) -> &'a str {
    let end = rest.iter().position(|&byte| byte == b'\n').expect("a line's LF");
    let (line, more) = rest.split_at(end);
    *rest = &more[1..];
    std::str::from_utf8(line).expect("words and numbers")
}

/// Takes `length` bytes and the LF behind them.
pub fn take_block<'a>(rest: &mut &'a [u8], length: usize) -> &'a [u8] {
    let (bytes, more) = rest.split_at(length);
    *rest = more.strip_prefix(b"\n").expect("an LF behind the bytes");
    bytes
}
