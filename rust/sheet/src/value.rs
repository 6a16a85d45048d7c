//! Plain values, and the values that a message can carry.
//! Document 01, "Places" (plain values) and "Messages" (`value=`).

use crate::text::{read_hex, read_integer, write_hex, write_integer, Bytes};

/// A string of 0 to 32 bytes.
pub type Text = Bytes<32>;

/// What a place can hold under an id.
#[derive(Clone, Copy, PartialEq, Eq, Debug)]
pub enum Plain {
    Null,
    True,
    False,
    Integer(i64),
    Text(Text),
}

/// What a message assigns: a plain value, the empty map or the empty list.
#[derive(Clone, Copy, PartialEq, Eq, Debug)]
pub enum Value {
    Plain(Plain),
    Map,
    List,
}

impl Plain {
    /// `n`, `t`, `f`, `i` and a number, `s` and hex
    pub fn read(text: &[u8]) -> Option<Plain> {
        match text {
            b"n" => Some(Plain::Null),
            b"t" => Some(Plain::True),
            b"f" => Some(Plain::False),
            [b'i', number @ ..] => read_integer(number).map(Plain::Integer),
            [b's', hex @ ..] => read_hex(hex).map(Plain::Text),
            _ => None,
        }
    }

    pub fn write(&self, out: &mut Vec<u8>) {
        match self {
            Plain::Null => out.push(b'n'),
            Plain::True => out.push(b't'),
            Plain::False => out.push(b'f'),
            Plain::Integer(integer) => {
                out.push(b'i');
                write_integer(out, *integer);
            }
            Plain::Text(text) => {
                out.push(b's');
                write_hex(out, text.as_slice());
            }
        }
    }
}

impl Value {
    /// A plain value, `{` or `[`
    pub fn read(text: &[u8]) -> Option<Value> {
        match text {
            b"{" => Some(Value::Map),
            b"[" => Some(Value::List),
            _ => Plain::read(text).map(Value::Plain),
        }
    }

    pub fn write(&self, out: &mut Vec<u8>) {
        match self {
            Value::Map => out.push(b'{'),
            Value::List => out.push(b'['),
            Value::Plain(plain) => plain.write(out),
        }
    }
}
