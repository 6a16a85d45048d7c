//! Messages, edits and ways with the verdict only: in the layout or not.

use crate::call::Call;
use crate::make::{damaged, deps, edit, hex, id, lines, message, way, wild, DEEP, HONEST};
use crate::random::Random;
use crate::script::Script;

pub fn play(random: &mut Random, script: &mut Script) {
    ids(script);
    counters(script);
    values(script);
    ways(script);
    deeds(script);
    shapes(script);
    by_chance(random, script);
}

fn is_message(script: &mut Script, text: &str) {
    script.call(Call::IsMessage { bytes: text.as_bytes() });
}

const ZEROS: &str = "0,0,0,0,0,0,0,0";

const NUMBERS: &[&str] = &[
    "",
    "0",
    "1",
    "9",
    "10",
    "00",
    "01",
    "-1",
    "-0",
    "+1",
    " 1",
    "1 ",
    "1a",
    "a",
    "4294967294",
    "4294967295",
    "4294967296",
    "42949672950",
    "99999999999999999999",
    "18446744073709551616",
    "18446744073709551617",
    "1\n2",
];

fn ids(script: &mut Script) {
    let mut texts = Vec::new();
    for counter in NUMBERS {
        texts.push(format!("{counter}.1"));
        texts.push(format!("1.{counter}"));
    }
    texts.extend(
        ["1.8", "1.7", "1", ".", "1.", ".1", "1.1.1", "1..1", "1,1", "1.1 ", "1.1.", ""].map(String::from),
    );
    for text in texts {
        is_message(script, &format!("op=1\nid={text}\ndeps={ZEROS}\nat=61\ndo=delete\n"));
        is_message(script, &format!("op=1\nid=1.1\ndeps={ZEROS}\nat=61[{text}\ndo=delete\n"));
        let way = format!("61[{text}");
        script.call(Call::IsValuesWay { bytes: way.as_bytes() });
        script.call(Call::IsKeysWay { bytes: format!("{way}{{").as_bytes() });
        script.call(Call::IsElementWay { bytes: format!("{way}[").as_bytes() });
    }
}

fn counters(script: &mut Script) {
    for number in NUMBERS {
        for text in [format!("{number},0,0,0,0,0,0,0"), format!("0,0,0,0,0,0,0,{number}")] {
            is_message(script, &format!("op=1\nid=1.1\ndeps={text}\nat=61\ndo=delete\n"));
        }
    }
    for text in ["", "0", "0,0,0,0,0,0,0", "0,0,0,0,0,0,0,0,", "0,0,0,0,0,0,0,0,0", ",0,0,0,0,0,0,0,0"] {
        is_message(script, &format!("op=1\nid=1.1\ndeps={text}\nat=61\ndo=delete\n"));
    }
    for text in
        ["0,0,0,0 ,0,0,0,0", "0.0.0.0.0.0.0.0", "0, 0,0,0,0,0,0,0", "0,,0,0,0,0,0,0", "1,2,3,4,5,6,7,8"]
    {
        is_message(script, &format!("op=1\nid=1.1\ndeps={text}\nat=61\ndo=delete\n"));
    }
}

fn values(script: &mut Script) {
    let mut texts: Vec<String> =
        ["", "n", "t", "f", "{", "[", "nn", "n ", "N", "true", "{}", "[]", "{{", "^", "i", "s"]
            .map(String::from)
            .to_vec();
    texts.extend(NUMBERS.iter().map(|number| format!("i{number}")));
    for number in [
        "9223372036854775807",
        "9223372036854775808",
        "9223372036854775809",
        "-9223372036854775807",
        "-9223372036854775808",
        "-9223372036854775809",
        "-18446744073709551615",
        "-18446744073709551616",
        "-10",
        "-01",
        "-00",
        "--1",
        "-",
        "1-",
        "1.0",
        "0x1",
        "1e3",
    ] {
        texts.push(format!("i{number}"));
        texts.push(number.to_string());
    }
    for text in
        ["0", "00", "0g", "g0", "0A", "A0", "0f", "f0", "/0", ":0", "`0", "000", " 00", "00 ", "s00", "00.0"]
    {
        texts.push(format!("s{text}"));
    }
    for length in [31, 32, 33, 64] {
        texts.push(format!("s{}", hex(&vec![0xab; length])));
        texts.push(format!("s{}0", hex(&vec![0xab; length])));
    }
    for text in texts {
        for deed in ["61\ndo=assign", "61[^\ndo=insert"] {
            is_message(script, &format!("op=1\nid=1.1\ndeps={ZEROS}\nat={deed}\nvalue={text}\n"));
        }
        script.call(Call::IsLines { bytes: format!("at=61\ndo=assign\nvalue={text}\n").as_bytes() });
    }
}

fn ways(script: &mut Script) {
    let mut texts: Vec<String> = [
        "",
        "{",
        "[",
        "^",
        "{^",
        "[^",
        "[^{",
        "[^[",
        "^{",
        "^[",
        "[^^",
        "[1.1",
        "[1.1{",
        "[1.1[",
        "[1.1[^",
        "{61",
        "{{",
        "{{{",
        "{[",
        "[{",
        "[[",
        "61",
        "61{",
        "61[",
        "61{62",
        "61[62",
        "61{1.1",
        "1.1",
        "61[1.1",
        "61[1.1{62",
        "61[1.1[2.2",
        "61{62[^",
        "61[^",
        "61[^[^",
        "61[^{61",
        "61^",
        "61{^",
        "61[1.1^",
        "6",
        "616",
        "6G",
        "6A",
        "a",
        "A1",
        "61 ",
        " 61",
        "61}",
        "61]",
        "61{62}",
        "61{{62",
        "61[[1.1",
        "61{[1.1",
        "61[{62",
        "61.1",
        "61[1.1.1",
        "61[01.1",
        "61[1.01",
        "61[0.1",
        "61[1.0",
        "61[1.9",
        "61[4294967295.8",
        "61[4294967296.8",
        "00",
        "ff",
        "fg",
        "\u{0}",
        "61\u{0}",
    ]
    .map(String::from)
    .to_vec();
    for count in 1..=10 {
        texts.push(vec!["61"; count].join("{"));
        texts.push(vec![""; count].join("{"));
        texts.push(format!("61{}", "[1.1".repeat(count - 1)));
        texts.push(format!("61{}[^", "[1.1".repeat(count - 1)));
        texts.push(format!("{}[^", vec!["61"; count].join("{")));
    }
    for length in [15, 16, 17, 32] {
        texts.push(hex(&vec![0x1f; length]));
        texts.push(format!("{}1", hex(&vec![0x1f; length])));
        texts.push(vec![hex(&vec![0x1f; length]); 3].join("{"));
    }
    texts.push(vec![hex(&[0x2f; 16]); 8].join("{"));
    for text in texts {
        let bytes = text.as_bytes();
        script.call(Call::IsKeysWay { bytes });
        script.call(Call::IsValuesWay { bytes });
        script.call(Call::IsElementWay { bytes });
        script.call(Call::IsKeysWay { bytes: format!("{text}{{").as_bytes() });
        script.call(Call::IsElementWay { bytes: format!("{text}[").as_bytes() });
        for deed in ["assign\nvalue=n", "insert\nvalue=n", "delete"] {
            script.call(Call::IsLines { bytes: format!("at={text}\ndo={deed}\n").as_bytes() });
        }
    }
}

fn deeds(script: &mut Script) {
    for at in ["61", "61[^", "61[1.1"] {
        for deed in
            ["assign", "insert", "delete", "", "Assign", "assign ", " assign", "remove", "assign\n", "ASSIGN"]
        {
            for value in [
                "",
                "value=n\n",
                "value=n",
                "value=n\n\n",
                "value=n\nvalue=n\n",
                "value=\n",
                "n\n",
                "value=n\r\n",
            ] {
                let lines = format!("at={at}\ndo={deed}\n{value}");
                script.call(Call::IsLines { bytes: lines.as_bytes() });
                is_message(script, &format!("op=1\nid=2.1\ndeps={ZEROS}\n{lines}"));
            }
        }
    }
}

/// Lines that are missing, twice, in another order, or not quite themselves.
fn shapes(script: &mut Script) {
    let whole = message(id(2, 1), &deps(&[1]), &lines("61", "assign", "t"));
    let parts: Vec<&[u8]> = whole.split_inclusive(|&byte| byte == b'\n').collect();
    for first in 0..parts.len() {
        for second in 0..parts.len() {
            let mut moved = parts.clone();
            let part = moved.remove(first);
            moved.insert(second, part);
            script.call(Call::IsMessage { bytes: &moved.concat() });
        }
        let without = [&parts[..first], &parts[first + 1..]].concat().concat();
        let twice = [&parts[..=first], &parts[first..]].concat().concat();
        script.call(Call::IsMessage { bytes: &without });
        script.call(Call::IsMessage { bytes: &twice });
    }
    for length in 0..whole.len() {
        script.call(Call::IsMessage { bytes: &whole[..length] });
        script.call(Call::IsMessage { bytes: &whole[whole.len() - length..] });
    }
    for from in ["op=1", "id=", "deps=", "at=", "do=", "value=", "\n"] {
        for to in [
            "op=2", "op=01", "op=1 ", "OP=1", "", "\r\n", "\n\n", "id:", "id =", "deps", "at= ", "do",
            "value", "x",
        ] {
            let text = String::from_utf8_lossy(&whole).replacen(from, to, 1);
            is_message(script, &text);
        }
    }
    let text = String::from_utf8_lossy(&whole).into_owned();
    is_message(script, &format!("{text}{text}"));
    is_message(script, &format!("{text}\n"));
    is_message(script, &format!("\n{text}"));
    is_message(script, &format!("{text}{}", "x".repeat(600)));
    is_message(script, &format!("op=1\nid=2.1\ndeps={}\nat=61\ndo=delete\n", "0".repeat(600)));
    is_message(script, &format!("op=1\nid=2.1\ndeps={ZEROS}\nat={}\ndo=delete\n", "61{".repeat(200)));
    is_message(script, &"\n".repeat(700));
}

fn by_chance(random: &mut Random, script: &mut Script) {
    let document = super::damaged::grown(random, 30);
    for _ in 0..300 {
        let whole = wild(random, &document, DEEP, 1..=8);
        let whole = if random.chance(15) { whole } else { damaged(random, &whole) };
        script.call(Call::IsMessage { bytes: &whole });
        let lines = edit(random, &document, HONEST);
        let lines = if random.chance(15) { lines } else { damaged(random, &lines) };
        script.call(Call::IsLines { bytes: &lines });
        let (mut way, _) = way(random, &document, DEEP);
        way.push_str(["", "{", "["][random.below(3)]);
        let way = if random.chance(30) { way.into_bytes() } else { damaged(random, way.as_bytes()) };
        script.call(Call::IsKeysWay { bytes: &way });
        script.call(Call::IsValuesWay { bytes: &way });
        script.call(Call::IsElementWay { bytes: &way });
    }
}
