//! The example of docs/REPLAY.md is what the replayer gives.

use vectors::replay::replay;

/// The indented lines behind the line `name`, without their indent.
fn block(page: &str, name: &str) -> String {
    let (_, behind) = page.split_once(&format!("\n{name}:\n\n")).expect("the block's name");
    let lines = behind.lines().take_while(|line| line.is_empty() || line.starts_with("    "));
    let lines: Vec<&str> = lines.map(|line| line.strip_prefix("    ").unwrap_or(line)).collect();
    format!("{}\n", lines.join("\n").trim_end_matches('\n'))
}

#[test]
fn the_example_of_the_page() {
    let page = concat!(env!("CARGO_MANIFEST_DIR"), "/../../docs/REPLAY.md");
    let page = std::fs::read_to_string(page).expect("docs/REPLAY.md");
    let answers = replay(block(&page, "Script").as_bytes());
    assert_eq!(String::from_utf8(answers).unwrap(), block(&page, "Answers"));
}
