//! `merge`: messages on standard input, the sheet on standard output.
//! Document 01, "The saved sheet", at its end.

use std::io::{self, Read, Write};

fn main() -> io::Result<()> {
    let mut stream = Vec::new();
    io::stdin().lock().read_to_end(&mut stream)?;
    let document = sheet::merge(&stream);
    io::stdout().lock().write_all(&document.sheet())
}
