//! `vectors`: writes scripts and streams, plays scripts, keeps and counts the kept ones.

use std::io::{self, Read, Write};
use std::path::Path;
use std::process::ExitCode;
use std::{env, fs};

use sheet::Size;
use vectors::counts::{self, Counts};
use vectors::random::Random;
use vectors::{benches, fresh, kept, kinds, replay};

const USAGE: &str = "\
vectors script KIND SEED    a script of that kind on standard output
vectors answers             plays the script on standard input, its answers on standard output
vectors fresh SEED COUNT    a stream of COUNT messages for merge on standard output
vectors bench NAME TURNS    a script that bench/works times, of so many turns
vectors keep DIR            writes the kept files to DIR
vectors counts DIR          how often each answer number stands in the answers kept in DIR
vectors stream              how often each is given to the messages of the stream on standard input";

fn main() -> ExitCode {
    let arguments: Vec<String> = env::args().skip(1).collect();
    let arguments: Vec<&str> = arguments.iter().map(String::as_str).collect();
    match run(&arguments) {
        Ok(true) => ExitCode::SUCCESS,
        Ok(false) => {
            let kinds: Vec<&str> = kinds::all().map(|(name, _)| *name).collect();
            let names: Vec<&str> = benches::WORKS.iter().map(|(name, ..)| *name).collect();
            eprintln!("{USAGE}\nkinds: {}\nnames: {}", kinds.join(" "), names.join(" "));
            ExitCode::from(2)
        }
        Err(error) => {
            eprintln!("vectors: {error}");
            ExitCode::FAILURE
        }
    }
}

/// False if the arguments make no sense.
fn run(arguments: &[&str]) -> io::Result<bool> {
    match arguments {
        ["script", kind, seed] => {
            let kind = kinds::all().find(|(name, _)| name == kind);
            let (Some((_, play)), Ok(seed)) = (kind, seed.parse()) else {
                return Ok(false);
            };
            print(&kinds::script(*play, &Random::new(seed)))?;
        }
        ["answers"] => print(&replay::replay(&input()?))?,
        ["fresh", seed, count] => {
            let (Ok(seed), Ok(count)) = (seed.parse(), count.parse()) else {
                return Ok(false);
            };
            print(&fresh::stream(seed, count))?;
        }
        ["bench", name, turns] => {
            let Some(script) = turns.parse().ok().and_then(|turns| benches::script(name, turns)) else {
                return Ok(false);
            };
            print(&script)?;
        }
        ["keep", folder] => {
            for (name, bytes) in kept::files() {
                fs::write(Path::new(folder).join(name), bytes)?;
            }
        }
        ["counts", folder] => kept_counts(folder)?,
        ["stream"] => stream(&input()?),
        _ => return Ok(false),
    }
    Ok(true)
}

fn input() -> io::Result<Vec<u8>> {
    let mut bytes = Vec::new();
    io::stdin().lock().read_to_end(&mut bytes)?;
    Ok(bytes)
}

fn print(bytes: &[u8]) -> io::Result<()> {
    io::stdout().lock().write_all(bytes)
}

/// A row for each kind and one for all, a column for each answer number.
fn kept_counts(folder: &str) -> io::Result<()> {
    heading();
    let mut all = Counts::default();
    for (name, _) in kinds::KINDS {
        let answers = fs::read(Path::new(folder).join(format!("{name}.answers")))?;
        let mut counts = Counts::default();
        counts.add(&answers);
        all.add(&answers);
        println!("{}", row(name, &counts.calls));
    }
    println!("{}", row("all calls", &all.calls));
    println!("{}", row("verdicts", &all.verdicts));
    Ok(())
}

/// The same of a stream, how many of its messages were applied and dropped, and the size at the end.
fn stream(stream: &[u8]) {
    let (counts, applied, dropped) = counts::of_stream(stream);
    heading();
    println!("{}", row("stream", &counts.calls));
    println!("applied {applied}, dropped {dropped}");
    let Size { places, marks, values } = sheet::merge(stream).size();
    println!("places {places}, marks {marks}, values {values}");
}

fn heading() {
    let numbers: Vec<usize> = (0..=14).collect();
    println!("{}", row("answer", &numbers));
}

fn row(name: &str, numbers: &[usize]) -> String {
    let numbers: Vec<String> = numbers.iter().map(|number| format!("{number:5}")).collect();
    format!("{name:9} {}", numbers.join(" "))
}
