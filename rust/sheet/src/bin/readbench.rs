//! Reads one message, from standard input, many times: the baseline for the proved reader's speed.
//! Usage: readbench COUNT <MESSAGE. Prints the sum of what the readings gave, so that none can be left out.

use std::io::Read;

use sheet::read_message;

fn main() {
    let count: u64 = std::env::args().nth(1).and_then(|word| word.parse().ok()).unwrap_or(1);
    let mut message = Vec::new();
    std::io::stdin().read_to_end(&mut message).expect("standard input");
    let mut sum: u64 = 0;
    for turn in 0..count {
        let message = std::hint::black_box(&message);
        if let Ok(operation) = read_message(message) {
            sum = sum
                .wrapping_add(u64::from(operation.id.counter) + u64::from(operation.id.terminal) + turn % 2);
        }
    }
    println!("{sum}");
}
