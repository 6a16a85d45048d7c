//! The fullest document, by messages: 256 places, 1,024 marks and 256 values, whose sheet is the
//! longest that there is.

use crate::make::{heard, hex, id, lines, message};
use crate::script::Script;

/// 64 ways of four keys. Four terminals that haven't heard of each other assign at each; of eight
/// terminals in all, so that every counter seen has ten digits.
pub fn fullest(script: &mut Script) {
    let value = format!("s{}", hex(&[0xee; 32]));
    for way in 0..64 {
        let keys = [way, 1, 2, 3].map(|key| hex(&[key; 16]));
        for terminal in 1..=4 {
            let terminal = terminal + way % 2 * 4;
            let deps = heard(script.document(), usize::from(terminal), &[]);
            let counter = 4_294_967_000 + u32::from(way);
            script.receive(&message(id(counter, terminal), &deps, &lines(&keys.join("{"), "assign", &value)));
        }
    }
}
