//! Reports as other senders write them.

use crate::received::edges::{BETWEEN, OTHERS};
use sheets::random::Random;

/// One thing as others have it, or blanks between all elements.
pub fn change(random: &mut Random, text: &mut Vec<u8>) {
    let own = String::from_utf8_lossy(text);
    let changed = match random.percent(15) {
        true => own.replace("><", &format!(">{}<", random.pick(BETWEEN))),
        false => {
            let (from, to) = random.pick(OTHERS);
            match random.percent(70) {
                true => own.replacen(from, to, 1),
                false => own.replace(from, to),
            }
        }
    };
    *text = changed.into_bytes();
}
