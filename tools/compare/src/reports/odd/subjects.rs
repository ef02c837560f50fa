//! Subjects of mails.

use super::{each, Named};
use crate::domains::{good, spelled};

pub fn days() -> Vec<Named> {
    let mut days = each("receivers", spelled(), |day, own| {
        day.subject.receiver = own
    });
    days.extend(each("policy domains", spelled(), |day, own| {
        day.subject.domain = own
    }));
    days.extend(each("both", good(), |day, own| {
        day.subject.receiver = own.to_ascii_uppercase();
        day.subject.domain = own;
        day.subject.id = vec![b'Z'; 64];
    }));
    days
}
