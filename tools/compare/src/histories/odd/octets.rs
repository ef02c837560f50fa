//! Flags and spare octets of any value.

use super::{cleared, of, row, rows, Named, DOMAIN};
use crate::histories::history::History;
use evaluator::rows::Seen;

const FLAGS: [u8; 6] = [0, 1, 2, 3, 128, 255];

pub fn histories() -> Vec<Named> {
    vec![
        ("entries with flags of any octet", entries()),
        ("rows with flags of any octet", lent(|flag| [flag, 0, 0])),
        (
            "rows with other flags of any octet",
            lent(|flag| [0, flag, 0]),
        ),
        ("rows with spare octets", lent(|flag| [0, 0, flag])),
    ]
}

/// The same verdict with each pair of flags, into rows that are free and hold
/// anything.
fn entries() -> History {
    let mut history = rows(&[0; 8]);
    for row in &mut history.rows {
        (row.seen.dkim, row.seen.spf, row.seen.spare) = (9, 8, 7);
    }
    history.clear(DOMAIN);
    for dkim in FLAGS {
        for spf in FLAGS {
            let seen = Seen {
                dkim,
                spf,
                ..Seen::default()
            };
            history.enter(of(seen, DOMAIN));
        }
    }
    history
}

/// Rows with such an octet for dkim, spf or spare, and entries with each such flag.
fn lent(octets: fn(u8) -> [u8; 3]) -> History {
    let mut history = cleared(&[0; 40]);
    for (at, octet) in FLAGS.into_iter().enumerate() {
        let mut own = row(at as u32, 3);
        [own.seen.dkim, own.seen.spf, own.seen.spare] = octets(octet);
        history.write(at, own);
        for flag in FLAGS {
            let [dkim, spf, _] = octets(flag);
            let seen = Seen {
                dkim,
                spf,
                ..own.seen
            };
            history.enter(of(seen, DOMAIN));
        }
    }
    history.clear(DOMAIN);
    history.enter(of(row(0, 0).seen, DOMAIN));
    history
}
