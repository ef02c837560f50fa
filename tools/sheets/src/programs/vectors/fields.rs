//! Identity-Alignment fields: readings 98 to 100.

use super::case::{FieldCase, Method};

/// The first is the size of the sixteen plain cases. Then none, one octet, and
/// around the lengths of the four fields: 25 (`spf`), 26 (`none`, `dkim`) and
/// 31 (`dkim, spf`).
const SIZES: [u8; 10] = [64, 0, 1, 24, 25, 26, 27, 30, 31, 255];

/// Every combination of the four flags at every size. Where neither method is
/// given no identifier is, which is 9, before any 10.
pub fn fields() -> Vec<FieldCase> {
    let mut fields = Vec::new();
    for size in SIZES {
        for dkim in methods() {
            for spf in methods() {
                fields.push(FieldCase { dkim, spf, size });
            }
        }
    }
    fields
}

/// Given or not, aligned or not. A method that is not given is not listed,
/// whatever its other flag says.
fn methods() -> [Method; 4] {
    let method = |given, aligned| Method { given, aligned };
    [
        method(true, true),
        method(true, false),
        method(false, true),
        method(false, false),
    ]
}
