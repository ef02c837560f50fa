//! All short fields: what begins one, and every sequence of a few pieces.

/// Each comes from another part of the grammar.
const FRONTS: &[(&[u8], usize)] = &[
    (b"Identity-Alignment:", 4),
    (b"Identity-Alignment:none", 3),
    (b"Identity-Alignment:none\r\n ", 3),
    (b"Identity-Alignment:dkim", 3),
    (b"Identity-Alignment:spf\t,", 3),
    (b"Identity-Alignment:(", 3),
    (b"Identity-Alignment:((((((((", 3),
];
const PIECES: &[&[u8]] = &[
    b" ", b"\r\n", b"\r", b"\n", b"(", b")", b"\\", b"a", b",", b"dkim", b"spf", b"none",
];

/// All of them.
pub fn fields() -> Vec<Vec<u8>> {
    let mut fields = Vec::new();
    for (front, pieces) in FRONTS {
        extend(&mut fields, front, *pieces);
    }
    fields
}

/// A front part, and what it becomes with so many pieces at the most.
fn extend(fields: &mut Vec<Vec<u8>>, front: &[u8], pieces: usize) {
    fields.push(front.to_vec());
    if let Some(fewer) = pieces.checked_sub(1) {
        for piece in PIECES {
            extend(fields, &[front, piece].concat(), fewer);
        }
    }
}
