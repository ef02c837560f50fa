//! What can stand at a place of a report: every octet is tried there.

use waslidhaj::Reader;

/// More octets than these at one place are told by the element alone.
const FEW: usize = 4;
/// As many octets of each text are told at the most.
const MOST: usize = 60;

/// The texts that can stand behind what was read, each up to the end of its tag or word;
/// none where there are many, or nothing can.
pub fn next(reader: &Reader) -> Vec<Vec<u8>> {
    let mut texts = Vec::new();
    go_on(reader, &[], &mut texts);
    texts.retain(|text| !text.is_empty());
    texts
}

fn go_on(reader: &Reader, text: &[u8], texts: &mut Vec<Vec<u8>>) {
    let could = could_stand(reader);
    let ends_word = !text.is_empty() && matches!(could[..], [(b'<', _)]);
    if text.ends_with(b">") || ends_word || text.len() >= MOST || could.len() > FEW {
        return texts.push(text.to_vec());
    }
    for (octet, reader) in &could {
        go_on(reader, &[text, &[*octet]].concat(), texts);
    }
}

/// The octets that are not refused, with the reader behind each.
fn could_stand(reader: &Reader) -> Vec<(u8, Reader)> {
    let taken = (0..=u8::MAX).filter_map(|octet| {
        let mut own = reader.clone();
        own.read([octet]).ok()?;
        Some((octet, own))
    });
    taken.collect()
}
