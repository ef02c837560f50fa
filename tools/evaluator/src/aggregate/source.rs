//! The source address of a row.

use super::xml::Xml;

/// What stands before an IPv4 address that is mapped.
const MAPPED: [u8; 12] = [0, 0, 0, 0, 0, 0, 0, 0, 0, 0, 255, 255];

/// "mapped addresses dotted, others as eight lower-case hexadecimal groups"
pub fn write(xml: &mut Xml, source: &[u8; 16]) {
    match source.strip_prefix(&MAPPED) {
        Some(octets) => {
            let numbers = octets.iter().map(|octet| u64::from(*octet));
            groups(xml, numbers, (b".", 10));
        }
        None => {
            let (pairs, _) = source.as_chunks::<2>();
            let numbers = pairs
                .iter()
                .map(|pair| u64::from(u16::from_be_bytes(*pair)));
            groups(xml, numbers, (b":", 16));
        }
    }
}

/// Numbers to a base, parted.
fn groups(xml: &mut Xml, numbers: impl Iterator<Item = u64>, (part, base): (&[u8], u64)) {
    for (index, number) in numbers.enumerate() {
        if index > 0 {
            xml.plain(part);
        }
        xml.digits(number, base);
    }
}
