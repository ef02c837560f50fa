//! Domains by the lengths of their labels.

use evaluator::domain::MOST_LABEL_OCTETS;

/// All octets that a label may have.
const OCTETS: &[u8; 64] = b"aB0-cD_e1FgH2iJ3kL4mN5oP6qR7sT8uV9wXyZAbCdEfGhIjKlMnOpQrStUvWxYz";

/// A domain of labels of so many octets.
pub fn domain(lengths: &[usize]) -> Vec<u8> {
    let mut octets = OCTETS.iter().copied().cycle();
    let label = |length: &usize| octets.by_ref().take(*length).collect();
    let labels: Vec<Vec<u8>> = lengths.iter().map(label).collect();
    labels.join(&b'.')
}

/// Labels of one octet.
pub fn single(labels: usize) -> Vec<u8> {
    domain(&vec![1; labels])
}

/// So many labels and octets in all, the lengths of the labels as near to each
/// other as can be.
pub fn even(labels: usize, octets: usize) -> Vec<u8> {
    let inside = (octets + 1).saturating_sub(labels);
    let (each, longer) = (inside / labels.max(1), inside % labels.max(1));
    let length = |number: usize| each + usize::from(number < longer);
    let lengths: Vec<usize> = (0..labels).map(length).collect();
    domain(&lengths)
}

/// So many labels and octets in all, the first labels as long as can be.
pub fn front(labels: usize, octets: usize) -> Vec<u8> {
    domain(&filled(labels, octets))
}

/// So many labels and octets in all, the last labels as long as can be.
pub fn back(labels: usize, octets: usize) -> Vec<u8> {
    let mut lengths = filled(labels, octets);
    lengths.reverse();
    domain(&lengths)
}

fn filled(labels: usize, octets: usize) -> Vec<usize> {
    let mut left = (octets + 1).saturating_sub(2 * labels);
    let mut lengths = vec![1; labels];
    for length in &mut lengths {
        let more = left.min(MOST_LABEL_OCTETS - 1);
        *length += more;
        left -= more;
    }
    lengths
}
