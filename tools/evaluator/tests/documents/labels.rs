//! Ask 3 of document 02 and readings 127 and 128: labels counted in one pass.

use evaluator::domain::{fault, label_pass, Domain, LabelPass};

fn pass(labels: usize, rounds: usize, begins: [usize; 8]) -> LabelPass {
    LabelPass {
        labels,
        rounds,
        begins,
    }
}

/// A domain of labels of so many octets.
fn domain(lengths: &[usize]) -> String {
    let labels: Vec<String> = lengths.iter().map(|octets| "x".repeat(*octets)).collect();
    labels.join(".")
}

/// Where the last labels begin, from the dots counted at the end.
fn begin_by_dots(domain: &str, count: usize) -> usize {
    let dot = domain.rmatch_indices('.').nth(count - 1);
    dot.map_or(0, |(place, _)| place + 1)
}

#[test]
fn point_127_written_by_hand() {
    let table = [
        ("a", pass(1, 1, [0; 8])),
        ("example", pass(1, 7, [0; 8])),
        ("example.com", pass(2, 11, [8, 0, 0, 0, 0, 0, 0, 0])),
        ("_dmarc.EXAMPLE.com", pass(3, 18, [15, 7, 0, 0, 0, 0, 0, 0])),
        (
            "a.bb.ccc.dddd.e.ff.g",
            pass(7, 20, [19, 16, 14, 9, 5, 2, 0, 0]),
        ),
        ("a.b.c.d.e.f.g.h", pass(8, 15, [14, 12, 10, 8, 6, 4, 2, 0])),
        (
            "a.b.c.d.e.f.g.h.i",
            pass(9, 17, [16, 14, 12, 10, 8, 6, 4, 2]),
        ),
        (
            "long.a.b.c.d.e.f.g.h.i",
            pass(10, 22, [21, 19, 17, 15, 13, 11, 9, 7]),
        ),
    ];
    for (domain, expected) in table {
        assert_eq!(label_pass(domain.as_bytes()), expected, "{domain}");
    }
}

#[test]
fn point_127_at_the_limits() {
    let longest = domain(&[63, 63, 63, 61]);
    let expected = pass(4, 253, [192, 128, 64, 0, 0, 0, 0, 0]);
    assert_eq!(label_pass(longest.as_bytes()), expected);
    let most = domain(&[1; 127]);
    let expected = pass(127, 253, [252, 250, 248, 246, 244, 242, 240, 238]);
    assert_eq!(label_pass(most.as_bytes()), expected);
    let one = domain(&[63]);
    assert_eq!(label_pass(one.as_bytes()), pass(1, 63, [0; 8]));
}

#[test]
fn point_128_one_round_for_each_octet() {
    for labels in 1..=127 {
        let lengths: Vec<usize> = (0..labels).map(|number| 1 + number * labels % 3).collect();
        let both = [domain(&vec![1; labels]), domain(&lengths)];
        let good = |domain: &String| fault(domain.as_bytes()).is_none();
        for domain in both.into_iter().filter(good) {
            let pass = label_pass(domain.as_bytes());
            assert_eq!((pass.labels, pass.rounds), (labels, domain.len()));
            for (count, begin) in (1..).zip(pass.begins) {
                assert_eq!(begin, begin_by_dots(&domain, count), "{domain}");
            }
        }
    }
}

/// "The answers stay as they are": where the pass says, the last labels begin,
/// and so each target of the walk but the domain itself.
#[test]
fn the_pass_and_the_walk_agree() {
    for labels in 1..=127 {
        let text = domain(&vec![1; labels]);
        assert_eq!(fault(text.as_bytes()), None);
        let read = Domain::read(text.as_bytes()).expect("a domain");
        let pass = label_pass(text.as_bytes());
        assert_eq!(pass.labels, read.label_count());
        for (count, begin) in (1..).zip(pass.begins) {
            let last = read.last_labels(count);
            assert_eq!(read.place_of(&last), begin);
            assert_eq!(Some(last.octets()), text.as_bytes().get(begin..));
        }
        let targets = read.walk_targets();
        let places: Vec<usize> = targets.iter().map(|to| read.place_of(to)).collect();
        let count = (labels - 1).min(7);
        let mut expected: Vec<usize> = pass.begins[..count].to_vec();
        expected.push(0);
        expected.reverse();
        assert_eq!(places, expected, "{labels} labels");
    }
}
