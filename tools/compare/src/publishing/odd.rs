//! Settings and texts written by hand, one for each odd thing.

use super::generate::Case;
use super::rua::{at_the_limit, entries_of, entry_of};
use records::code::RecordNumbers;

/// `p=none`, all else absent or at its default.
const PLAIN: RecordNumbers = RecordNumbers {
    p: 0,
    sp: 3,
    np: 3,
    adkim: 0,
    aspf: 0,
    psd: 0,
    t: 0,
};
/// None at its default.
const FULL: RecordNumbers = RecordNumbers {
    p: 2,
    sp: 1,
    np: 0,
    adkim: 1,
    aspf: 1,
    psd: 2,
    t: 1,
};
/// Rua texts, allowed and not.
const RUA: &[&[u8]] = &[
    b"",
    b"mailto:a@example.com",
    b"MAILTO:A@b , c:d,e:%4f",
    b"a:-._~:/?#[]@$&'()*+=",
    b"mailto:a@b,,c:d",
    b"mailto:a@b,",
    b",",
    b"nobody",
    b"mailto:a@b, nobody",
    b"mailto:",
    b"mailto:a@b!10m",
    b"mailto:a%4",
    b"mailto:a b",
    b";",
    b"mailto:a;b@c",
    b"a:b;",
    b" ",
    b" a:b",
    b"a:b ",
    b"\ta:b",
    b"a:b\t",
    b"a:b,\tc:d",
    b"a:b\x1f",
    b"a:b\x7f",
    b"a:\x80",
    b"\xff",
];

/// All of them, each with no octet lent, one too few, as many as are needed and
/// more.
pub fn cases() -> Vec<Case> {
    let mut cases = Vec::new();
    for numbers in settings() {
        for rua in [b"".as_slice(), b"mailto:a@example.com", b"nobody"] {
            cases.extend(lent(numbers, rua));
        }
    }
    let long = at_the_limit().into_iter();
    let long = long.flat_map(|octets| [entry_of(octets), entries_of(octets)]);
    let short = RUA.iter().map(|rua| rua.to_vec());
    for rua in short.chain(long) {
        for numbers in [PLAIN, FULL, RecordNumbers { p: 3, ..FULL }] {
            cases.extend(lent(numbers, &rua));
        }
    }
    cases
}

/// Each tag at every number that is listed and at some that are not.
fn settings() -> Vec<RecordNumbers> {
    let mut settings = Vec::new();
    for own in [PLAIN, FULL] {
        for n in [0, 1, 2, 3, 4, 5, 127, 128, 255] {
            settings.extend([
                RecordNumbers { p: n, ..own },
                RecordNumbers { sp: n, ..own },
                RecordNumbers { np: n, ..own },
                RecordNumbers { adkim: n, ..own },
                RecordNumbers { aspf: n, ..own },
                RecordNumbers { psd: n, ..own },
                RecordNumbers { t: n, ..own },
            ]);
        }
    }
    settings
}

fn lent(numbers: RecordNumbers, rua: &[u8]) -> Vec<Case> {
    let needed = Case::needed(numbers, rua).unwrap_or(16);
    let lent = [0, needed - 1, needed, needed + 1, needed + 40];
    let rua = rua.to_vec();
    lent.map(|lent| Case {
        numbers,
        rua: rua.clone(),
        lent,
    })
    .to_vec()
}

/// Texts that are usable, that are not, and that are no policy record; each rua
/// text in one of them.
pub fn texts() -> Vec<Vec<u8>> {
    let mut texts: Vec<Vec<u8>> = TEXTS.iter().map(|text| text.to_vec()).collect();
    let long = at_the_limit().map(entry_of);
    for rua in RUA.iter().copied().chain(long.iter().map(Vec::as_slice)) {
        texts.push([b"v=DMARC1; p=none; rua=", rua].concat());
        texts.push([b"v=DMARC1;RUA\t= ", rua, b" ;p=reject;"].concat());
        texts.push([b"v=DMARC1; rua=", rua].concat());
    }
    texts
}

const TEXTS: &[&[u8]] = &[
    b"",
    b";",
    b"v=DMARC1",
    b"V = DMARC1 ",
    b" v=DMARC1",
    b"v=dmarc1; p=none",
    b"v=DMARC1; p=none; p=none",
    b"v=DMARC1; p=none; fo=1; FO=1",
    b"v=DMARC1; p=none; V=DMARC1",
    b"v=DMARC1; p=none; sp=; sp=reject",
    b"v=DMARC1; rua=a:b; p=none; rua=a:b",
    b"v=DMARC1; sp=reject",
    b"v=DMARC1; p=often; rua=a:b",
    b"v=DMARC1; p=none; sp=often",
    b"v=DMARC1; p=none; np=often",
    b"v=DMARC1;p=REJECT;SP=None;nP=quarantine;adkim=S;aspf=R;psd=Y;t=Y",
    b"v=DMARC1; p=none; adkim=strict; aspf=relaxed; psd=x; t=1",
    b"v=DMARC1; p=none; adkim=r; aspf=r; psd=u; t=n; rua=",
    b"v=DMARC1; rua=a:b; t=y; psd=n; aspf=s; adkim=s; np=reject; sp=quarantine; p=none;",
    b"v=DMARC1; p=none; pct=50; ruf=a:b; rf=afrf; ri=1; x=y",
    b"v=DMARC1; p=none; sp=no\tne; np=none\x80",
];
