//! Policy texts with one tag written twice, or nearly so: Ask 2 of document 02,
//! readings 40, 41, 125 and 126.

use super::octets::padded;
use crate::random::Random;
use crate::tag_lists::tag_list;

pub fn texts() -> Vec<Vec<u8>> {
    let mut texts: Vec<Vec<u8>> = TEXTS.iter().map(|text| text.to_vec()).collect();
    texts.extend(each_name());
    texts.extend(lists());
    texts.extend(long_names());
    texts.extend((0..SEEDED).map(|index| seeded(&mut Random::of(SEED, index))));
    texts
}

const TEXTS: &[&[u8]] = &[
    // A known name twice, whatever the values.
    b"v=DMARC1; p=none; p=reject",
    b"v=DMARC1; p=reject; p=reject",
    b"v=DMARC1; p=often; p=reject",
    b"v=DMARC1; p=reject; p=often",
    b"v=DMARC1; p==reject; p=reject",
    b"v=DMARC1; p=none; p=none; p=none",
    b"v=DMARC1;p=none;p=none;",
    b"v=DMARC1; p=none; sp=none; p=none",
    b"v=DMARC1; sp=none; sp=reject; np=reject; np=none",
    b"v=DMARC1; adkim=s; adkim=r; aspf=r; aspf=s",
    b"v=DMARC1; psd=x; psd=y; t=x; t=y",
    b"v=DMARC1; psd=u; psd=y",
    b"v=DMARC1; p=none; psd=y; psd=y",
    b"v=DMARC1; p=none; psd=n; psd=n",
    b"v=DMARC1; p=none; t=y; t=y",
    b"v=DMARC1; p=reject; sp=quarantine; np=none; adkim=s; aspf=s; psd=n; t=y; rua=a:b; p=none",
    b"v=DMARC1; p=reject; sp=quarantine; np=none; adkim=s; aspf=s; psd=n; t=y; rua=a:b; t=y",
    b"v=DMARC1; p=reject; sp=quarantine; np=none; adkim=s; aspf=s; psd=n; t=y; rua=a:b; v=a",
    // The first v with them.
    b"v=DMARC1; V=x",
    b"v=DMARC1; v=DMARC2; p=none",
    b"v=DMARC1; v=DMARC1; p=none",
    b"v=DMARC1; v=DMARC1",
    b"v=DMARC1;v=DMARC1;",
    b"V=DMARC1; V=DMARC1",
    b"v=DMARC1; p=none; V=dmarc1",
    b"v=DMARC1; p=none; v=DMARC1",
    b"V = DMARC1 ; p=none; \t v \t = \t DMARC1 \t ",
    b"v=DMARC1; v; v=; p=none",
    b"v=DMARC1; v=\x80; v=DMA\tRC1; v v=x; p=none",
    b"v=DMARC1; vv=DMARC1; w=v=DMARC1; p=none",
    // Unknown names, neighbours and not.
    b"v=DMARC1; foo=1; FOO=2",
    b"v=DMARC1; fo=1; fo=1",
    b"v=DMARC1; p=none; fo=1; fo=1",
    b"v=DMARC1; p=none; pct=50; rf=afrf; pct=50",
    b"v=DMARC1; x=1; p=none; X=1",
    b"v=DMARC1; p=none; x=1; y=2; z=3; x=4",
    b"v=DMARC1; p=none; x=1; y=2; z=3; z=4",
    b"v=DMARC1; p=none; x=1; y=2; z=3; y=4; x=5",
    b"v=DMARC1; x=1; xx=2; xxx=3; y=1; xy=2; yx=3; p=none",
    b"v=DMARC1; xxx=1; xx=2; x=3; p=none",
    b"v=DMARC1; x=y; y=x; z=z=z; p=p=p",
    b"v=DMARC1; x=1; y=x=1; p=none",
    // In either case; other octets that part in the same bit are no letters.
    b"v=DMARC1; P=none; p=reject",
    b"v=DMARC1; p=none; P=reject",
    b"v=DMARC1; Sp=quarantine; sP=reject; nP=x; Np=none",
    b"v=DMARC1; aDkIm=s; AdKiM=s",
    b"v=DMARC1; abcdefghijklmnopqrstuvwxyz=1; ABCDEFGHIJKLMNOPQRSTUVWXYZ=1",
    b"v=DMARC1; abcdefghijklmnopqrstuvwxyz=1; ABCDEFGHIJKLMNOPQRSTUVWXYY=1",
    b"v=DMARC1; x@=1; x`=1; x[=1; x{=1; p=none",
    // Blanks around names.
    b"v=DMARC1;p=none; p=none",
    b"v=DMARC1;\tp =none;p\t=none",
    b"v=DMARC1; \t sp \t = \t none \t ;sp=none",
    b"v=DMARC1;sp=none; \t sp \t = \t none \t ",
    b"v=DMARC1;x=1;; ;\t;x=1;",
    b"v=DMARC1; x =1; x x=1; p=none",
    // Ill-formed parts do not count.
    b"v=DMARC1; sp=; sp=none",
    b"v=DMARC1; sp=none; sp=",
    b"v=DMARC1; sp= \t ; sp=none; sp",
    b"v=DMARC1; sp=; sp=; sp",
    b"v=DMARC1; p; p=reject; p",
    b"v=DMARC1; p; p=reject; p=none",
    b"v=DMARC1; p=no\tne; p=reject",
    b"v=DMARC1; p=reject; p=no\tne",
    b"v=DMARC1; p=reject; p=none\x1f",
    b"v=DMARC1; p=reject; p=none\x7f; p=\x80",
    b"v=DMARC1; p=reject; p=none\xff; p=\0",
    b"v=DMARC1; p=\x80; p=none; p=reject",
    b"v=DMARC1; p=reject; p=~",
    b"v=DMARC1; p=reject; p=a b",
    b"v=DMARC1; p1=none; p1=none; p=reject",
    b"v=DMARC1; p q=none; p q=none; p=reject",
    b"v=DMARC1; p:none; p none; p=reject",
    b"v=DMARC1; adkim=x; aspf=; aspf=s",
    b"v=DMARC1; =x; =y; ==; p=none",
    b"v=DMARC1;;;p=none;;",
    // The rua text; a semicolon splits in it.
    b"v=DMARC1; rua=a:b; rua=cc:dd",
    b"v=DMARC1; rua=a:b; rua=a:b",
    b"v=DMARC1; rua=x; rua=a:b",
    b"v=DMARC1; RUA=cc:dd; rua=x",
    b"v=DMARC1; rua=; rua=a:\x80; rua=cc:dd",
    b"v=DMARC1; rua=; rua=a:\x80; rua=cc:dd; rua=e:f",
    b"v=DMARC1; p=none; rua= \t mailto:a@b , x \t ; rua=a:b",
    b"v=DMARC1; rua=mailto:a;p=none;rua=x",
    b"v=DMARC1; rua=a:b; x=1; x=1",
    b"v=DMARC1; x=1; x=1; rua=a:b",
    // No policy records for their first part.
    b"v=dmarc1; p=none; p=none",
    b" v=DMARC1; p=none; p=none",
    b"p=none; p=none",
];

const NAMES: &[&str] = &[
    "v", "p", "sp", "np", "adkim", "aspf", "psd", "t", "rua", "fo", "x", "pct",
];

/// A name stands for `name`, in upper case for `NAME`.
const FORMS: &[&str] = &[
    "v=DMARC1; name=s",
    "v=DMARC1; name=y; name=y",
    "v=DMARC1; name=s; NAME=n",
    "v=DMARC1;NAME=s;q=z;name=s",
    "v=DMARC1; name =s; q=z; r=z;\tname\t=s; p=none",
    "v=DMARC1; name=; name=s",
    "v=DMARC1; name=s; name=",
    "v=DMARC1; name=s; name=s\u{7f}",
    "v=DMARC1; name=s; namex=s; xname=s",
];

fn each_name() -> Vec<Vec<u8>> {
    let with = |form: &str, name: &str| {
        let upper = name.to_ascii_uppercase();
        form.replace("NAME", &upper).replace("name", name)
    };
    NAMES
        .iter()
        .flat_map(|name| FORMS.iter().map(move |form| with(form, name)))
        .map(String::into_bytes)
        .collect()
}

/// Ends of lists that name none, the first, a late one or `v` again, or only
/// nearly so.
const ENDS: &[&[u8]] = &[
    b"",
    b";a=1",
    b";ZZ=1",
    b";V=1",
    b";a=",
    b";z=\x80",
    b";aaa=1",
    b";zzz=1;zzz=1",
];

/// Lists of distinct names, of all ends, and of as many octets as an answer may
/// have those of the first few.
fn lists() -> Vec<Vec<u8>> {
    let short = ENDS
        .iter()
        .flat_map(|end| [130, 700].map(|n| tag_list(end, n)));
    let long = ENDS.iter().take(5).map(|end| tag_list(end, 4096));
    short.chain(long).collect()
}

/// Two long names, alike or not.
fn long_names() -> Vec<Vec<u8>> {
    let two = |first: Vec<u8>, second: Vec<u8>| {
        let parts: [&[u8]; 5] = [b"v=DMARC1;", &first, b"=1;", &second, b"=1;p=none"];
        parts.concat()
    };
    let name = |octets| padded(b"a", b'x', b"b", octets);
    vec![
        two(name(2037), padded(b"A", b'X', b"B", 2037)),
        two(name(2037), padded(b"a", b'x', b"c", 2037)),
        two(name(255), name(255)),
        two(name(256), name(256)),
        two(name(300), name(300)),
        two(name(300), name(301)),
        two(name(300), name(44)),
        two(name(300), padded(b"b", b'x', b"b", 300)),
        two(padded(b"", b'x', b"", 256), padded(b"", b'x', b"", 257)),
    ]
}

const SEEDED: u64 = 320;
const SEED: u64 = 6376;
const SEEDED_NAMES: &[&str] = &[
    "p", "p", "sp", "np", "adkim", "aspf", "psd", "t", "rua", "fo", "x", "xx", "xy", "y", "pp",
    "tt", "ru", "vv", "v",
];
/// The last three make their part ill-formed.
const SEEDED_VALUES: &[&[u8]] = &[
    b"none", b"reject", b"s", b"y", b"n", b"a:b", b"=", b"", b"\x80", b"o\tk",
];
const BLANKS: &[&[u8]] = &[b"", b"", b"", b" ", b"\t"];

/// A text of a few tags whose names may come again.
fn seeded(random: &mut Random) -> Vec<u8> {
    let mut text = random
        .pick(&[b"v=DMARC1".as_slice(), b"V =DMARC1"])
        .to_vec();
    for _ in 0..random.between(2, 7) {
        let name = random.pick(SEEDED_NAMES);
        let name = match random.percent(25) {
            true => name.to_ascii_uppercase(),
            false => name.to_string(),
        };
        text.push(b';');
        text.extend(random.pick(BLANKS));
        text.extend(name.bytes());
        text.extend(random.pick(BLANKS));
        text.push(b'=');
        text.extend(random.pick(SEEDED_VALUES));
    }
    text
}
