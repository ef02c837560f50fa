//! Policy texts: readings 35 to 39 and 42 to 50. `repeats` has a tag written twice.

use super::octets::{padded, EDGES};

pub fn texts() -> Vec<Vec<u8>> {
    let mut texts: Vec<Vec<u8>> = TEXTS.iter().map(|text| text.to_vec()).collect();
    texts.extend(long());
    texts.extend(every_octet());
    texts.extend(around(&all_octets(), AROUND_ALL));
    texts.extend(around(EDGES, AROUND_EDGES));
    texts
}

const TEXTS: &[&[u8]] = &[
    // Document 01: E and Y of the marked sheets, and the texts of 10 to 12.
    b"v=DMARC1; p=reject; sp=quarantine; np=reject; aspf=s",
    b"v=DMARC1; p=reject; psd=y",
    b"v=DMARC1; p=reject; t=y",
    b"v=dmarc1; p=reject",
    b"v=DMARC1; p=often",
    b"v=DMARC1; p=often; rua=mailto:r@example.com",
    // Every tag at once, none at its default, in two orders.
    b"v=DMARC1; p=reject; sp=quarantine; np=none; adkim=s; aspf=s; psd=n; t=y; rua=mailto:r@e.com",
    b"v=DMARC1;rua=mailto:r@e.com;t=y;psd=y;aspf=s;adkim=s;np=reject;sp=none;p=quarantine",
    // 35: the first part. Policy records.
    b"v=DMARC1",
    b"V=DMARC1",
    b"V = DMARC1 ",
    b"v\t=DMARC1;",
    b"v=DMARC1;",
    b"v= \t DMARC1\t ; p=none",
    b"v \t = \t DMARC1 \t ;p=none",
    b"v=DMARC1\t",
    b"v=DMARC1;;",
    b"v=DMARC1;;;;;;; ;\t;",
    // 35: no policy records.
    b"",
    b" ",
    b";",
    b";;;;",
    b" v=DMARC1",
    b"\tv=DMARC1",
    b" v=DMARC1; p=none; rua=mailto:r@example.com",
    b"v=dmarc1",
    b"v=Dmarc1",
    b"v=DMARC1 x",
    b"v=DMARC1 x; p=none; rua=mailto:r@example.com",
    b"v=DMARC1\r\n",
    b"v=DMARC1\n; p=none",
    b"v=DMARC10",
    b"v=DMARC11; p=none",
    b"v=DMARC2; p=none",
    b"v=DMARC",
    b"v=DMARC 1",
    b"v=DMARC1=",
    b"v=DMARC1,p=none",
    b"v=\"DMARC1\"",
    b"v==DMARC1",
    b"v= =DMARC1",
    b"v",
    b"v=",
    b"v =",
    b"v;=DMARC1",
    b"v=;DMARC1",
    b"v DMARC1",
    b"vDMARC1",
    b"vv=DMARC1",
    b"v v=DMARC1",
    b"=DMARC1",
    b"DMARC1",
    b";v=DMARC1",
    b"; v=DMARC1; p=none",
    b"p=none",
    b"p=none; v=DMARC1",
    b"v=spf1 -all",
    b"\xef\xbb\xbfv=DMARC1; p=none",
    b"\xf6=DMARC1; p=none",
    // 36: parts of another form are ignored.
    b"v=DMARC1;=x",
    b"v=DMARC1;=none;p=reject",
    b"v=DMARC1;p1=none;p=reject",
    b"v=DMARC1;p q=none",
    b"v=DMARC1;q p=none",
    b"v=DMARC1;p p=none",
    b"v=DMARC1;p",
    b"v=DMARC1;p;p=reject",
    b"v=DMARC1;p none",
    b"v=DMARC1;p:none",
    b"v=DMARC1;;p=none;;sp=reject;;",
    b"v=DMARC1; ; \t ;p=none",
    b"v=DMARC1;=x;p1=x;p q=x;p;;  ;sp;p=none",
    b"v=DMARC1;=",
    b"v=DMARC1; = ",
    b"v=DMARC1;==",
    b"v=DMARC1;-p=none;p-=none;_p=none;p.=none",
    b"v=DMARC1;\xf0=none",
    b"v=DMARC1;\"p\"=none",
    // 37: blanks around name and value; the value begins after all of them.
    b"v=DMARC1;p=reject",
    b"v=DMARC1; \t p \t = \t reject \t ",
    b"v=DMARC1;p=reject\t",
    b"v=DMARC1;p=\treject",
    b"v=DMARC1;\tp=reject",
    b"v=DMARC1;p\t=reject",
    b"v=DMARC1; p =none ; sp= quarantine;np = reject",
    // 37: a value with an octet that is not 32 to 126 is no value.
    b"v=DMARC1; p=reject; sp=no\tne",
    b"v=DMARC1; p=reject; sp=none\x80",
    b"v=DMARC1; p=reject; sp=none\x7f",
    b"v=DMARC1; p=reject; sp=none~",
    b"v=DMARC1; p=reject; sp=none !",
    b"v=DMARC1; p=reject; sp=none\x1f",
    b"v=DMARC1; p=reject; sp=\x1fnone",
    b"v=DMARC1; p=reject; sp=\x80",
    b"v=DMARC1; p=reject; sp=\x7f",
    b"v=DMARC1; p=reject; sp=~",
    b"v=DMARC1; p=reject; sp=!",
    b"v=DMARC1; p=reject\n",
    b"v=DMARC1; p=reject\r\n; sp=none",
    b"v=DMARC1;\r\n p=reject; sp=none",
    b"v=DMARC1; p=none\0",
    b"v=DMARC1; adkim=s\x80; aspf=s\x7f; psd=y\x1f; t=y\xff; np=none\0",
    b"v=DMARC1; rua=mailto:a@b\x80; p=none",
    // 38: an empty value.
    b"v=DMARC1; p=",
    b"v=DMARC1; p=;",
    b"v=DMARC1; p= \t ",
    b"v=DMARC1; p=reject; sp=",
    b"v=DMARC1; p=reject; sp= ",
    b"v=DMARC1; p=reject; sp= ; np=\t",
    b"v=DMARC1; p=reject; sp=\t;np=none",
    b"v=DMARC1; adkim=; aspf= ; psd=; t=\t; rua=",
    // 39: the first equals sign parts.
    b"v=DMARC1; p==reject",
    b"v=DMARC1; p= =reject",
    b"v=DMARC1; p = = reject",
    b"v=DMARC1; p=reject=",
    b"v=DMARC1; p=reject=none; sp==",
    b"v=DMARC1; adkim==s; aspf=s=; psd==y; t==y",
    b"v=DMARC1; rua==a:b",
    b"v=DMARC1; rua=a:b=c",
    // 42: values in either case, and whole.
    b"v=DMARC1; p=REJECT",
    b"V=DMARC1; P=NONE; SP=QuArAnTiNe; NP=rEJECt; ADKIM=S; ASPF=S; PSD=Y; T=Y; RUA=A:B",
    b"v=DMARC1; p=reject now",
    b"v=DMARC1; p=rejected; sp=rejec; np=eject",
    b"v=DMARC1; p=n; sp=non; np=nonee",
    b"v=DMARC1; p=quarantin; sp=quarantine.; np=quarantines",
    b"v=DMARC1; p=\"none\"",
    b"v=DMARC1; p=none,reject",
    b"v=DMARC1; psd=yes",
    b"v=DMARC1; psd=n",
    b"v=DMARC1; psd=N",
    b"v=DMARC1; psd=u",
    b"v=DMARC1; psd=U",
    b"v=DMARC1; psd=yn",
    b"v=DMARC1; psd=s",
    b"v=DMARC1; adkim=strict; aspf=strict",
    b"v=DMARC1; adkim=s",
    b"v=DMARC1; aspf=s",
    b"v=DMARC1; adkim=r; aspf=R",
    b"v=DMARC1; adkim=ss; aspf=s s",
    b"v=DMARC1; adkim=y; aspf=y",
    b"v=DMARC1; t=y",
    b"v=DMARC1; t=Y",
    b"v=DMARC1; t=n",
    b"v=DMARC1; t=N",
    b"v=DMARC1; t=yes",
    b"v=DMARC1; t=1",
    b"v=DMARC1; t=s",
    b"v=DMARC1; sp=reject",
    b"v=DMARC1; np=reject",
    b"v=DMARC1; np=no",
    // 43: other names have no effect.
    b"v=DMARC1; fo=1; ruf=mailto:x@y; pct=0; rf=afrf; ri=1; q=s; p=reject",
    b"v=DMARC1; x=p=reject",
    b"v=DMARC1; pp=none; sps=none; s=none; ps=y; psdd=y; tt=y; ruaa=a:b; ru=a:b; ua=a:b",
    b"v=DMARC1; adki=s; adkimm=s; dkim=s; spf=s; aspff=s; asp=s; npp=none; n=none; sd=y",
    b"v=DMARC1; abcdefghijklmnopqrstuvwxyz=reject; p=none",
    // 45: rua entries. Valid ones.
    b"v=DMARC1; rua=a:%41",
    b"v=DMARC1; rua=mailto::",
    b"v=DMARC1; rua=x+y:#",
    b"v=DMARC1; rua=a:b",
    b"v=DMARC1; rua=A1+-.:x",
    b"v=DMARC1; rua=z:-._~:/?#[]@$&'()*+=",
    b"v=DMARC1; rua=a:%aF%09%f0",
    b"v=DMARC1; rua=a:%414",
    b"v=DMARC1; rua=a:%25%",
    b"v=DMARC1; rua=https://example.com/r?a=b&c=%20#f",
    // 45: entries that are not valid.
    b"v=DMARC1; rua=mailto:",
    b"v=DMARC1; rua=:x",
    b"v=DMARC1; rua=:",
    b"v=DMARC1; rua=1a:x",
    b"v=DMARC1; rua=+a:x",
    b"v=DMARC1; rua=a_b:x",
    b"v=DMARC1; rua=a b:x",
    b"v=DMARC1; rua=a :x",
    b"v=DMARC1; rua=a: x",
    b"v=DMARC1; rua=%61:x",
    b"v=DMARC1; rua=mailto",
    b"v=DMARC1; rua=r@example.com",
    b"v=DMARC1; rua=mailto:a%2",
    b"v=DMARC1; rua=mailto:a%",
    b"v=DMARC1; rua=a:%",
    b"v=DMARC1; rua=a:%%41",
    b"v=DMARC1; rua=a:%4%41",
    b"v=DMARC1; rua=a:%2g",
    b"v=DMARC1; rua=a:%g2",
    b"v=DMARC1; rua=a:%4,1",
    b"v=DMARC1; rua=mailto:a b",
    b"v=DMARC1; rua=mailto:\"x\"@y",
    b"v=DMARC1; rua=<mailto:a@b>",
    b"v=DMARC1; rua=a:<b>; p=none",
    b"v=DMARC1; rua=a:\\",
    // 45: several entries; empty ones; blanks around them.
    b"v=DMARC1; rua=,",
    b"v=DMARC1; rua=,,,",
    b"v=DMARC1; rua= , , ",
    b"v=DMARC1; rua=, ,mailto:r@e.com",
    b"v=DMARC1; rua=mailto:r@e.com,",
    b"v=DMARC1; rua=mailto:a@b,mailto:c@d",
    b"v=DMARC1; rua= mailto:a@b , mailto:c@d ",
    b"v=DMARC1; rua=x,y,a:b",
    b"v=DMARC1; rua=a:b,x,y",
    b"v=DMARC1; rua=x , a:b , y",
    b"v=DMARC1; rua=mailto:,:x,1a:x,a:%",
    b"v=DMARC1; rua=a,:b",
    b"v=DMARC1; rua=a:,b",
    b"v=DMARC1; rua=x\ta:b",
    b"v=DMARC1; rua=a:b\t,c:d",
    b"v=DMARC1; rua=a:b c:d",
    // 46: no exclamation mark, but its code is fine.
    b"v=DMARC1; p=often; rua=mailto:r@example.com!10m",
    b"v=DMARC1; p=often; rua=mailto:r@example.com%21",
    b"v=DMARC1; rua=a:!",
    b"v=DMARC1; rua=a!:b",
    b"v=DMARC1; rua=!a:b",
    b"v=DMARC1; rua=a:b!10m,c:d",
    b"v=DMARC1; rua=a:b!10m,c:d!",
    b"v=DMARC1; rua=c:d,a:b!",
    // 47: where the rua text lies, trimmed.
    b"v=DMARC1; p=none; rua= \t mailto:a@b , x \t ; t=y",
    b"v=DMARC1;rua=,",
    b"v=DMARC1;rua=x",
    b"v=DMARC1; RUA=no",
    b"v=DMARC1\t;\trua\t=\tx\t",
    b"v=DMARC1; p=none; rua=",
    b"v=dmarc1; rua=mailto:a@b",
    b"rua=mailto:a@b",
    b"v = DMARC1 ; ; x ; rua = , a:b , ; p = none",
    // 49: p is absent.
    b"v=DMARC1; sp=none; np=none",
    b"v=DMARC1; rua=mailto:r@example.com",
    // 50: a semicolon splits in rua too.
    b"v=DMARC1; p=none; rua=mailto:a;b@c",
    b"v=DMARC1; rua=mailto:;a@b",
    b"v=DMARC1; rua=mailto:a;p=none;rub=x",
    b"v=DMARC1; rua=\"a:b;p=none\"",
    // No final semicolon, or several.
    b"v=DMARC1; p=none",
    b"v=DMARC1; p=none;",
    b"v=DMARC1; p=none; ;; ",
];

/// More octets than an octet counts.
const LONG: usize = 260;

/// 44: texts of any length, one of them longer than an answer may be. An octet
/// is repeated in the middle.
fn long() -> Vec<Vec<u8>> {
    vec![
        padded(b"v=DMARC1; x=", b'z', b"; p=none; rua=mailto:r@e.com", 4200),
        padded(b"v=DMARC1; p=none; x=", b'z', b"", LONG),
        padded(b"v=DMARC1; ", b'x', b"=y; p=none", LONG),
        padded(b"v=DMARC1; ", b'p', b"=none", LONG),
        padded(b"v", b' ', b"=DMARC1; p=reject", LONG),
        padded(b"v=", b'\t', b"DMARC1; p=reject", LONG),
        padded(b"v=DMARC1", b' ', b"; p=reject", LONG),
        padded(b"v=DMARC1", b' ', b"x; p=reject", LONG),
        padded(b"v=DMARC1", b';', b"p=quarantine", LONG),
        padded(b"v=DMARC1; p=", b' ', b"none", LONG),
        padded(b"v=DMARC1; p=none", b' ', b"", LONG),
        padded(b"v=DMARC1; p=none", b' ', b"x", LONG),
        padded(b"v=DMARC1; rua=", b',', b"a:b", LONG),
        padded(b"v=DMARC1; rua=", b'a', b":b", LONG),
        padded(b"v=DMARC1; rua=a:", b'b', b"", LONG),
        padded(b"v=DMARC1; rua=a:", b'b', b"!", LONG),
        padded(b"v=DMARC1; rua=a:", b'%', b"41", LONG),
        padded(b"", b';', b"", LONG),
        padded(b"", b'v', b"", LONG),
        [
            b"v=DMARC1".to_vec(),
            b"; p=\x80; rua=;".repeat(21),
            b"rua=x".to_vec(),
        ]
        .concat(),
        [
            b"v=DMARC1; rua=".to_vec(),
            b"a:%4,".repeat(50),
            b"a:%41".to_vec(),
        ]
        .concat(),
    ]
}

fn all_octets() -> Vec<u8> {
    (0..=255).collect()
}

/// 44: all 256 octets, alone and in several places.
fn every_octet() -> Vec<Vec<u8>> {
    let all = all_octets();
    let printable: Vec<u8> = (32..=126).collect();
    vec![
        all.clone(),
        [b"v=DMARC1".as_slice(), &all].concat(),
        [b"v=DMARC1; x=".as_slice(), &all, b"; p=none"].concat(),
        [b"v=DMARC1; rua=".as_slice(), &all, b"; rua=a:b"].concat(),
        [b"v=DMARC1; p=none; rua=".as_slice(), &printable].concat(),
        [b"v=DMARC1; ".as_slice(), &all, b"; sp=none"].concat(),
    ]
}

/// A text before and a text after the octet.
type Around = (&'static [u8], &'static [u8]);

/// Each of these with each of the 256 octets between.
const AROUND_ALL: &[Around] = &[
    // 37: within a value.
    (b"v=DMARC1; p=reject; sp=no", b"ne"),
    // 45: the one character of an entry after its scheme.
    (b"v=DMARC1; rua=a:", b""),
];

/// Each of these with each edge octet between.
const AROUND_EDGES: &[Around] = &[
    // 35: at each place of the first part.
    (b"", b"v=DMARC1; p=none"),
    (b"", b"=DMARC1; p=none"),
    (b"v", b"=DMARC1; p=none"),
    (b"v=", b"DMARC1; p=none"),
    (b"v=DMARC1", b" p=none"),
    // 36: before and after a name.
    (b"v=DMARC1; ", b"p=none"),
    (b"v=DMARC1; p", b"=none"),
    // 37: at either end of a value.
    (b"v=DMARC1; p=reject; sp=", b"none"),
    (b"v=DMARC1; p=reject; sp=none", b""),
    // 45: at either end of an entry, in its scheme, between entries.
    (b"v=DMARC1; rua=", b"a:b"),
    (b"v=DMARC1; rua=a:b", b""),
    (b"v=DMARC1; rua=", b":b"),
    (b"v=DMARC1; rua=a", b":b"),
    (b"v=DMARC1; rua=a", b"b"),
    (b"v=DMARC1; rua=a:!", b"a:b"),
    // 45: either hex digit.
    (b"v=DMARC1; rua=a:%4", b""),
    (b"v=DMARC1; rua=a:%", b"1"),
];

fn around(octets: &[u8], places: &[Around]) -> Vec<Vec<u8>> {
    let with = |(before, after): &Around, octet: u8| [*before, &[octet], *after].concat();
    places
        .iter()
        .flat_map(|place| octets.iter().map(move |octet| with(place, *octet)))
        .collect()
}
