//! Ask 4 of document 02, readings 129 to 133: writing policy records.

use crate::case::refusal;
use evaluator::policy::entries::EntryFault;
use evaluator::policy::parts::{parts, PartFault, VersionFault};
use evaluator::policy::{read, rua_text, Mode, Policy, Psd, Request, Settings};
use evaluator::publishing::{rua_faults, write_record, RuaFault};
use evaluator::refusal::Refusal;

const NONE: Request = Request::Valid(Policy::None);
const QUARANTINE: Request = Request::Valid(Policy::Quarantine);
const REJECT: Request = Request::Valid(Policy::Reject);

/// `p` alone, all else absent or at its default.
fn of(p: Request) -> Settings {
    Settings {
        p,
        ..Settings::default()
    }
}

/// None at its default.
const FULL: Settings = Settings {
    p: REJECT,
    sp: QUARANTINE,
    np: NONE,
    adkim: Mode::Strict,
    aspf: Mode::Strict,
    psd: Psd::No,
    testing: true,
    rua_valid: true,
};

/// The record as text, from lent memory with octets to spare.
fn written(settings: &Settings, rua: &[u8]) -> Result<String, Refusal> {
    let mut lent = [170; 5000];
    let length = write_record(settings, rua, &mut lent)?;
    assert!(lent[length..].iter().all(|octet| *octet == 170));
    Ok(String::from_utf8_lossy(&lent[..length]).into_owned())
}

/// The record of usable settings without a rua text.
fn record(settings: Settings) -> String {
    written(&settings, b"").expect("usable settings")
}

fn refused(settings: &Settings, rua: &[u8]) -> Option<Refusal> {
    written(settings, rua).err()
}

#[test]
fn point_129_defaults_are_left_out() {
    assert_eq!(record(of(NONE)), "v=DMARC1; p=none");
    assert_eq!(record(of(QUARANTINE)), "v=DMARC1; p=quarantine");
    assert_eq!(record(of(REJECT)), "v=DMARC1; p=reject");
}

#[test]
fn point_129_each_tag_alone() {
    let p = of(NONE);
    let rows = [
        (Settings { sp: REJECT, ..p }, "sp=reject"),
        (Settings { np: REJECT, ..p }, "np=reject"),
        (
            Settings {
                adkim: Mode::Strict,
                ..p
            },
            "adkim=s",
        ),
        (
            Settings {
                aspf: Mode::Strict,
                ..p
            },
            "aspf=s",
        ),
        (Settings { psd: Psd::Yes, ..p }, "psd=y"),
        (Settings { psd: Psd::No, ..p }, "psd=n"),
        (Settings { testing: true, ..p }, "t=y"),
    ];
    for (settings, tag) in rows {
        assert_eq!(record(settings), format!("v=DMARC1; p=none; {tag}"));
    }
    let rua = written(&p, b"mailto:a@example.com");
    let expected = "v=DMARC1; p=none; rua=mailto:a@example.com";
    assert_eq!(rua, Ok(expected.to_string()));
}

#[test]
fn point_129_sp_and_np_equal_to_p_are_written() {
    let equal = Settings {
        sp: REJECT,
        np: REJECT,
        ..of(REJECT)
    };
    assert_eq!(record(equal), "v=DMARC1; p=reject; sp=reject; np=reject");
    let np_alone = Settings {
        np: NONE,
        ..of(NONE)
    };
    assert_eq!(record(np_alone), "v=DMARC1; p=none; np=none");
}

#[test]
fn point_129_the_order_the_blanks_and_no_final_semicolon() {
    let expected = "v=DMARC1; p=reject; sp=quarantine; np=none; adkim=s; aspf=s; psd=n; t=y; \
                    rua=mailto:a@example.com, https://b.example/?q";
    let rua = b"mailto:a@example.com, https://b.example/?q";
    assert_eq!(written(&FULL, rua), Ok(expected.to_string()));
}

#[test]
fn point_129_rua_verbatim() {
    for rua in [
        "MAILTO:A@Example.COM",
        "a:%4f%4F",
        "mailto:a@b ,\u{20}  mailto:c@d",
    ] {
        let expected = format!("v=DMARC1; p=none; rua={rua}");
        assert_eq!(written(&of(NONE), rua.as_bytes()), Ok(expected));
    }
}

#[test]
fn the_rua_text_alone_says_whether_there_is_an_entry() {
    let flagged = Settings {
        rua_valid: true,
        ..of(NONE)
    };
    assert_eq!(record(flagged), record(of(NONE)));
    assert_eq!(written(&flagged, b"a:b"), written(&of(NONE), b"a:b"));
}

#[test]
fn point_130_refusal_15() {
    let wrong = [Request::Absent, Request::Invalid];
    for p in wrong {
        assert_eq!(refused(&of(p), b""), Some(refusal(15, 0)));
    }
    // Every trio of requests.
    let all = [Request::Absent, Request::Invalid, NONE, QUARANTINE, REJECT];
    for p in all {
        for sp in all {
            for np in all {
                let settings = Settings { p, sp, np, ..FULL };
                let bad = wrong.contains(&p) || sp == Request::Invalid || np == Request::Invalid;
                let expected = bad.then_some(refusal(15, 0));
                assert_eq!(refused(&settings, b""), expected, "{settings:?}");
            }
        }
    }
}

/// A rua text of one entry and so many octets.
fn entry_of(octets: usize) -> Vec<u8> {
    let mut rua = b"mailto:".to_vec();
    rua.resize(octets, b'a');
    rua
}

#[test]
fn point_131_texts_that_are_allowed() {
    let longest = entry_of(4096);
    let many = b"a:b,".repeat(1023);
    let many = [many.as_slice(), b"a:bc"].concat();
    assert_eq!(many.len(), 4096);
    let texts: [&[u8]; 8] = [
        b"",
        b"mailto:a@example.com",
        b"mailto:a@b , mailto:c@d",
        b"mailto:a@b\x20,\x20\x20\x20mailto:c@d,x+y:#",
        b"a:-._~:/?#[]@$&'()*+=",
        b"a:%41",
        &longest,
        &many,
    ];
    for rua in texts {
        assert_eq!(refused(&of(NONE), rua), None, "{}", rua.escape_ascii());
        assert_eq!(rua_faults(rua), []);
    }
}

#[test]
fn point_131_refusal_16() {
    let too_long = entry_of(4097);
    let much_too_long = entry_of(70_000);
    let blank_too_long = [entry_of(4090).as_slice(), b" , a:b,"].concat();
    let texts: [&[u8]; 29] = [
        // An entry that is not valid, the reader needing only one that is.
        b"mailto",
        b"mailto:",
        b":x",
        b"1a:x",
        b"mailto:a%2",
        b"mailto:a b",
        b"mailto:\"x\"@y",
        b"mailto:a@b!10m",
        b"mailto:a@b, nobody",
        b"nobody, mailto:a@b",
        // An empty entry.
        b",",
        b"mailto:a@b,",
        b",mailto:a@b",
        b"mailto:a@b,,mailto:c@d",
        b"mailto:a@b, ,mailto:c@d",
        // A semicolon, which the entry itself may have.
        b";",
        b"mailto:a;b@c",
        b"mailto:a@b; mailto:c@d",
        // Blanks at either end.
        b" ",
        b" mailto:a@b",
        b"mailto:a@b ",
        b"\tmailto:a@b",
        b"mailto:a@b\t",
        // Octets outside 32 to 126.
        b"mailto:a@b,\tmailto:c@d",
        b"mailto:a@b\x7f",
        b"mailto:\x80@b",
        &too_long,
        &much_too_long,
        &blank_too_long,
    ];
    for rua in texts {
        let shown = rua.escape_ascii();
        assert_eq!(refused(&of(NONE), rua), Some(refusal(16, 0)), "{shown}");
        assert!(!rua_faults(rua).is_empty());
    }
}

#[test]
fn point_131_what_is_wrong_with_a_rua_text() {
    let entry = |number, entry, fault| RuaFault::Entry {
        number,
        entry,
        fault,
    };
    assert_eq!(
        rua_faults(b" a:b;,, c\xffd "),
        [
            RuaFault::BlankFirst,
            RuaFault::BlankLast,
            RuaFault::Semicolon { place: 4 },
            RuaFault::Outside {
                octet: 255,
                place: 9
            },
            entry(2, b"", EntryFault::Empty),
            entry(3, b"c\xffd", EntryFault::NoColon),
        ]
    );
    assert_eq!(rua_faults(&entry_of(4097)), [RuaFault::TooLong(4097)]);
    let faults = [
        ("1a:x", EntryFault::NoScheme),
        (":x", EntryFault::NoScheme),
        ("a_b:x", EntryFault::NoScheme),
        ("a:", EntryFault::NothingAfterColon),
        ("a:b%4", EntryFault::Percent),
        ("a:b%4g", EntryFault::Percent),
        ("a:b!1", EntryFault::Octet(b'!')),
        ("a:b c", EntryFault::Octet(b' ')),
        ("a", EntryFault::NoColon),
    ];
    for (text, fault) in faults {
        let expected = [entry(1, text.as_bytes(), fault)];
        assert_eq!(rua_faults(text.as_bytes()), expected);
    }
}

/// A text whose rua is allowed: written, read and written again.
fn settles(text: &[u8]) -> String {
    let shown = text.escape_ascii();
    let settings = read(text).expect("a record");
    let once = written(&settings, rua_text(text)).unwrap_or_else(|_| panic!("{shown}"));
    assert_eq!(read(once.as_bytes()), Some(settings), "{shown}");
    assert_eq!(rua_text(once.as_bytes()), rua_text(text), "{shown}");
    let twice = written(&settings, rua_text(once.as_bytes()));
    assert_eq!(twice.as_ref(), Ok(&once), "{shown}");
    once
}

#[test]
fn point_132_the_same_settings_and_no_octet_changes() {
    assert_eq!(settles(b"v=DMARC1;p=none"), "v=DMARC1; p=none");
    let shuffled = b"V = DMARC1;rua=\tmailto:A@b , c:d ;T=Y;psd=U;ASPF=s;adkim=r;np=REJECT;P=none;";
    let expected = "v=DMARC1; p=none; np=reject; aspf=s; t=y; rua=mailto:A@b , c:d";
    assert_eq!(settles(shuffled), expected);
    let ignored = b"v=DMARC1; p=none; sp=; adkim=strict; t=yes; pct=50; rua=a:b; ruf=c:d";
    assert_eq!(settles(ignored), "v=DMARC1; p=none; rua=a:b");
    // 50: the rua text ends at a semicolon.
    let cut = b"v=DMARC1; p=none; rua=mailto:a;b@c";
    assert_eq!(settles(cut), "v=DMARC1; p=none; rua=mailto:a");
    let full = settles(
        b"v=DMARC1; p=reject; sp=quarantine; np=none; adkim=s; aspf=s; psd=n; t=y; rua=a:b",
    );
    assert_eq!(Ok(full), written(&FULL, b"a:b"));
}

#[test]
fn what_is_written_reads_back() {
    let all = [Request::Absent, NONE, QUARANTINE, REJECT];
    let modes = [Mode::Relaxed, Mode::Strict];
    for p in [NONE, QUARANTINE, REJECT] {
        for (sp, np) in all.iter().flat_map(|sp| all.map(|np| (*sp, np))) {
            for (adkim, aspf) in modes
                .iter()
                .flat_map(|own| modes.map(|other| (*own, other)))
            {
                for psd in [Psd::Yes, Psd::No, Psd::Unset] {
                    for (testing, rua) in [(true, ""), (false, ""), (true, "a:b"), (false, "a:b")] {
                        let settings = Settings {
                            p,
                            sp,
                            np,
                            adkim,
                            aspf,
                            psd,
                            testing,
                            rua_valid: !rua.is_empty(),
                        };
                        let text = written(&settings, rua.as_bytes()).expect("usable settings");
                        assert_eq!(read(text.as_bytes()), Some(settings), "{text}");
                        assert_eq!(rua_text(text.as_bytes()), rua.as_bytes());
                    }
                }
            }
        }
    }
}

#[test]
fn point_133_octets_needed_and_the_order_15_16_10() {
    let lent = |octets: usize, settings: &Settings, rua: &[u8]| {
        let mut lent = vec![170; octets];
        let answer = write_record(settings, rua, &mut lent);
        if answer.is_err() {
            assert!(lent.iter().all(|octet| *octet == 170));
        }
        answer
    };
    let p = of(NONE);
    assert_eq!(lent(15, &p, b""), Err(refusal(10, 16)));
    assert_eq!(lent(16, &p, b""), Ok(16));
    assert_eq!(lent(17, &p, b""), Ok(16));
    assert_eq!(lent(0, &p, b""), Err(refusal(10, 16)));
    // The whole record may be over 4,096 octets: 16 and `; rua=` before it.
    let longest = entry_of(4096);
    assert_eq!(lent(4117, &p, &longest), Err(refusal(10, 4118)));
    assert_eq!(lent(4118, &p, &longest), Ok(4118));
    let absent = of(Request::Absent);
    assert_eq!(lent(0, &absent, b";"), Err(refusal(15, 0)));
    assert_eq!(lent(100, &absent, b"a:b"), Err(refusal(15, 0)));
    assert_eq!(lent(0, &p, b";"), Err(refusal(16, 0)));
    assert_eq!(lent(0, &p, &entry_of(4097)), Err(refusal(16, 0)));
}

#[test]
fn what_is_wrong_with_parts() {
    let text = b"v=DMARC1; p=none;; p;=x; p1=x; p q=x; sp= ; np=a\x80; t=\ty";
    let faults: Vec<Option<PartFault>> = parts(text)
        .expect("a policy text")
        .iter()
        .map(|part| part.tag.err())
        .collect();
    let expected = [
        None,
        None,
        Some(PartFault::Empty),
        Some(PartFault::NoEquals),
        Some(PartFault::NoName),
        Some(PartFault::NoLetter(b'1')),
        Some(PartFault::NoLetter(b' ')),
        Some(PartFault::NoValue),
        Some(PartFault::Outside(0x80)),
        None,
    ];
    assert_eq!(faults, expected);
    let texts = parts(text).expect("a policy text");
    assert_eq!(
        texts.last().map(|part| part.text),
        Some(b"t=\ty".as_slice())
    );
}

#[test]
fn what_is_wrong_with_a_first_part() {
    let rows: [(&[u8], VersionFault); 9] = [
        (b"", VersionFault::NoV),
        (b"\"v=DMARC1\"", VersionFault::NoV),
        (b"p=none; v=DMARC1", VersionFault::NoV),
        (b" v=DMARC1", VersionFault::BlankBefore),
        (b"\tv=DMARC1", VersionFault::BlankBefore),
        (b"v DMARC1", VersionFault::NoEquals),
        (b"vv=DMARC1", VersionFault::NoEquals),
        (b"v=dmarc1", VersionFault::OtherValue),
        (b"v=DMARC1 p=none", VersionFault::OtherValue),
    ];
    for (text, fault) in rows {
        assert_eq!(parts(text), Err(fault), "{}", text.escape_ascii());
        assert_eq!(read(text), None);
    }
}
