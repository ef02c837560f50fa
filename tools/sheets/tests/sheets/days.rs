//! The readable description of a day: what its lines give, and mistakes in them.

use std::net::IpAddr;

use sheets::day::{generated, Day, DayRow, Given, RowIdentifier, DKIM, SPF};

const DAY: &str = r#"domain example.com
record "v=DMARC1; p=reject" "; sp=none"
organization "Gate & \"Sons\""
email dmarc@gate.example
contact "\065\x42"
receiver gate.example.
id r7
begin 1700000000
end 2023-11-15T22:13:19Z
row 192.0.2.1 3 none aligned dkim author News.example.com
dkim pass mail.example.com s1
spf fail bounce.example.net
row 2001:DB8::1 4294967295 reject author example.com.
"#;

fn read(lines: &str) -> Result<Day, String> {
    Day::read("x.txt", lines.as_bytes())
}

fn day(lines: &str) -> Day {
    read(lines).unwrap_or_else(|reason| panic!("{reason}"))
}

/// The mistake in these lines.
fn mistake(lines: &str, said: &str) {
    assert_eq!(read(lines), Err(format!("x.txt: {said}")), "{lines}");
}

fn text(line: usize, octets: &[u8]) -> Option<Given<Vec<u8>>> {
    let value = octets.to_vec();
    Some(Given { line, value })
}

fn address(word: &str) -> IpAddr {
    word.parse().expect("an address")
}

fn rows() -> Vec<DayRow> {
    let dkim = RowIdentifier {
        line: 11,
        kind: DKIM,
        outcome: 1,
        domain: b"mail.example.com".to_vec(),
        selector: b"s1".to_vec(),
    };
    let spf = RowIdentifier {
        line: 12,
        kind: SPF,
        outcome: 0,
        domain: b"bounce.example.net".to_vec(),
        selector: Vec::new(),
    };
    let first = DayRow {
        line: 10,
        source: address("192.0.2.1"),
        count: 3,
        disposition: 0,
        dkim: true,
        spf: false,
        author: b"News.example.com".to_vec(),
        identifiers: vec![dkim, spf],
    };
    let second = DayRow {
        line: 13,
        source: address("2001:db8::1"),
        count: u32::MAX,
        disposition: 2,
        dkim: false,
        author: b"example.com.".to_vec(),
        identifiers: Vec::new(),
        ..first.clone()
    };
    vec![first, second]
}

#[test]
fn what_the_lines_give() {
    let time = |line, value| Some(Given { line, value });
    let expected = Day {
        name: "x.txt".to_string(),
        domain: text(1, b"example.com"),
        record: text(2, b"v=DMARC1; p=reject; sp=none"),
        organization: text(3, b"Gate & \"Sons\""),
        email: text(4, b"dmarc@gate.example"),
        contact: text(5, b"AB"),
        receiver: text(6, b"gate.example."),
        id: text(7, b"r7"),
        begin: time(8, 1_700_000_000),
        end: time(9, 1_700_086_399),
        rows: rows(),
    };
    assert_eq!(day(DAY), expected);
}

/// A day without its lines, which other blanks and comments move.
fn without_lines(mut day: Day) -> Day {
    for row in &mut day.rows {
        row.line = 0;
        row.identifiers.iter_mut().for_each(|own| own.line = 0);
    }
    let texts = [
        &mut day.domain,
        &mut day.record,
        &mut day.organization,
        &mut day.email,
        &mut day.contact,
        &mut day.receiver,
        &mut day.id,
    ];
    for text in texts.into_iter().flatten() {
        text.line = 0;
    }
    for time in [&mut day.begin, &mut day.end].into_iter().flatten() {
        time.line = 0;
    }
    day
}

#[test]
fn texts_as_other_systems_write_them() {
    let plain = without_lines(day(DAY));
    let spaced = DAY.replace('\n', " # row x\r\n\n  \t\n# row\n");
    assert_eq!(without_lines(day(&spaced)), plain);
    let capitals = DAY
        .replace("row", "ROW")
        .replace("aligned dkim author", "Aligned DKIM Author")
        .replace("spf fail", "SPF Fail")
        .replace("\nid ", "\nId ")
        .replace("T22:13:19Z", "t22:13:19z");
    assert_eq!(day(&format!("\u{feff}{capitals}")), day(DAY));
    let no_end = DAY.strip_suffix('\n').expect("a last line end");
    assert_eq!(day(no_end), day(DAY));
}

#[test]
fn names_in_hex_and_mapped_addresses() {
    let own = day("row ::FFFF:192.0.2.1 1 none author hex:2e00\n dkim pass hex: hex:ff\n");
    let [row] = &own.rows[..] else {
        panic!("{own:?}");
    };
    assert_eq!(row.source, address("192.0.2.1"));
    assert_eq!(row.author, b".\0");
    assert_eq!(row.identifiers[0].domain, b"");
    assert_eq!(row.identifiers[0].selector, b"\xff");
}

#[test]
fn which_methods_aligned() {
    for (words, dkim, spf) in [
        ("", false, false),
        ("aligned dkim ", true, false),
        ("aligned spf ", false, true),
        ("aligned dkim spf ", true, true),
        ("aligned spf DKIM ", true, true),
    ] {
        let own = day(&format!("row ::1 1 none {words}author a"));
        assert_eq!((own.rows[0].dkim, own.rows[0].spf), (dkim, spf), "{words}");
    }
    let form =
        "line 1: after aligned comes dkim, spf or dkim spf; leave it out where neither aligned";
    for words in [
        "aligned",
        "aligned none",
        "aligned dkim dkim",
        "aligned spf spf",
        "aligned dkim \"spf\"",
        "aligned dkim,spf",
    ] {
        mistake(&format!("row ::1 1 none {words} author a"), form);
    }
}

#[test]
fn times() {
    for (word, seconds) in [
        ("0", 0),
        ("007", 7),
        ("18446744073709551615", u64::MAX),
        ("1970-01-01T00:00:00Z", 0),
        ("1999-03-01T00:00:00Z", 920_246_400),
        ("2000-02-29T12:34:56Z", 951_827_696),
        ("2024-12-31T23:59:59Z", 1_735_689_599),
        ("2100-03-01T00:00:00Z", 4_107_542_400),
        ("9999-12-31T23:59:59Z", 253_402_300_799),
    ] {
        for item in ["begin", "end"] {
            let own = day(&format!("{item} {word}"));
            let given = own.begin.or(own.end).expect("a time");
            assert_eq!(given.value, seconds, "{word}");
        }
    }
}

#[test]
fn what_is_no_time() {
    let form = "line 1: a time is given in seconds since 1970, as 1700000000, or in UTC, as \
                2023-11-14T22:13:20Z";
    for word in [
        "",
        "-1",
        "+1",
        "1.5",
        "18446744073709551616",
        "\"1\"",
        "1 2",
        "2023-11-14",
        "2023-11-14T22:13:20",
        "2023-11-14T22:13:20+00:00",
        "2023-11-14 22:13:20Z",
        "1969-12-31T23:59:59Z",
        "2023-00-01T00:00:00Z",
        "2023-13-01T00:00:00Z",
        "2023-01-00T00:00:00Z",
        "2023-02-29T00:00:00Z",
        "2100-02-29T00:00:00Z",
        "2023-04-31T00:00:00Z",
        "2023-01-01T24:00:00Z",
        "2023-01-01T00:60:00Z",
        "2023-01-01T00:00:60Z",
        "2023-01-01T0x:00:00Z",
    ] {
        mistake(&format!("begin {word}"), form);
    }
}

const ROW_FORM: &str = "row takes a source address, a count, a disposition, the methods that aligned if \
                        any did, and the author domain, as in: row 192.0.2.1 3 none aligned dkim spf \
                        author example.com";

#[test]
fn rows_that_are_none() {
    for words in [
        "",
        " ::1 1 none a",
        " ::1 1 none author",
        " ::1 1 none dkim author a",
        " ::1 1 none author a b",
    ] {
        mistake(&format!("\nrow{words}"), &format!("line 2: {ROW_FORM}"));
    }
    let source = "line 1: the source is an address of IPv4 or IPv6, as 192.0.2.1 or 2001:db8::1";
    for word in [
        "example.com",
        "192.0.2",
        "192.0.02.1",
        "fe80::1%eth0",
        "\"::1\"",
        "::g",
    ] {
        mistake(&format!("row {word} 1 none author a"), source);
    }
    let count = "line 1: the count is a number from 1 to 4294967295";
    for word in ["0", "-1", "+1", "many", "4294967296", "1e3", "\"1\""] {
        mistake(&format!("row ::1 {word} none author a"), count);
    }
    let disposition =
        "line 1: the disposition is one of none, quarantine, reject; that of a message \
                       that passed is none";
    for word in ["pass", "defer", "\"none\""] {
        mistake(&format!("row ::1 1 {word} author a"), disposition);
    }
}

#[test]
fn identifiers_that_are_none() {
    let row = "row ::1 1 none author a\n";
    let below = |line: &str, said: &str| mistake(&format!("{row}{line}\n"), said);
    mistake("spf pass a", "line 1: an identifier stands below its row");
    below(
        "spf pass a s1",
        "line 2: spf takes an outcome and a domain, as in: spf pass example.com",
    );
    let form =
        "line 2: dkim takes an outcome, a domain and a selector, as in: dkim pass example.com s1";
    below("dkim pass a", form);
    below("dkim pass a b c", form);
    let outcome =
        "line 2: the outcome is one of fail, pass, temperror; softfail, neutral, none and \
                   permerror are fail";
    below("dkim softfail a s1", outcome);
    below("spf none a", outcome);
    below("spf pass \"a\"", "line 2: a domain is not quoted");
    let long = "s".repeat(256);
    below(
        &format!("dkim pass a {long}"),
        "line 2: the selector is over 255 octets",
    );
    let one_less = day(&format!("{row}dkim pass a {}\n", &long[1..]));
    assert_eq!(one_less.rows[0].identifiers[0].selector.len(), 255);
}

#[test]
fn other_mistakes() {
    let items = "a line begins with domain, record, organization, email, contact, receiver, id, \
                 begin, end, row, dkim or spf";
    mistake(
        "domain a\nfrom b",
        &format!("line 2: unknown item `from`; {items}"),
    );
    mistake(
        "\"v=DMARC1\"",
        "line 1: a line does not begin with a quoted text; put record, organization, email or \
         contact before it",
    );
    mistake(
        "domain a\n\nDomain b",
        "line 3: a second domain line; the first is line 1",
    );
    mistake(
        "begin 1\nend 1\nbegin 1",
        "line 3: a second begin line; the first is line 1",
    );
    mistake(
        "domain a b",
        "line 1: domain takes one domain, as in: domain example.com",
    );
    mistake(
        "receiver",
        "line 1: receiver takes one domain, as in: receiver example.com",
    );
    let record = "line 1: record takes the text of a policy record in quotes, as in: record \
                  \"v=DMARC1; p=reject\"";
    mistake("record", record);
    mistake("record v=DMARC1", record);
    for item in ["organization", "email", "contact", "id"] {
        let said = format!("line 1: {item} takes one text; put it in quotes if it has blanks");
        mistake(&format!("{item} a b"), &said);
        mistake(item, &said);
    }
    mistake("id \"a", "line 1: a quoted text is not closed");
    mistake(
        "id \"\\999\"",
        "line 1: digits after a `\\` are three, from \\000 to \\255",
    );
}

#[test]
fn a_row_that_is_given_again() {
    let row = "row ::1 1 none aligned spf author a.b\n dkim pass x s\n spf pass a.b\n";
    for (again, alike) in [
        (
            "row 0:0::1 9 none aligned spf author A.b.\n dkim pass X. S\n spf pass a.b\n",
            true,
        ),
        (
            "row ::1 9 none aligned spf author a.b\n spf pass a.b\n dkim pass x s\n",
            true,
        ),
        (
            "row ::2 1 none aligned spf author a.b\n dkim pass x s\n spf pass a.b\n",
            false,
        ),
        (
            "row ::1 1 reject aligned spf author a.b\n dkim pass x s\n spf pass a.b\n",
            false,
        ),
        (
            "row ::1 1 none aligned dkim author a.b\n dkim pass x s\n spf pass a.b\n",
            false,
        ),
        (
            "row ::1 1 none author a.b\n dkim pass x s\n spf pass a.b\n",
            false,
        ),
        (
            "row ::1 1 none aligned spf author b\n dkim pass x s\n spf pass a.b\n",
            false,
        ),
        (
            "row ::1 1 none aligned spf author a.b\n dkim fail x s\n spf pass a.b\n",
            false,
        ),
        (
            "row ::1 1 none aligned spf author a.b\n dkim pass x t\n spf pass a.b\n",
            false,
        ),
        (
            "row ::1 1 none aligned spf author a.b\n dkim pass x s\n",
            false,
        ),
    ] {
        let lines = format!("id x\n{row}{again}");
        match alike {
            true => mistake(
                &lines,
                "line 5: the row of line 2 again; give one with the sum of both",
            ),
            false => assert_eq!(day(&lines).rows.len(), 2, "{again}"),
        }
    }
    // The order of DKIM's own identifiers is told.
    let two = "row ::1 1 none author a\n dkim pass x s\n dkim pass y s\n";
    let turned = "row ::1 1 none author a\n dkim pass y s\n dkim pass x s\n";
    assert_eq!(day(&format!("{two}{turned}")).rows.len(), 2);
}

#[test]
fn no_more_rows_than_a_list_has() {
    let rows = |count: usize| -> String {
        let row = |index: usize| format!("row ::{index:x} 1 none author a\n");
        (0..count).map(row).collect()
    };
    assert_eq!(day(&rows(256)).rows.len(), 256);
    mistake(&rows(257), "line 257: a day has 256 rows at the most");
}

#[test]
fn octets_that_are_no_day() {
    let such = "a day has lines such as: row 192.0.2.1 3 none aligned dkim author example.com";
    mistake("", &format!("it is empty; {such}"));
    let wide = Day::read("x.txt", b"\xff\xfer\0");
    let said = "x.txt: it is written in UTF-16; save it as UTF-8 or ASCII".to_string();
    assert_eq!(wide, Err(said));
    assert_eq!(day("# nothing\n").rows, []);
    let mut most = vec![b'\n'; 8 << 20];
    assert!(Day::read("x.txt", &most).is_ok());
    most.push(b'\n');
    let said = "x.txt: it is over 8,388,608 octets, which no day needs".to_string();
    assert_eq!(Day::read("x.txt", &most), Err(said));
}

/// The longest day has room: all names as long as they may be, in hex.
#[test]
fn the_longest_day() {
    let name = format!("hex:{}", "61".repeat(254));
    let identifiers = format!("  dkim temperror {name} {name}\n").repeat(16);
    let row = |index: usize| {
        let source = format!("2001:db8:1111:2222:3333:4444:5555:{index:x}");
        let row = format!("row {source} 4294967295 quarantine aligned dkim spf author {name}\n");
        row + &identifiers
    };
    let lines: String = (0..256).map(row).collect();
    assert!(lines.len() > 4_000_000, "{}", lines.len());
    assert_eq!(day(&lines).rows.len(), 256);
}

/// Whether a day of the generator has something.
type Shape = fn(&Day) -> bool;

fn any_identifier(day: &Day, such: impl Fn(&RowIdentifier) -> bool) -> bool {
    let rows = day.rows.iter();
    rows.flat_map(|row| &row.identifiers).any(such)
}

const SHAPES: &[Shape] = &[
    |day| day.contact.is_none(),
    |day| {
        day.contact
            .as_ref()
            .is_some_and(|own| own.value.contains(&b'<'))
    },
    |day| day.rows.len() == 256,
    |day| day.rows.iter().any(|row| row.source.is_ipv4()),
    |day| day.rows.iter().any(|row| row.source.is_ipv6()),
    |day| day.rows.iter().any(|row| row.disposition == 0 && row.dkim),
    |day| {
        day.rows
            .iter()
            .any(|row| row.disposition == 0 && row.spf && !row.dkim)
    },
    |day| {
        day.rows
            .iter()
            .any(|row| row.disposition == 0 && !row.spf && !row.dkim)
    },
    |day| day.rows.iter().any(|row| row.disposition == 1),
    |day| day.rows.iter().any(|row| row.disposition == 2),
    |day| day.rows.iter().any(|row| row.count == u32::MAX),
    |day| day.rows.iter().any(|row| row.identifiers.is_empty()),
    |day| day.rows.iter().any(|row| row.identifiers.len() == 16),
    |day| any_identifier(day, |own| own.kind == SPF && own.outcome == 2),
    |day| any_identifier(day, |own| own.kind == DKIM && own.outcome == 0),
    |day| any_identifier(day, |own| own.domain.len() > 250 && own.outcome == 1),
    |day| any_identifier(day, |own| own.selector.ends_with(b".")),
];

#[test]
fn generated_days_are_complete_and_of_every_shape() {
    let mut seen = vec![0; SHAPES.len()];
    for index in 0..500 {
        let own = day(&generated(1, index));
        assert!(own.complete().is_ok(), "{index}");
        for (count, shape) in seen.iter_mut().zip(SHAPES) {
            *count += usize::from(shape(&own));
        }
    }
    assert!(seen.iter().all(|count| *count > 0), "{seen:?}");
    assert_eq!(generated(1, 7), generated(1, 7));
    assert_ne!(generated(1, 7), generated(2, 7));
}
