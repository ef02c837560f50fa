//! `include/waslidhaj.h` compiles as C and as C++ without a warning, says what the
//! wrapper crate says of every struct, field and number, and declares nothing
//! that the archive lacks.

use std::fs;
use std::mem::offset_of;
use std::path::Path;
use std::process::Command;

use desk::compiler::{archive, compile};
use desk::header::{plain, Header, Struct};
use desk::root;
use waslidhaj::raw::{Called, Entry, FieldRead, Found, Gathered, Given};
use waslidhaj::raw::{Check, CheckCalled, CheckGiven};
use waslidhaj::raw::{Ended, Fed, Reader, ReaderState, Told};
use waslidhaj::raw::{FindingNumbers, Row, Seen, Settings, State, Verdict, Written};
use waslidhaj::raw::{List, ListChanged, RecordRead, Refusal};
use waslidhaj::raw::{ACCEPTED, ASK, OUTCOME, REFUSED, VERDICT};
use waslidhaj::raw::{ADDRESS_CONFIRMED, ADDRESS_INSIDE, ADDRESS_NO};
use waslidhaj::raw::{ADDRESS_NOT_KNOWN, ADDRESS_REPLACED};
use waslidhaj::raw::{READ_MORE, READ_REFUSED, READ_ROW, ROW_OCTETS};
use waslidhaj::raw::{ROW_AUTHOR, ROW_IDENTIFIERS, ROW_IDENTIFIER_OCTETS, ROW_SOURCE};
use waslidhaj::raw::{ROW_DOMAIN, ROW_DOMAIN_LENGTH, ROW_KIND, ROW_OUTCOME};
use waslidhaj::raw::{ROW_IS_DOTTED, ROW_QUARANTINE, ROW_REJECT};
use waslidhaj::raw::{ROW_SELECTOR, ROW_SELECTOR_LENGTH};
use waslidhaj::{Alignment, AppliedPolicy, Disposition, DmarcResult};
use waslidhaj::{Existence, Kind, Outcome, Report, ReportLists, ReportedIdentifier, Subject};
use waslidhaj::{CHECK_NAMES, CHECK_NAME_OCTETS};
use waslidhaj::{DOMAIN_OCTETS, NAME_OCTETS, PRINTED_OCTETS, SCRATCH_OCTETS};
use waslidhaj::{IDENTIFIERS, NAMES, ROWS, RUN_STACK_OCTETS, STACK_OCTETS, VERSION};

/// Each compiler, and the standards that the header is compiled by.
const COMPILERS: [(&str, &str, &[&str]); 2] = [
    ("gcc", "c", &["c99", "c11", "c17"]),
    ("g++", "cpp", &["c++11", "c++14", "c++17", "c++20"]),
];

fn header() -> Header {
    let text = fs::read_to_string(root().join("include/waslidhaj.h"));
    Header::read(&text.expect("the header"))
}

/// Compiles a program by each standard, runs it, and hands on what it prints.
fn printed_by_each(title: &str, program: &str, check: impl Fn(&str)) {
    for (compiler, ending, standards) in COMPILERS {
        for standard in standards {
            let folder = Path::new(env!("CARGO_TARGET_TMPDIR"));
            let source = folder.join(format!("{title}.{ending}"));
            let built = folder.join(format!("{title}-{standard}"));
            fs::write(&source, program).expect("a file in the target folder");
            let words = [source, archive(), "-o".into(), built.clone()];
            compile(compiler, standard, &words);
            let ran = Command::new(&built).output().expect("the program runs");
            assert!(ran.status.success(), "{title}, {standard}");
            check(&String::from_utf8(ran.stdout).expect("plain text"));
        }
    }
}

fn program(before: &[String], statements: &[String]) -> String {
    let includes = "#include <stddef.h>\n#include <stdio.h>\n#include \"waslidhaj.h\"\n";
    let before: String = before.iter().map(|line| format!("{line}\n")).collect();
    let within: String = statements
        .iter()
        .map(|line| format!("  {line}\n"))
        .collect();
    format!("{includes}{before}int main(void) {{\n{within}  return 0;\n}}\n")
}

/// `waslidhaj_list_changed` is `ListChanged` in Rust.
fn rust_name(name: &str) -> String {
    let words = name.split('_').skip(1);
    let capital = |word: &str| word[..1].to_uppercase() + &word[1..];
    words.map(capital).collect()
}

/// A struct's size and alignment, then each field's place and size. C99 has no
/// word for an alignment: it is where a value stands after one octet.
fn layout_statements(of: &Struct) -> Vec<String> {
    let (c, rust) = (&of.name, rust_name(&of.name));
    let first =
        format!("printf(\"{rust} %zu %zu\\n\", sizeof({c}), offsetof(struct after_{c}, value));");
    let field = |field: &String| {
        let size = format!("sizeof((({c} *)0)->{field})");
        format!("printf(\"{rust}.{field} %zu %zu\\n\", offsetof({c}, {field}), {size});")
    };
    let fields = of.fields.iter().map(field);
    [first].into_iter().chain(fields).collect()
}

fn field_size<Whole, Field>(_: fn(&Whole) -> &Field) -> usize {
    size_of::<Field>()
}

/// The same of a struct in Rust.
macro_rules! layout {
    ($name:ident: $($field:ident)*) => {{
        let (name, size) = (stringify!($name), size_of::<$name>());
        let first = format!("{name} {size} {}\n", align_of::<$name>());
        let fields: [String; [$(stringify!($field)),*].len()] = [$({
            let place = offset_of!($name, $field);
            let size = field_size(|whole: &$name| &whole.$field);
            format!("{name}.{} {place} {size}\n", stringify!($field))
        }),*];
        first + &fields.concat()
    }};
}

/// A lent text in C, which has some structs of them; Rust lends slices.
#[repr(C)]
struct Text {
    octets: *const u8,
    length: usize,
}

#[repr(C)]
struct Lists {
    authors: Text,
    sets: Text,
}

#[repr(C)]
struct Reporter {
    organization: Text,
    email: Text,
    contact: Text,
    id: Text,
    begin: u64,
    end: u64,
}

#[repr(C)]
struct ReadGiven {
    event: u8,
    used: usize,
    refusal: Refusal,
    count: u32,
}

#[repr(C)]
struct Received {
    source: [u8; 16],
    count: u32,
    disposition: u8,
    dkim: u8,
    spf: u8,
    author: Text,
    identifiers: usize,
}

#[repr(C)]
struct ReceivedIdentifier {
    kind: u8,
    outcome: u8,
    domain: Text,
    selector: Text,
}

fn layouts() -> String {
    [
        layout!(Refusal: number place),
        layout!(Written: refusal length),
        layout!(Verdict: result policy disposition begin alignments count),
        layout!(Given: kind walk place length verdict refusal),
        layout!(State: started handed asked existence support place_kind found domains numbers
            kept stored identifiers count ruling_begin ruling_settings ruling_policy walk
            record_begin record_settings target_begin target_wider more),
        layout!(Called: state given),
        layout!(Seen: source disposition dkim spf spare author set),
        layout!(Row: seen count),
        layout!(List: cleared domain length),
        layout!(FindingNumbers: result disposition dkim spf),
        layout!(Entry: source finding author set),
        layout!(ListChanged: list refusal),
        layout!(Found: kind finding begin refusal),
        layout!(Text: octets length),
        layout!(Lists: authors sets),
        layout!(Settings: p sp np adkim aspf psd t),
        layout!(RecordRead: is_record settings reports rua_begin rua_length),
        layout!(Reporter: organization email contact id begin end),
        layout!(Gathered: count octets),
        layout!(FieldRead: refusal dkim spf),
        layout!(Check: started asked confirmed domains numbers kept count point_kind
            organization found record_begin record_settings target_begin target_wider more
            instead_begin instead_length),
        layout!(CheckGiven: kind agreement walk place begin length count refusal),
        layout!(CheckCalled: check given),
        layout!(ReaderState: taken refused value begin count length left ten sixteen node which
            at label some disposition dkim spf kind digits numbers author identifiers domain
            selector outcome),
        layout!(Reader: state row),
        layout!(Told: event number place count),
        layout!(Fed: state used told),
        layout!(Ended: state told),
        layout!(ReadGiven: event used refusal count),
        layout!(Received: source count disposition dkim spf author identifiers),
        layout!(ReceivedIdentifier: kind outcome domain selector),
    ]
    .concat()
}

#[test]
fn structs_lie_in_memory_as_in_rust() {
    let structs = header().structs();
    let after = |of: &Struct| {
        let c = &of.name;
        format!("struct after_{c} {{ char octet; {c} value; }};")
    };
    let before: Vec<String> = structs.iter().map(after).collect();
    let statements: Vec<String> = structs.iter().flat_map(layout_statements).collect();
    let program = program(&before, &statements);
    printed_by_each("layouts", &program, |printed| {
        assert_eq!(printed, layouts());
    });
}

/// The numbers of the wrapper by the header's words, in the header's order. A
/// status of an answer has no number in Rust: these are document 01's.
#[rustfmt::skip]
fn numbers() -> Vec<(&'static str, usize)> {
    vec![
        ("VERSION", VERSION),
        ("DOMAIN_OCTETS", DOMAIN_OCTETS),
        ("NAME_OCTETS", NAME_OCTETS),
        ("CHECK_NAME_OCTETS", CHECK_NAME_OCTETS),
        ("SCRATCH_OCTETS", SCRATCH_OCTETS),
        ("PRINTED_OCTETS", PRINTED_OCTETS),
        ("IDENTIFIERS", IDENTIFIERS),
        ("NAMES", NAMES),
        ("ROWS", ROWS),
        ("SET_OCTETS", IDENTIFIERS * (4 + 3 + 2 * (DOMAIN_OCTETS + 1))),
        ("REPORT_OCTETS", Report::OCTETS),
        ("SUBJECT_OCTETS", Subject::OCTETS),
        ("ROW_OCTETS", ROW_OCTETS),
        ("STACK_OCTETS", STACK_OCTETS),
        ("RUN_STACK_OCTETS", RUN_STACK_OCTETS),
        ("MISSING", Existence::Missing as usize),
        ("EXISTS", Existence::Exists as usize),
        ("NOT_KNOWN", Existence::NotKnown as usize),
        ("SPF", Kind::Spf as usize),
        ("DKIM", Kind::Dkim as usize),
        ("NOT_PASSING", Outcome::NotPassing as usize),
        ("PASSING", Outcome::Pass as usize),
        ("TEMPORARY_ERROR", Outcome::TemporaryError as usize),
        ("RECORDS", 0),
        ("NO_RECORDS", 1),
        ("ERROR", 2),
        ("RESULT_NONE", DmarcResult::None as usize),
        ("RESULT_PASS", DmarcResult::Pass as usize),
        ("RESULT_FAIL", DmarcResult::Fail as usize),
        ("RESULT_TEMPERROR", DmarcResult::Temperror as usize),
        ("RESULT_PERMERROR", DmarcResult::Permerror as usize),
        ("POLICY_NONE", AppliedPolicy::None as usize),
        ("POLICY_QUARANTINE", AppliedPolicy::Quarantine as usize),
        ("POLICY_REJECT", AppliedPolicy::Reject as usize),
        ("POLICY_UNKNOWN", AppliedPolicy::Unknown as usize),
        ("DISPOSITION_NONE", Disposition::None as usize),
        ("DISPOSITION_QUARANTINE", Disposition::Quarantine as usize),
        ("DISPOSITION_REJECT", Disposition::Reject as usize),
        ("DISPOSITION_DEFER", Disposition::Defer as usize),
        ("NOT_JUDGED", Alignment::NotJudged as usize),
        ("ALIGNED", Alignment::Aligned as usize),
        ("NOT_ALIGNED", Alignment::NotAligned as usize),
        ("ALIGNMENT_UNKNOWN", Alignment::Unknown as usize),
        ("ACCEPTED", ACCEPTED.into()),
        ("ASK", ASK.into()),
        ("VERDICT", VERDICT.into()),
        ("REFUSED", REFUSED.into()),
        ("ADDRESS_NOT_KNOWN", ADDRESS_NOT_KNOWN.into()),
        ("ADDRESS_NO", ADDRESS_NO.into()),
        ("ADDRESS_INSIDE", ADDRESS_INSIDE.into()),
        ("ADDRESS_CONFIRMED", ADDRESS_CONFIRMED.into()),
        ("ADDRESS_REPLACED", ADDRESS_REPLACED.into()),
        ("OUTCOME", OUTCOME.into()),
        ("CHECK_NAMES", CHECK_NAMES),
        ("READ_MORE", READ_MORE.into()),
        ("READ_ROW", READ_ROW.into()),
        ("READ_REFUSED", READ_REFUSED.into()),
        ("ROW_SOURCE", ROW_SOURCE),
        ("ROW_AUTHOR", ROW_AUTHOR),
        ("ROW_IDENTIFIERS", ROW_IDENTIFIERS),
        ("ROW_IDENTIFIER_OCTETS", ROW_IDENTIFIER_OCTETS),
        ("ROW_DOMAIN", ROW_DOMAIN),
        ("ROW_SELECTOR", ROW_SELECTOR),
        ("ROW_DOMAIN_LENGTH", ROW_DOMAIN_LENGTH),
        ("ROW_SELECTOR_LENGTH", ROW_SELECTOR_LENGTH),
        ("ROW_OUTCOME", ROW_OUTCOME),
        ("ROW_KIND", ROW_KIND),
        ("ROW_IS_DOTTED", ROW_IS_DOTTED.into()),
        ("ROW_QUARANTINE", ROW_QUARANTINE.into()),
        ("ROW_REJECT", ROW_REJECT.into()),
    ]
}

#[test]
fn enumerators_are_the_numbers_of_rust() {
    let print = |name: &String| format!("printf(\"{name} %d\\n\", (int){name});");
    let statements: Vec<String> = header().enumerators().iter().map(print).collect();
    let line = |(name, number): &(&str, usize)| format!("WASLIDHAJ_{name} {number}\n");
    let expected: String = numbers().iter().map(line).collect();
    let program = program(&[], &statements);
    printed_by_each("numbers", &program, |printed| {
        assert_eq!(printed, expected);
    });
}

/// Two bits an identifier, the first one's lowest; past the last one there are
/// none.
#[test]
fn an_alignment_of_a_verdict() {
    let statements = [
        "unsigned index;",
        "waslidhaj_verdict verdict = {0, 0, 0, 0, 0xe4e4e4e4u, 0};",
        "for (index = 0; index < 18; index++)",
        "  printf(\"%u\", waslidhaj_alignment(verdict, index));",
    ];
    let program = program(&[], &statements.map(str::to_string));
    printed_by_each("alignment", &program, |printed| {
        assert_eq!(printed, "012301230123012300");
    });
}

/// An identifier that passes DKIM, and one that does not pass SPF.
const BOTH: [ReportedIdentifier<'_>; 2] = [
    ReportedIdentifier {
        kind: Kind::Dkim,
        outcome: Outcome::Pass,
        selector: b"s1",
        domain: b"example.com",
    },
    ReportedIdentifier {
        kind: Kind::Spf,
        outcome: Outcome::NotPassing,
        selector: b"",
        domain: b"bounce.example.net",
    },
];

/// Octets as the header shows them: words in quotes, and numbers.
fn shown(line: &str) -> Vec<u8> {
    let words = line.split_whitespace().filter(|word| !word.contains('*'));
    words.fold(Vec::new(), |mut octets, word| {
        match word.parse::<u8>() {
            Ok(octet) => octets.push(octet),
            Err(_) => octets.extend(word.trim_matches('"').bytes()),
        }
        octets
    })
}

#[test]
fn the_lists_that_the_header_shows() {
    let text = fs::read_to_string(root().join("include/waslidhaj.h")).expect("the header");
    let lines = text.lines().filter(|line| line.starts_with(" *   \""));
    let shown: Vec<Vec<u8>> = lines.map(shown).collect();
    let mut beside = ReportLists::new();
    assert_eq!(beside.author("example.com"), Some(0));
    assert_eq!((beside.set(&BOTH), beside.set(&[])), (Some(0), Some(1)));
    assert_eq!(shown, [beside.lists().authors, beside.lists().sets]);
}

/// What the C program packs, in Rust: the places, and the octets of both lists.
fn packed() -> String {
    let mut beside = ReportLists::new();
    let authors = ["example.com", "news.example.com", "example.com", ""];
    let authors = authors.map(|domain| beside.author(domain));
    let sets = [&BOTH[..], &[], &BOTH, &BOTH[1..]].map(|set| beside.set(set));
    let places = authors.into_iter().chain(sets).flatten();
    let places: String = places.map(|place| format!("{place} ")).collect();
    let octets = |list: &[u8]| -> String {
        let octets = list.iter().map(|octet| format!("{octet:02x}"));
        octets.collect()
    };
    let [authors, sets] = [beside.lists().authors, beside.lists().sets].map(octets);
    format!("{places}\n{authors}\n{sets}\n")
}

/// The functions of the header pack the lists; in memory too short they write
/// nothing.
#[test]
fn lists_are_packed_as_in_rust() {
    let expected = packed();
    printed_by_each("lists", include_str!("header/lists.c"), |printed| {
        assert_eq!(printed, expected);
    });
}

/// One record of the day's report, by its source, count and author domain.
fn record(source: &str, count: u32, author: &str) -> String {
    format!(
        "<record><row><source_ip>{source}</source_ip><count>{count}</count>\
         <policy_evaluated><disposition>pass</disposition><dkim>pass</dkim><spf>fail</spf>\
         </policy_evaluated></row><identifiers><header_from>{author}</header_from></identifiers>\
         <auth_results><dkim><domain>mail.example.com</domain><selector>s1</selector>\
         <result>pass</result></dkim><spf><domain>bounce.example.net</domain>\
         <result>fail</result></spf></auth_results></record>"
    )
}

/// A whole day in C, to the report and the subject of its mail.
#[test]
fn a_day_and_its_report() {
    let head = "<?xml version=\"1.0\" encoding=\"UTF-8\"?>\
        <feedback xmlns=\"urn:ietf:params:xml:ns:dmarc-2.0\"><report_metadata>\
        <org_name>Gate &amp; Sons</org_name><email>dmarc@gate.example</email>\
        <report_id>r7</report_id><date_range><begin>1700000000</begin><end>1700086399</end>\
        </date_range></report_metadata><policy_published><domain>example.com</domain>\
        <p>reject</p><adkim>r</adkim><aspf>r</aspf><testing>n</testing></policy_published>";
    let records = [
        record("192.0.2.1", 2, "example.com"),
        record("192.0.2.2", 1, "news.example.com"),
    ];
    let subject = "Report Domain: example.com Submitter: gate.example Report-ID: <r7>";
    let expected = format!("{head}{}</feedback>\n{subject}\n", records.concat());
    printed_by_each("day", include_str!("header/day.c"), |printed| {
        assert_eq!(printed, expected);
    });
}

/// A report in C, in parts of every size.
#[test]
fn a_report_is_read() {
    let expected = "\
0.0.0.0.0.0.0.0.0.0.255.255.192.0.2.1 count 3 disposition 0 dkim 1 spf 0 author news.example.com
  kind 1 outcome 1 domain mail.example.com selector s1
  kind 0 outcome 2 domain bounce.example.net selector \n\
32.1.13.184.0.0.0.0.0.0.0.0.0.0.0.31 count 4294967295 disposition 2 dkim 0 spf 0 author example.com
";
    printed_by_each("reader", include_str!("header/reader.c"), |printed| {
        assert_eq!(printed, expected);
    });
}

/// The functions of a reader of reports.
const READERS: [&str; 3] = ["waslidhaj_new_reader", "waslidhaj_read", "waslidhaj_end"];

/// What the header defines over some of these.
fn over(functions: &[String]) -> Vec<String> {
    let over = functions.iter().filter(|name| plain(name) != *name);
    over.map(|name| plain(name).to_string()).collect()
}

/// A function that has memory to read and memory to write takes any: it is defined
/// in the header over the archive's own, of memory that nowhere overlaps. So is one
/// that takes a check where it lies, over that of a check by value.
#[test]
fn every_function_is_in_the_archive() {
    let (mut functions, defined) = (header().functions(), header().defined());
    let of_readers = |name: &String| READERS.contains(&plain(name));
    let (readers, others): (Vec<String>, Vec<String>) =
        functions.iter().cloned().partition(of_readers);
    assert_eq!(others.len(), 25, "{others:?}");
    assert_eq!(over(&others).len(), 13, "{others:?}");
    assert_eq!((readers.len(), over(&readers).len()), (3, 1), "{readers:?}");
    let over = over(&functions);
    assert!(over.iter().all(|name| defined.contains(name)), "{over:?}");
    functions.extend(over);
    let entry = |name: &String| format!("  (void (*)(void)){name},");
    let mut before = vec!["static void (*const functions[])(void) = {".to_string()];
    before.extend(functions.iter().map(entry));
    before.push("};".to_string());
    let print = "printf(\"%d\", functions[0] != functions[1]);".to_string();
    let program = program(&before, &[print]);
    printed_by_each("functions", &program, |printed| {
        assert_eq!(printed, "1");
    });
}
