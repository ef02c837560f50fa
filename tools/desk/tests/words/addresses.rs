//! A report address: whether it agreed, in each form, and what is said beside that.

use crate::ends::{ends, misused};
use desk::script::{Ended, Folder};

const POLICY: &str = "blue.example.com";
const ENTRY: &str = "mailto:reports@red.example.net";
const CONFIRMING: &str = "blue.example.com._report._dmarc.red.example.net";

/// The answers of the two walks; the confirming name's comes last.
const WALKS: &str = "# the policy domain
answer _dmarc.blue.example.com \"v=DMARC1; p=none; rua=mailto:reports@red.example.net\"
answer _DMARC.example.com. none   # in either case, with or without its dot
_dmarc.com. 300 IN TXT \"v=spf1 -all\"

answer _dmarc.red.example.net none
answer _dmarc.example.net none
answer _dmarc.net none
";
const ASKED: &str = "ask _dmarc.blue.example.com
ask _dmarc.example.com
ask _dmarc.com
ask _dmarc.red.example.net
ask _dmarc.example.net
ask _dmarc.net
ask blue.example.com._report._dmarc.red.example.net
";

/// The answers with this one at the confirming name.
fn answers(said: &str) -> String {
    format!("{WALKS}answer {CONFIRMING} {said}\n")
}

/// Runs the example with these options on answers in a file.
fn run(options: &[&str], answers: &str) -> Ended {
    let folder = Folder::with("x.txt", answers);
    let words = [&["--address"], options, &[POLICY, ENTRY, "x.txt"]].concat();
    folder.dmarc(&words)
}

/// Runs words after `--address` without a file.
fn without_file(words: &[&str]) -> Ended {
    Folder::new().dmarc(&[&["--address"], words].concat())
}

const REPLACED: &str = "\"v=DMARC1; rua=mailto:a@red.example.net, https://red.example.net/r\"";

#[test]
fn each_outcome_and_its_status() {
    for (said, lines, status) in [
        ("error", "agreement not known\n", 20),
        ("none", "agreement no\n", 21),
        (
            "\"v=DMARC1; rua=mailto:a@green.example\"",
            "agreement no\n",
            21,
        ),
        ("\"v=DMARC1\"", "agreement confirmed\n", 23),
        (
            REPLACED,
            "agreement replaced\nrua mailto:a@red.example.net, https://red.example.net/r\n",
            24,
        ),
    ] {
        let printed = format!("{ASKED}{lines}asked 7\n");
        let ended = run(&[], &answers(said));
        assert_eq!((ended.status, &ended.printed), (0, &printed), "{said}");
        assert_eq!(ended.said.is_empty(), status != 24, "{}", ended.said);
        let told = run(&["--status"], &answers(said));
        assert_eq!((told.status, told.printed), (status, printed), "{said}");
        let json = run(&["--json", "--status"], &answers(said));
        assert_eq!(json.status, status);
    }
    let inside = without_file(&["Example.com", "mailto:a@example.COM."]);
    ends(&inside, 0, "agreement inside\nasked 0\n", &[]);
    let told = without_file(&["--status", "example.com", "mailto:a@example.com"]);
    assert_eq!(told.status, 22);
}

#[test]
fn options_before_and_after() {
    let folder = Folder::with("x.txt", answers("\"v=DMARC1\""));
    let expected = "agreement confirmed\nasked 7\n";
    for words in [
        ["--next", "--address", POLICY, ENTRY, "x.txt"],
        ["--address", POLICY, ENTRY, "x.txt", "--next"],
        [POLICY, "--next", ENTRY, "--address", "x.txt"],
    ] {
        ends(&folder.dmarc(&words), 4, expected, &[]);
    }
    let words = [
        "--next",
        "--address",
        "--",
        "-x.example",
        "mailto:a@-x.example",
    ];
    ends(&folder.dmarc(&words), 4, "agreement inside\nasked 0\n", &[]);
    let text = answers("\"v=DMARC1\"");
    let words = ["--address", POLICY, ENTRY, "-"];
    let from_input = folder.dmarc_reading(&words, text.as_bytes());
    ends(&from_input, 0, &format!("{ASKED}{expected}"), &[]);
}

#[test]
fn the_next_name() {
    ends(
        &without_file(&["--next", POLICY, ENTRY]),
        0,
        "_dmarc.blue.example.com\n",
        &[],
    );
    ends(&run(&["--next"], ""), 0, "_dmarc.blue.example.com\n", &[]);
    let ended = run(&["--next"], &format!("{WALKS}answer other none\n"));
    ends(&ended, 0, &format!("{CONFIRMING}\n"), &[]);
    let ended = run(&["--next"], &answers("hex 00"));
    let said = format!(
        "x.txt: line 9: refused 6: the answer for {CONFIRMING} cannot be read as TXT records; \
         hand it in as an error, never as none"
    );
    ends(&ended, 3, "refused 6 at 0\n", &[&said]);
}

#[test]
fn where_reports_may_go_when_the_address_is_replaced() {
    let may = "reports may go to mailto:a@red.example.net";
    let not =
        "nothing may go to entry 2 of rua, \"https://red.example.net/r\": its scheme is not mailto";
    let lines =
        "agreement replaced\nrua mailto:a@red.example.net, https://red.example.net/r\nasked 7\n";
    let plain = run(&[], &answers(REPLACED));
    ends(&plain, 0, &format!("{ASKED}{lines}"), &[may, not]);
    ends(&run(&["--next"], &answers(REPLACED)), 4, lines, &[may, not]);
    let explained = run(&["--explain"], &answers(REPLACED));
    assert_eq!((explained.status, explained.said.as_str()), (0, ""));
    let end = format!("{may}\n{not}\n");
    assert!(explained.printed.ends_with(&end), "{}", explained.printed);
    let json = run(&["--json"], &answers(REPLACED));
    assert_eq!((json.status, json.said.as_str()), (0, ""));
    let end = "\"replaced_by\":{\"text\":\"mailto:a@red.example.net, https://red.example.net/r\",\
               \"begin\":14,\"length\":51},\"send\":[\"mailto:a@red.example.net\"],\"cautions\":[]}\n";
    assert!(json.printed.ends_with(end), "{}", json.printed);
}

/// By the rule the host is what follows the last `@`.
#[test]
fn an_entry_in_which_a_mailer_may_find_another_host() {
    let entry = "mailto:x@victim.example?y=@own.example";
    let caution =
        format!("a mailer may find another host than own.example in {entry}, since it has a `?`");
    let inside = "agreement inside\nasked 0\n";
    ends(
        &without_file(&["own.example", entry]),
        0,
        inside,
        &[&caution],
    );
    let explained = without_file(&["--explain", "own.example", entry]);
    let printed = format!(
        "{inside}-- why
policy domain: own.example
host of the address: own.example
inside: the host is the policy domain itself, so nothing is asked
{caution}
"
    );
    ends(&explained, 0, &printed, &[]);
}

#[test]
fn an_explanation_stands_below_the_output() {
    let ended = run(&["--explain"], &answers("\"v=DMARC1\""));
    let own = "no record was found, so it is the domain itself";
    let printed = format!(
        "{ASKED}agreement confirmed
asked 7
-- why
policy domain: blue.example.com
host of the address: red.example.net
asked _dmarc.blue.example.com: records
asked _dmarc.example.com: none
asked _dmarc.com: records
asked _dmarc.red.example.net: none
asked _dmarc.example.net: none
asked _dmarc.net: none
not inside, so it must agree: asked {CONFIRMING}: records
confirmed: record 1 at {CONFIRMING} is a policy record, and none there names an address in rua
  organizational domain of the policy domain: blue.example.com (the shortest domain with a record)
  organizational domain of the host: red.example.net ({own})
"
    );
    ends(&ended, 0, &printed, &[]);
    let other = run(
        &["--explain"],
        &answers("\"v=DMARC1; rua=mailto:a@green.example\""),
    );
    let line = format!(
        "\na plain no: record 1 at {CONFIRMING} names the host green.example in entry 1 of rua, and \
         not red.example.net\n"
    );
    assert!(other.printed.contains(&line), "{}", other.printed);
}

#[test]
fn an_object_of_json() {
    let answers = "answer _dmarc.a.b none\nanswer _dmarc.b \"v=DMARC1; psd=n\"\n";
    let folder = Folder::with("x.txt", answers);
    let ended = folder.dmarc(&["--address", "--json", "a.b", "mailto:x@b", "x.txt"]);
    let expected = concat!(
        r#"{"agreement":"inside","policy_domain":"a.b","host":"b","#,
        r#""names":[{"name":"_dmarc.a.b","answer":"none"},{"name":"_dmarc.b","answer":"records"}],"#,
        r#""asked":2,"organizational_domain":"b","host_organizational_domain":"b","#,
        r#""reasons":["the policy domain and the host have one organizational domain","#,
        r#""organizational domain of the policy domain: b (its record has psd=n)","#,
        r#""organizational domain of the host: b (its record has psd=n)"],"#,
        r#""replaced_by":null,"send":["mailto:x@b"],"cautions":[]}"#,
        "\n",
    );
    ends(&ended, 0, expected, &[]);
}

#[test]
fn a_name_without_an_answer_and_answers_never_asked() {
    let mistyped = WALKS.replace("_dmarc.net", "_dmarc.nte");
    let said = [
        "no answer in x.txt for _dmarc.net: read as a failed lookup",
        "never asked: _dmarc.nte (line 8)",
    ];
    let asked: String = ASKED
        .lines()
        .take(6)
        .map(|line| format!("{line}\n"))
        .collect();
    let printed = format!("{asked}agreement not known\nasked 6\n");
    ends(&run(&[], &mistyped), 0, &printed, &said);
    let explained = run(&["--explain"], &mistyped);
    let line =
        "\nnot known: the walk of the host ended in an error at net (no answer is given for \
                it), and nothing more is asked\n";
    assert!(explained.printed.contains(line), "{}", explained.printed);
    let json = run(&["--json"], &mistyped);
    let name = "{\"name\":\"_dmarc.net\",\"answer\":\"missing\"}";
    assert!(json.printed.contains(name), "{}", json.printed);
    for ended in [explained, json] {
        let lines: String = said.iter().map(|line| format!("dmarc: {line}\n")).collect();
        assert_eq!((ended.status, ended.said), (0, lines));
    }
    let none = without_file(&[POLICY, ENTRY]);
    let printed = "ask _dmarc.blue.example.com\nagreement not known\nasked 1\n";
    let said = "no answer for _dmarc.blue.example.com: read as a failed lookup";
    ends(&none, 0, printed, &[said]);
    let from_input = Folder::new().dmarc_reading(&["--address", POLICY, ENTRY, "-"], b"");
    let said = "no answer in standard input for _dmarc.blue.example.com: read as a failed lookup";
    ends(&from_input, 0, printed, &[said]);
}

/// A start is refused with this line, and this is said after its number.
fn refused(policy: &str, entry: &str, number: u8, said: &str) {
    let line = format!("refused {number} at 0");
    for option in ["--status", "--next", "--json", "--explain"] {
        let ended = without_file(&[option, policy, entry]);
        let first = match option {
            "--json" => format!("{{\"refused\":{number},\"at\":0,\"meaning\":"),
            "--explain" => format!("{line}\n-- why\n{line}: {said}\n"),
            _ => format!("{line}\n"),
        };
        assert!(ended.printed.starts_with(&first), "{}", ended.printed);
        assert_eq!(ended.said, format!("dmarc: refused {number}: {said}\n"));
        assert_eq!(ended.status, 3, "{option}");
    }
    let note = format!("refused {number}: {said}");
    ends(
        &without_file(&[policy, entry]),
        3,
        &format!("{line}\n"),
        &[&note],
    );
}

#[test]
fn refusals() {
    let bad = "the policy domain is bad:";
    refused("a..b", "x", 11, &format!("{bad} `a..b` has a dot too many"));
    refused("", "mailto:x@b", 11, &format!("{bad} it is empty"));
    refused(
        "joe@example.com",
        "mailto:x@b",
        11,
        &format!("{bad} `joe@example.com` is an address; give its domain alone: example.com"),
    );
    let entry = |entry: &str, why: &str| {
        let said = format!("the entry `{entry}` is no address that can be checked: {why}");
        refused("b", entry, 23, &said);
    };
    entry(
        "mailto:x@b,mailto:y@b",
        "it has a comma; give one entry of the list",
    );
    entry("https://b/x", "its scheme is not mailto");
    entry("mailto:x@b!10m", "`!` may not stand in it");
    entry("mailto:x@b?subject=y", {
        "no domain stands after its last `@`: `?` may not stand in `b?subject=y`; a domain has \
         letters, digits, `-` and `_`, labels parted by single dots"
    });
}

#[test]
fn mistakes_have_their_file_and_line() {
    let such = "a line here begins with answer, or is one of dig's answer section";
    let said = format!("x.txt: line 9: `author` is no answer; {such}");
    let text = format!("{WALKS}author b exists supported\n");
    for options in [&[][..], &["--json"], &["--next"], &["--explain"]] {
        ends(&run(options, &text), 1, "", &[&said]);
    }
    ends(
        &run(
            &[],
            &answers("none").replace("answer", "answer _dmarc.net none\nanswer"),
        ),
        1,
        "",
        &["x.txt: line 4: the name is answered already"],
    );
    let folder = Folder::new();
    let ended = folder.dmarc_reading(
        &["--address", "a", "mailto:x@b", "-"],
        b"\nanswer a..b none",
    );
    let said = "standard input: line 2: the name breaks the domain rule: `a..b` has a dot too many";
    ends(&ended, 1, "", &[said]);
    let missing = folder.dmarc(&["--address", "a", "mailto:x@b", "y.txt"]);
    ends(&missing, 1, "", &["no such file: y.txt"]);
    folder.write("long", vec![b'#'; 2_000_000]);
    let long = folder.dmarc(&["--address", "a", "mailto:x@b", "long"]);
    let said = "long: it is over 1,048,576 octets, which no check needs";
    ends(&long, 1, "", &[said]);
}

#[test]
fn wrong_words() {
    let usage = Folder::new().dmarc(&["--help"]);
    assert!(usage
        .printed
        .contains("\n  ./dmarc --address DOMAIN ENTRY [FILE]\n"));
    let takes =
        "--address takes a domain and an entry of its rua, as example.com mailto:a@example.net";
    for (words, line) in [
        (&[][..], takes),
        (&["--json", "a"], takes),
        (
            &["a", "b", "c", "d"],
            "more than a domain, an entry and a file are named",
        ),
        (
            &["--sheet", "a", "b"],
            "--address and --sheet do not go together",
        ),
        (
            &["--json", "--next", "a", "b"],
            "--json and --next do not go together",
        ),
        (
            &["--next", "--status", "a", "b"],
            "--next and --status do not go together",
        ),
        (&["--field", "a", "b"], "unknown option: --field"),
    ] {
        misused(&[&["--address"], words].concat(), line);
    }
}
