//! Verdicts in each of their forms, and the exit statuses.

use desk::root;
use desk::script::{Ended, Folder};

/// A message whose verdict is a pass by one identifier.
const PASS: &str = "author example.com exists supported
dkim pass mail.example.com
answer _dmarc.example.com \"v=DMARC1; p=reject\"
answer _dmarc.com none
answer _dmarc.mail.example.com none
";
const PASSED: &str = "ask _dmarc.example.com
ask _dmarc.com
ask _dmarc.mail.example.com
result pass
policy reject
disposition none
asked 3
";

fn run(words: &[&str], description: &str) -> Ended {
    let folder = Folder::with("x.txt", description);
    let words: Vec<&str> = words.iter().copied().chain(["x.txt"]).collect();
    folder.dmarc(&words)
}

/// Ends so, prints this and says nothing.
fn prints(words: &[&str], description: &str, status: i32, printed: &str) {
    let expected = Ended {
        status,
        printed: printed.to_string(),
        said: String::new(),
    };
    assert_eq!(run(words, description), expected);
}

#[test]
fn a_verdict() {
    prints(&[], PASS, 0, PASSED);
    let folder = Folder::new();
    let from_input = folder.dmarc_reading(&["-"], PASS.as_bytes());
    assert_eq!(from_input.printed, PASSED);
    assert_eq!((from_input.status, from_input.said.as_str()), (0, ""));
}

#[test]
fn every_example_prints_what_it_says() {
    let folder = Folder::new();
    for entry in std::fs::read_dir(root().join("examples")).expect("the folder") {
        let file = entry.expect("an entry").path();
        if file.is_dir() {
            continue;
        }
        let text = std::fs::read_to_string(&file).expect("a file");
        let Some(out) = text.lines().find_map(|line| line.strip_prefix("# Out: ")) else {
            continue;
        };
        let ended = folder.dmarc(&[&file.to_string_lossy()]);
        assert_eq!(ended.status, 0, "{file:?}");
        let lines = ended
            .printed
            .lines()
            .filter(|line| !line.starts_with("ask "));
        let lines: Vec<&str> = lines.collect();
        let [result, policy, disposition, asked] = lines.as_slice() else {
            panic!("{lines:?}");
        };
        let count = asked.trim_start_matches("asked ");
        let said = format!("{result}, {policy}, {disposition}, {count} asked.");
        assert_eq!(said, out, "{file:?}");
    }
}

#[test]
fn the_status_of_a_disposition() {
    let author = "author b exists supported\nanswer _dmarc.b";
    for (said, status) in [
        ("\"v=DMARC1; p=none\"", 10),
        ("\"v=DMARC1; p=quarantine\"", 11),
        ("\"v=DMARC1; p=reject\"", 12),
        ("error", 13),
    ] {
        let message = format!("{author} {said}");
        let told = run(&["--status"], &message);
        let plain = run(&[], &message);
        assert_eq!((told.status, plain.status), (status, 0), "{said}");
        assert_eq!(told.printed, plain.printed);
        assert_eq!(run(&["--json", "--status"], &message).status, status);
        assert_eq!(run(&["--explain", "--status"], &message).status, status);
    }
    assert_eq!(run(&["--status"], "author . exists supported").status, 3);
}

#[test]
fn an_explanation_stands_below_the_output() {
    let told = run(&["--explain"], PASS);
    let front = format!("{PASSED}-- why\nauthor domain: example.com exists; ");
    assert!(told.printed.starts_with(&front), "{}", told.printed);
    assert_eq!((told.status, told.said.as_str()), (0, ""));
}

#[test]
fn an_object_of_json() {
    let expected = concat!(
        r#"{"result":"fail","policy":"reject","disposition":"reject","domain":"b","#,
        r#""alignments":[{"kind":"spf","outcome":"fail","domain":"b","#,
        r#""alignment":"not aligned","reason":"its outcome is not pass"}],"#,
        r#""names":[{"name":"_dmarc.b","answer":"records"}],"asked":1,"#,
        r#""reasons":["policy record: at b, the author domain's own","#,
        r#""author's organizational domain: not needed","#,
        r#""policy reject: p is reject, in the author domain's own record","#,
        r#""result fail: no identifier is aligned","#,
        r#""disposition reject: the policy, since the result is fail"]}"#,
        "\n",
    );
    let message = "author b exists supported\nspf fail B.\nanswer _dmarc.b \"v=DMARC1;p=reject\"";
    prints(&["--json"], message, 0, expected);
}

#[test]
fn the_next_name() {
    let mut message = "author b.c exists supported\ndkim pass d.c\n".to_string();
    prints(&["--next"], &message, 0, "_dmarc.b.c\n");
    message += "answer _dmarc.b.c none\n";
    prints(&["--next"], &message, 0, "_dmarc.c\n");
    message += "_dmarc.c. 300 IN TXT \"v=DMARC1; p=quarantine\"\n";
    prints(&["--next"], &message, 0, "_dmarc.d.c\n");
    message += "answer _dmarc.d.c none\n";
    let verdict = "result pass\npolicy quarantine\ndisposition none\nasked 3\n";
    prints(&["--next"], &message, 4, verdict);
    let refused = run(
        &["--next"],
        "author b exists supported\nanswer _dmarc.b hex 00",
    );
    assert_eq!(
        (refused.status, refused.printed.as_str()),
        (3, "refused 6 at 0\n")
    );
    assert!(refused
        .said
        .starts_with("dmarc: x.txt: line 2: refused 6: "));
}

#[test]
fn sheets_and_descriptions_are_told_apart() {
    let folder = Folder::new();
    folder.write("a", b"AU\0\x03\x01\x01b");
    let verdict = "ask _dmarc.b\nresult temperror\npolicy unknown\ndisposition defer\nasked 1\n";
    let sheet = folder.dmarc(&["a"]);
    assert_eq!((sheet.status, sheet.printed.as_str()), (0, verdict));
    let note = "dmarc: no answer in a for _dmarc.b: read as a failed lookup\n";
    assert_eq!(sheet.said, note);
    folder.write("b", "AUTHOR b EXISTS supported # as a sheet begins\n");
    let description = folder.dmarc(&["b"]);
    assert_eq!(
        (description.status, description.printed.as_str()),
        (0, verdict)
    );
    folder.write("c.sheet", "author b exists supported\n");
    for words in [["c.sheet"].as_slice(), &["--sheet", "b"]] {
        let refused = folder.dmarc(words);
        assert_eq!(refused.printed, "refused 8 at 0\n");
        assert_eq!(refused.status, 3);
    }
}
