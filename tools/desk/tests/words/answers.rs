//! What is said of answers, and answers as dig prints them.

use desk::script::{Ended, Folder};

fn run(words: &[&str], description: &str) -> Ended {
    let folder = Folder::with("x.txt", description);
    let words: Vec<&str> = words.iter().copied().chain(["x.txt"]).collect();
    folder.dmarc(&words)
}

#[test]
fn a_record_of_two_strings_as_dig_prints_it() {
    let author = "author b exists supported\r\n";
    let verdict = "ask _dmarc.b\nresult fail\npolicy reject\ndisposition reject\nasked 1\n";
    for line in [
        "answer _dmarc.b \"v=DMARC1; p=rej\" \"ect\"\r\n",
        "_dmarc.b.\t\t300\tIN\tTXT\t\"v=DMARC1; p=rej\" \"ect\"\r\n",
        "_dmarc.b. 300 IN TXT \"v=DMARC1\\; p=\\114eject\"\n",
    ] {
        let ended = run(&[], &format!("{author}{line}"));
        assert_eq!(
            (ended.status, ended.printed.as_str()),
            (0, verdict),
            "{line}"
        );
        assert_eq!(ended.said, "");
    }
}

#[test]
fn two_records_on_two_lines() {
    let text = "author b exists supported
answer _dmarc.b \"v=DMARC1; p=reject\"
answer _dmarc.b \"v=DMARC1; p=reject\"
";
    let ended = run(&["--explain"], text);
    assert!(ended.printed.contains("\nresult none\n"));
    let line = "\n2 policy records at b, so all of them are dropped\n";
    assert!(ended.printed.contains(line), "{}", ended.printed);
}

#[test]
fn a_mistyped_name_is_said() {
    let text = "author example.com exists supported
# mistyped
answer _dmarc.exmaple.com \"v=DMARC1; p=reject\"
";
    let said = "dmarc: no answer in x.txt for _dmarc.example.com: read as a failed lookup
dmarc: never asked: _dmarc.exmaple.com (line 3)
";
    for words in [[].as_slice(), &["--explain"], &["--json"], &["--status"]] {
        assert_eq!(run(words, text).said, said, "{words:?}");
    }
    assert_eq!(run(&["--next"], text).said, "");
    let folder = Folder::new();
    let from_input = folder.dmarc_reading(&["-"], b"author b exists supported\n");
    let note = "dmarc: no answer in standard input for _dmarc.b: read as a failed lookup\n";
    assert_eq!(from_input.said, note);
}

#[test]
fn the_two_kinds_of_error_are_told_apart() {
    let author = "author b exists supported\n";
    let missing = run(&["--explain"], author);
    let line = "ended in an error at b (no answer is given for it)\n";
    assert!(missing.printed.contains(line));
    let failed = run(&["--explain"], &format!("{author}answer _dmarc.b error\n"));
    let line = "ended in an error at b (its lookup failed)\n";
    assert!(failed.printed.contains(line));
}
