//! The commands of `dmarc-tools` that read standard input.

use std::path::PathBuf;
use std::process::Output;

use crate::program::output;
use sheets::examples::MARKED;

fn dmarc_tools(words: &[&str], input: &[u8]) -> Output {
    output(env!("CARGO_BIN_EXE_dmarc-tools"), words, input)
}

#[test]
fn a_description_made_run_and_explained() {
    let row = MARKED.first().expect("a row");
    let made = dmarc_tools(&["make"], row.description().as_bytes());
    assert_eq!(made.status.code(), Some(0));
    assert_eq!(Ok(&made.stdout), row.sheet().as_ref());
    let run = dmarc_tools(&["run"], &made.stdout);
    assert_eq!(run.stdout, row.output().as_bytes());
    let explained = dmarc_tools(&["explain"], &made.stdout);
    assert!(explained
        .stdout
        .starts_with(b"-- why\nauthor domain: example.com "));
    let described = dmarc_tools(&["describe"], &made.stdout);
    assert_eq!(described.stdout, row.description().as_bytes());
}

#[test]
fn a_bad_description_ends_with_its_line_and_status_1() {
    let bad = dmarc_tools(&["make"], b"author a exists supported\nspf maybe b\n");
    assert_eq!(bad.status.code(), Some(1));
    let line = b"standard input: line 2: the outcome is one of fail, pass, temperror; softfail, neutral, none and permerror are fail\n";
    assert_eq!(bad.stderr, line);
    assert!(bad.stdout.is_empty());
    let named = dmarc_tools(&["make", "x.txt"], b"author a exists\n");
    assert_eq!(named.status.code(), Some(1));
    assert!(named.stderr.starts_with(b"x.txt: line 1: author takes "));
}

#[test]
fn a_refused_sheet_is_no_failure() {
    let refused = dmarc_tools(&["run"], b"");
    assert_eq!(refused.status.code(), Some(0));
    assert_eq!(refused.stdout, b"refused 8 at 0\n");
}

#[test]
fn an_unknown_command_gets_the_usage() {
    let unknown = dmarc_tools(&["walk"], b"");
    assert_eq!(unknown.status.code(), Some(1));
    assert!(unknown.stderr.starts_with(b"usage:\n"));
}

/// A folder with a message and an output, which is removed when it is dropped.
struct Files(PathBuf);

impl Files {
    fn new(name: &str, message: &[u8], printed: &[u8]) -> Files {
        let folder = format!("dmarc-tools-{}-{name}", std::process::id());
        let folder = std::env::temp_dir().join(folder);
        std::fs::create_dir_all(&folder).expect("a folder");
        std::fs::write(folder.join("input"), message).expect("a file");
        std::fs::write(folder.join("output"), printed).expect("a file");
        Files(folder)
    }

    /// Exit status, standard output and standard error.
    fn say(&self, what: &str, form: &str) -> (Option<i32>, String, String) {
        let [input, printed] = ["input", "output"].map(|name| self.0.join(name));
        let (input, printed) = (input.to_string_lossy(), printed.to_string_lossy());
        let ended = dmarc_tools(&[what, form, "x.txt", &input, &printed], b"");
        let text = |octets| String::from_utf8(octets).expect("words in UTF-8");
        (ended.status.code(), text(ended.stdout), text(ended.stderr))
    }
}

impl Drop for Files {
    fn drop(&mut self) {
        let _ = std::fs::remove_dir_all(&self.0);
    }
}

const MISSING: &str =
    "ask _dmarc.b\nresult temperror\npolicy unknown\ndisposition defer\nasked 1\n";

#[test]
fn what_is_said_of_a_message_in_a_file() {
    let message = b"author b exists supported\n";
    let files = Files::new("said", message, MISSING.as_bytes());
    let note = "no answer in x.txt for _dmarc.b: read as a failed lookup\n";
    let none = String::new();
    assert_eq!(
        files.say("notes", "description"),
        (Some(0), note.to_string(), none.clone())
    );
    let next = "_dmarc.b\n".to_string();
    assert_eq!(files.say("next", "description"), (Some(0), next, none));
    let (_, explained, _) = files.say("explain", "description");
    assert!(explained.starts_with("-- why\nauthor domain: b exists; "));
    let (_, json, _) = files.say("json", "description");
    assert!(json.starts_with("{\"result\":\"temperror\",") && json.ends_with("}\n"));
    // Read as a sheet it is another message, for which another line is printed.
    let (status, printed, said) = files.say("json", "sheet");
    assert_eq!((status, printed.as_str()), (Some(1), ""));
    let differ = "the second evaluator prints something else for this message, \
                  so nothing more is said of it\n";
    assert_eq!(said, differ);
    let (status, _, said) = files.say("json", "letter");
    assert_eq!(
        (status, said.as_str()),
        (Some(1), "FORM is sheet or description\n")
    );
}

#[test]
fn what_is_no_output_or_no_message() {
    let files = Files::new("none", b"author b exists supported\n", b"ask _dmarc.b\n");
    let (status, _, said) = files.say("next", "description");
    let neither = "the program printed neither a verdict nor a refusal\n";
    assert_eq!((status, said.as_str()), (Some(1), neither));
    let files = Files::new("mistaken", b"author b\n", MISSING.as_bytes());
    let (status, _, said) = files.say("notes", "description");
    assert_eq!(status, Some(1));
    assert!(said.starts_with("x.txt: line 1: author takes "), "{said}");
}
