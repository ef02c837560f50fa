//! Files and streams that cannot be read or written, and wrong words.

use std::fs::{self, File, Permissions};
use std::os::unix::fs::PermissionsExt;
use std::process::{Command, Stdio};

use crate::ends::misused;
use desk::root;
use desk::script::{dmarc, Folder};

const MESSAGE: &str = "author b exists supported\nanswer _dmarc.b none\n";

/// Prints nothing, says these lines and ends with 1.
fn fails(folder: &Folder, words: &[&str], said: &str) {
    let ended = folder.dmarc(words);
    assert_eq!(ended.said, format!("{said}\n"), "{words:?}");
    assert_eq!((ended.status, ended.printed.as_str()), (1, ""), "{words:?}");
}

#[test]
fn files_that_are_no_message() {
    let folder = Folder::new();
    fails(&folder, &["x"], "dmarc: no such file: x");
    fails(&folder, &["."], "dmarc: a directory, not a file: .");
    folder.write("empty", "");
    let such = "a description has a line such as: author example.com exists supported";
    fails(
        &folder,
        &["empty"],
        &format!("dmarc: empty: it is empty; {such}"),
    );
    folder.write("notes", "# nothing\n\n");
    let such = "such as: author example.com exists supported";
    fails(
        &folder,
        &["notes"],
        &format!("dmarc: notes: line 1: the description has no author line, {such}"),
    );
}

#[test]
fn a_file_that_may_not_be_read() {
    let folder = Folder::new();
    let file = folder.write("x", MESSAGE);
    fs::set_permissions(&file, Permissions::from_mode(0o000)).expect("permissions");
    // The superuser reads it all the same.
    if File::open(&file).is_err() {
        fails(
            &folder,
            &["x"],
            "dmarc: not readable: x; see its permissions",
        );
    }
}

#[test]
fn long_files_and_junk() {
    let folder = Folder::new();
    folder.write("zeros", vec![0; 20_000_000]);
    let long = "dmarc: zeros: it is over 1,048,576 octets, which no message needs";
    fails(&folder, &["zeros"], long);
    let items = "a line begins with author, spf, dkim, id, answer or sheet";
    folder.write("letters", vec![b'x'; 70_000]);
    let shown = "x".repeat(80);
    fails(
        &folder,
        &["letters"],
        &format!("dmarc: letters: line 1: unknown item `{shown}...`; {items}"),
    );
    folder.write("junk", b"\x7fELF\x02\x01 junk\xff");
    let hint = "read as a description; if it is a sheet, say --sheet";
    fails(
        &folder,
        &["junk"],
        &format!(
            "dmarc: junk: line 1: unknown item `\\x7fELF\\x02\\x01`; {items}\ndmarc: junk: {hint}"
        ),
    );
    let mut sheet = b"AU\0\x03\x01\x01b".to_vec();
    sheet.extend([b"AN\xff\xff\0\x01c".as_slice(), &[0; 70_000]].concat());
    folder.write("long.sheet", sheet);
    let long = folder.dmarc(&["long.sheet"]);
    assert_eq!(
        (long.status, long.printed.as_str()),
        (3, "refused 8 at 65536\n")
    );
    let said = "dmarc: long.sheet: octet 65536: refused 8: the sheet is over 65,536 octets\n";
    assert_eq!(long.said, said);
}

#[test]
fn texts_as_other_systems_write_them() {
    let folder = Folder::new();
    folder.write("crlf", MESSAGE.replace('\n', " \r\n"));
    folder.write("marked", format!("\u{feff}{MESSAGE}"));
    for name in ["crlf", "marked"] {
        let ended = folder.dmarc(&[name]);
        assert_eq!((ended.status, ended.said.as_str()), (0, ""), "{name}");
        assert!(ended.printed.starts_with("ask _dmarc.b\nresult none\n"));
    }
    folder.write("wide", b"\xff\xfea\0u\0");
    let wide = "dmarc: wide: it is written in UTF-16; save it as UTF-8 or ASCII";
    fails(&folder, &["wide"], wide);
}

#[test]
fn a_mistake_has_its_file_and_line() {
    let folder = Folder::with("x.txt", format!("{MESSAGE}spf pass b\n"));
    let said = "line 3: identifiers come before answers";
    fails(&folder, &["x.txt"], &format!("dmarc: x.txt: {said}"));
    fails(
        &folder,
        &["--json", "x.txt"],
        &format!("dmarc: x.txt: {said}"),
    );
    let text = format!("{MESSAGE}spf pass b\n");
    let ended = folder.dmarc_reading(&["-"], text.as_bytes());
    assert_eq!(ended.said, format!("dmarc: standard input: {said}\n"));
    assert_eq!(ended.status, 1);
}

const CANNOT_WRITE: &str =
    "dmarc: standard output cannot be written; is it closed, or its disk full?\n";

#[test]
fn standard_output_that_is_full_or_closed() {
    let folder = Folder::with("x.txt", MESSAGE);
    let day = fs::read_to_string(root().join("examples/day.txt")).expect("a day");
    folder.write(
        "none.txt",
        day.replace("\nrow ", "\n#").replace("\n  ", "\n#"),
    );
    folder.write("day.txt", day);
    for words in [
        "x.txt",
        "--explain x.txt",
        "--json x.txt",
        "--next x.txt",
        "--help",
        "--address b mailto:x@b",
        "--address --next b mailto:x@c",
        "--address b mailto:x",
        "--day day.txt",
        "--report day.txt",
        "--report --name day.txt",
        "--report none.txt",
        "--received x.txt",
    ] {
        for to in [">/dev/full", ">&-"] {
            let mut shell = Command::new("bash");
            let line = format!("exec {} {words} {to}", dmarc().display());
            shell.args(["-c", &line]).current_dir(folder.path());
            let ended = desk::script::ended(shell, b"");
            assert_eq!(
                (ended.status, ended.said.as_str()),
                (1, CANNOT_WRITE),
                "{line}"
            );
        }
    }
}

#[test]
fn standard_input_that_is_closed() {
    let folder = Folder::new();
    for words in [
        "-",
        "--address b mailto:x@b -",
        "--day -",
        "--report -",
        "--received -",
    ] {
        let mut shell = Command::new("bash");
        let line = format!("exec {} {words} <&-", dmarc().display());
        shell.args(["-c", &line]).current_dir(folder.path());
        let ended = desk::script::ended(shell, b"");
        let said = "dmarc: standard input cannot be read; is it closed?\n";
        assert_eq!((ended.status, ended.said.as_str()), (1, said));
    }
    // Where no file is named, nothing is read.
    let mut shell = Command::new("bash");
    let line = format!("exec {} --address b mailto:x@b <&-", dmarc().display());
    shell.args(["-c", &line]).current_dir(folder.path());
    let ended = desk::script::ended(shell, b"");
    assert_eq!((ended.status, ended.said.as_str()), (0, ""));
}

#[test]
fn no_room_for_temporary_files() {
    let folder = Folder::with("x.txt", MESSAGE);
    let mut command = Command::new(dmarc());
    command.arg("x.txt").current_dir(folder.path());
    command
        .env("TMPDIR", "/no such folder")
        .stdin(Stdio::null());
    let ended = desk::script::ended(command, b"");
    let said = "dmarc: no temporary folder can be made in /no such folder; \
                set TMPDIR to one that can be written and has room\n";
    assert_eq!((ended.status, ended.said.as_str()), (1, said));
}

/// Words that go not together, and the first line that is said.
const MISUSES: &[(&[&str], &str)] = &[
    (&[], "no file is named"),
    (&["--json"], "no file is named"),
    (&["a", "b"], "more than one file is named"),
    (&["--batch", "a"], "unknown option: --batch"),
    (
        &["--json", "--explain", "a"],
        "--json and --explain do not go together",
    ),
    (
        &["--next", "--json", "a"],
        "--next and --json do not go together",
    ),
    (
        &["--next", "--status", "a"],
        "--next and --status do not go together",
    ),
    (&["--csv", "a"], "--csv goes with --day"),
    (&["--name", "a"], "--name goes with --report"),
    (&["--subject", "a"], "--subject goes with --report"),
];

#[test]
fn wrong_words_get_the_usage() {
    for (words, line) in MISUSES {
        misused(words, line);
    }
}
