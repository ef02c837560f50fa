//! Closed when in doubt: the README's example in C and `examples/live/check.c` on
//! what is refused, on short memory and on damaged states. Without a verdict they
//! print no disposition but defer, and they never loop. So of an address check:
//! without an outcome it is not known, to a program that looks at nothing else.

use std::fs;
use std::path::{Path, PathBuf};
use std::process::{Command, Output, Stdio};

use desk::compiler::{archive, compile};
use desk::readme::block;
use desk::root;

/// The seconds after which a program is ended that hangs.
const LIMIT: &str = "120";
/// The bits of a state, itself and the states at random.
const STATES: usize = 8 * 5352 + 1 + 4000;
/// The bits of a check, and the checks at random.
const CHECKS: usize = 8 * 704 + 4000;

fn example() -> String {
    let text = fs::read_to_string(root().join("README.md")).expect("the README");
    block(&text, "example: c").unwrap_or_else(|reason| panic!("README.md: {reason}"))
}

fn check() -> String {
    fs::read_to_string(root().join("examples/live/check.c")).expect("the live check")
}

/// A text with one part of it changed.
fn with(text: &str, part: &str, other: &str) -> String {
    assert_eq!(text.matches(part).count(), 1, "{part} in:\n{text}");
    text.replace(part, other)
}

fn folder(title: &str) -> PathBuf {
    let folder = Path::new(env!("CARGO_TARGET_TMPDIR")).join(title);
    fs::create_dir_all(&folder).expect("a folder in the target folder");
    folder
}

/// Compiles a source of this text, or one around it.
fn built(title: &str, text: &str, around: Option<&Path>, options: &[&str]) -> PathBuf {
    let folder = folder(title);
    let (source, program) = (folder.join("subject.c"), folder.join("program"));
    fs::write(&source, text).expect("a file in the target folder");
    let mut words: Vec<PathBuf> = options.iter().map(PathBuf::from).collect();
    words.extend(["-I".into(), folder]);
    words.extend([around.map_or(source, Path::to_path_buf), archive()]);
    words.extend(["-lresolv".into(), "-o".into(), program.clone()]);
    compile("gcc", "c99", &words);
    program
}

fn limited(program: &Path) -> Command {
    let mut command = Command::new("timeout");
    command.arg(LIMIT).arg(program);
    command
}

fn text(octets: &[u8]) -> String {
    String::from_utf8_lossy(octets).into_owned()
}

fn ran(program: &Path, words: &[&str]) -> Output {
    limited(program)
        .args(words)
        .output()
        .expect("the program runs")
}

/// An author domain and DKIM domains, more than can be added.
fn too_many() -> Vec<&'static str> {
    [&["news.example.com"][..], &["mail.example.com"; 17]].concat()
}

#[test]
fn the_example_is_refused_and_defers() {
    let program = built("closed-example", &example(), None, &[]);
    let refused: [(&[&str], &str); 4] = [
        (&["news..example.com"], "1 at 5"),
        (&[], "1 at 0"),
        (&["news.example.com", "a..b", "example.com"], "2 at 0"),
        (&too_many(), "4 at 16"),
    ];
    for (words, refusal) in refused {
        let ended = ran(&program, words);
        let printed = format!("no verdict: refused {refusal}\ndisposition defer, 0 names asked\n");
        assert_eq!(text(&ended.stdout), printed, "{words:?}");
        assert_eq!(ended.status.code(), Some(3), "{words:?}");
    }
}

/// Scratch or room for a name with an octet too few, and a record that cannot be
/// read.
#[test]
fn the_example_on_short_memory_and_an_unreadable_answer() {
    let plain = example();
    let variants = [
        (
            "scratch",
            with(&plain, "[WASLIDHAJ_SCRATCH_OCTETS]", "[4095]"),
            "ask _dmarc.news.example.com\nno verdict: refused 10 at 4096\n\
             disposition defer, 0 names asked\n",
            3,
        ),
        (
            "name",
            with(&plain, "name[WASLIDHAJ_NAME_OCTETS]", "name[22]"),
            "no verdict: refused 0 at 0\ndisposition defer, 0 names asked\n",
            3,
        ),
        (
            "record",
            with(&plain, "\\x13\\x12v=", "\\x13\\x11v="),
            "ask _dmarc.news.example.com\nask _dmarc.example.com\n\
             disposition defer, 2 names asked\n",
            0,
        ),
    ];
    for (title, source, printed, status) in variants {
        let program = built(&format!("closed-{title}"), &source, None, &[]);
        let ended = ran(&program, &["news.example.com", "mail.example.com"]);
        assert_eq!(text(&ended.stdout), printed, "{title}");
        assert_eq!(ended.status.code(), Some(status), "{title}");
    }
}

#[test]
fn the_live_check_is_refused_without_a_disposition() {
    let program = built("closed-check", &check(), None, &[]);
    let author = ["news.example.com", "exists", "supported"];
    let many = [&author[..], &["dkim=pass:mail.example.com"; 17]].concat();
    let refused: [(&[&str], &str); 4] = [
        (&["news..example.com", "exists", "supported"], "1 at 5"),
        (
            &[&author[..], &["dkim=pass:a..b", "dkim=pass:a"]].concat(),
            "2 at 0",
        ),
        (
            &[&author[..], &["spf=pass:a", "spf=fail:b", "dkim=pass:a"]].concat(),
            "4 at 1",
        ),
        (&many, "4 at 16"),
    ];
    for (words, refusal) in refused {
        // Nothing is looked up; if it were, it would not leave the machine.
        let words = [&["--server", "127.0.0.1:1"], words].concat();
        let ended = ran(&program, &words);
        let printed = format!("refused {refusal}\n");
        assert_eq!(text(&ended.stdout), printed, "{words:?}");
        assert_eq!(ended.status.code(), Some(3), "{words:?}");
    }
}

/// How many damaged states came to a verdict, and how many to none.
fn damaged(title: &str, source: &str, options: &[&str]) -> [usize; 2] {
    let around = root().join("tools/desk/tests/closed/damaged.c");
    reported(title, &built(title, source, Some(&around), options))
}

/// The two numbers that a program writes into a file.
fn reported(title: &str, program: &Path) -> [usize; 2] {
    let report = folder(title).join("report");
    let ended = limited(program)
        .arg(&report)
        .stdout(Stdio::null())
        .stderr(Stdio::null())
        .status();
    let said = fs::read_to_string(&report).unwrap_or_default();
    let ended = ended.expect("the program runs");
    assert!(ended.success(), "{title}: {ended}: {said}");
    let counts: Vec<usize> = said.split_whitespace().flat_map(str::parse).collect();
    counts.try_into().expect("two numbers")
}

/// Some damaged states are refused; the others come to the verdict of what they
/// say, as another message would.
#[test]
fn damaged_states_defer_or_come_to_a_verdict() {
    let subjects: [(&str, String, &[&str]); 2] = [
        ("damaged-example", example(), &["-O2"]),
        ("damaged-check", check(), &["-O2", "-DCHECK"]),
    ];
    for (title, source, options) in subjects {
        let [verdicts, without] = damaged(title, &source, options);
        assert_eq!(verdicts + without, STATES, "{title}");
        assert!(verdicts > without && without > 50, "{title}: {without}");
    }
}

/// With a scratch too short only states that ask nothing come to a verdict.
#[test]
fn damaged_states_on_short_scratch() {
    let subjects: [(&str, String, &[&str]); 2] = [
        ("short-example", example(), &["-DSHORT=1"]),
        ("short-check", check(), &["-DSHORT=1", "-DCHECK"]),
    ];
    for (title, source, options) in subjects {
        let short = with(&source, "[WASLIDHAJ_SCRATCH_OCTETS]", "[4095]");
        let [verdicts, without] = damaged(title, &short, options);
        assert_eq!(verdicts + without, STATES, "{title}");
        assert!(without > verdicts, "{title}: {without}");
    }
}

#[test]
fn an_address_without_an_outcome_is_not_known() {
    let source = root().join("tools/desk/tests/closed/careless.c");
    let source = fs::read_to_string(source).expect("the program");
    let program = built("careless", &source, None, &["-O2"]);
    let [outcomes, without] = reported("careless", &program);
    assert_eq!(outcomes + without, CHECKS);
    assert!(outcomes > without && without > 50, "{without}");
}
