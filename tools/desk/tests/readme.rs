//! The README's examples in C and in Rust, built as the README says and run: they
//! print what stands there. So do its commands, all of which are run, but for a few
//! that are listed with the reason.

use std::fs;
use std::io::Write;
use std::os::unix::fs::symlink;
use std::path::{Path, PathBuf};
use std::process::{Command, Output, Stdio};

use desk::compiler::archive;
use desk::readme::{block, commands_in_text, examples, named, shell_blocks, unmarked_commands};
use desk::root;
use desk::script::{dmarc, Folder};

fn page() -> String {
    fs::read_to_string(root().join("README.md")).expect("the README")
}

/// A block of the README, by its marker.
fn readme(marker: &str) -> String {
    block(&page(), marker).unwrap_or_else(|reason| panic!("README.md: {reason}"))
}

/// An empty folder.
fn empty(name: &str) -> PathBuf {
    let folder = Path::new(env!("CARGO_TARGET_TMPDIR")).join(name);
    if folder.exists() {
        fs::remove_dir_all(&folder).expect("an old folder goes");
    }
    fs::create_dir_all(&folder).expect("a folder in the target folder");
    folder
}

fn write(file: PathBuf, text: &str) {
    fs::write(file, text).expect("a file in the target folder");
}

/// What was printed, once it ended well.
fn printed(ended: Output) -> String {
    let said = String::from_utf8_lossy(&ended.stderr);
    assert!(ended.status.success(), "{}:\n{said}", ended.status);
    String::from_utf8(ended.stdout).expect("plain text")
}

/// The commands but `./library`, which was run before; and the program at their
/// end, if they do not run it themselves.
fn commands(build: &str) -> String {
    let lines = build.lines().filter(|line| *line != "./library");
    let mut commands: String = lines.map(|line| format!("{line}\n")).collect();
    let mut words = build.split_whitespace().skip_while(|word| *word != "-o");
    let program = format!("./{}", words.nth(1).expect("-o and a name"));
    if !build.lines().any(|line| line.starts_with(&program)) {
        commands += &format!("{program}\n");
    }
    commands
}

/// The commands are run in a folder that has what the repository's root has, and
/// the example beside it, by the name that they give it.
#[test]
fn the_example_in_c() {
    archive();
    let build = readme("build: c");
    let folder = empty("example-c");
    for name in ["include", "target"] {
        symlink(root().join(name), folder.join(name)).expect("a link");
    }
    let mut words = build.split_whitespace();
    let source = words.find(|word| word.ends_with(".c"));
    let source = source.expect("a source in the commands");
    write(folder.join(source), &readme("example: c"));
    let shell = Command::new("sh")
        .args(["-e", "-c", &commands(&build)])
        .current_dir(folder)
        .output();
    assert_eq!(printed(shell.expect("sh")), readme("output: c"));
}

#[test]
fn the_example_in_rust() {
    archive();
    let folder = empty("example-rust");
    let wrapper = root().join("rust");
    let manifest = format!(
        "[package]\nname = \"example\"\nversion = \"0.1.0\"\nedition = \"2021\"\n\n\
         [dependencies]\nwaslidhaj = {{ path = {wrapper:?} }}\n\n[workspace]\n"
    );
    write(folder.join("Cargo.toml"), &manifest);
    fs::create_dir(folder.join("src")).expect("a folder");
    write(folder.join("src/main.rs"), &readme("example: rust"));
    let cargo = Command::new(env!("CARGO"))
        .args(["run", "--quiet", "--offline", "--target-dir", "target"])
        .current_dir(folder)
        .output();
    assert_eq!(printed(cargo.expect("cargo")), readme("output: rust"));
}

/// A folder as the repository's root is to a reader of the README, with the files
/// that it shows.
fn shown_root() -> Folder {
    let folder = Folder::new();
    symlink(dmarc(), folder.path().join("dmarc")).expect("a link");
    symlink(root().join("examples"), folder.path().join("examples")).expect("a link");
    for (name, text) in named(&page(), "file") {
        folder.write(&name, text);
    }
    folder
}

/// Runs a line of the shell in a folder: its status, and what a terminal has of it.
fn run(folder: &Folder, line: &str) -> (Option<i32>, String) {
    let ran = Command::new("bash")
        .args(["-c", &format!("{{ {line}\n}} 2>&1")])
        .current_dir(folder.path())
        .output();
    let ran = ran.expect("bash");
    let text = String::from_utf8(ran.stdout).expect("plain text");
    (ran.status.code(), text)
}

/// Lines without their blanks, in one.
fn joined(lines: &str) -> String {
    let joined: String = lines.lines().map(str::trim).collect();
    format!("{joined}\n")
}

/// The README breaks an object of JSON, which is one line, into several.
#[test]
fn every_example_of_a_command() {
    let folder = shown_root();
    let examples = examples(&page());
    for option in [
        "examples/01.txt",
        "message.txt",
        "--json",
        "--write",
        "--read",
        "--field",
        "--address",
        "--day",
        "--report",
    ] {
        let shown = examples.iter().any(|own| own.command.contains(option));
        assert!(shown, "README.md has no example of ./dmarc {option}");
    }
    for example in examples {
        let (_, printed) = run(&folder, &example.command);
        let shown = match example.command.contains("--json") {
            true => joined(&example.printed),
            false => example.printed,
        };
        assert_eq!(printed, shown, "{}", example.command);
    }
}

/// The sheet of a description.
fn made(description: &[u8]) -> Vec<u8> {
    let mut child = Command::new(root().join("tools/target/release/dmarc-tools"))
        .arg("make")
        .stdin(Stdio::piped())
        .stdout(Stdio::piped())
        .spawn()
        .expect("dmarc-tools");
    let mut stdin = child.stdin.take().expect("standard input");
    stdin.write_all(description).expect("written");
    drop(stdin);
    child.wait_with_output().expect("an end").stdout
}

/// The digits of a sheet's lines, up to the words beside them; `...` is where some
/// are left out.
fn digits(lines: &str) -> String {
    let is_digit = |own: char| own.is_ascii_hexdigit() || own == '.';
    let own = |line: &str| {
        let words = line.split_whitespace();
        words
            .take_while(|word| word.chars().all(is_digit))
            .collect::<String>()
    };
    lines.lines().map(own).collect()
}

#[test]
fn the_sheet() {
    dmarc();
    let sheets = named(&page(), "sheet");
    let [(file, lines)] = sheets.as_slice() else {
        panic!("README.md shows {} sheets", sheets.len());
    };
    let description = fs::read(root().join(file)).expect("a description");
    let sheet = made(&description);
    let sheet: String = sheet.iter().map(|octet| format!("{octet:02x}")).collect();
    let shown = digits(lines);
    let (begin, end) = shown.split_once("...").expect("some left out");
    let left_out = sheet
        .strip_prefix(begin)
        .and_then(|rest| rest.strip_suffix(end));
    assert!(
        left_out.is_some_and(|left| left.len() > 2),
        "{sheet}\n{shown}"
    );
}

/// Commands in the text, and the status that each ends with; FILE is the file that
/// the README shows.
const RUN: &[(&str, i32)] = &[
    ("./dmarc --help", 0),
    ("./dmarc --status FILE", 10),
    ("./dmarc --explain FILE", 0),
    ("./dmarc --json FILE", 0),
    ("./dmarc --next FILE", 4),
    // The names of commands, without what they need.
    ("./dmarc", 2),
    ("./dmarc --write", 1),
    ("./dmarc --read", 2),
    ("./dmarc --field", 2),
    ("./dmarc --address", 2),
    ("./dmarc --day", 2),
    ("./dmarc --report", 2),
    ("./dmarc --received", 2),
];
/// Commands that are not run, and why.
const NOT_RUN: &[(&str, &str)] = &[
    ("bash .ci/run", "the gate runs this test"),
    ("./library", "it proves; the gate runs it before these tests"),
    ("rt ci", "it proves; the gate runs it before these tests"),
    ("rt ci NAME", "it proves; the gate is that of all crates"),
    ("rt check", "it proves; the gate proves every crate"),
    ("rt run", "it proves; the gate runs every program"),
    ("rt must-fail NAME", "it proves; the gate tries every edit"),
    (
        "rt version",
        "it names the kit at hand, which need not be the one that the page names",
    ),
    (
        "cp include/waslidhaj.h /usr/local/include/ && cp target/lib/libwaslidhaj.a /usr/local/lib/",
        "it writes to the system's own folders",
    ),
    (
        "examples/live/check.sh message.txt",
        "tests/live.rs runs it, against a name server of its own",
    ),
    (
        "examples/live/check.sh --address blue.example.com mailto:reports@red.example.net",
        "tests/live.rs runs it, against a name server of its own",
    ),
];

#[test]
fn every_command_in_the_text() {
    let folder = shown_root();
    let page = page();
    let shown = commands_in_text(&page);
    for (command, expected) in RUN {
        let line = command.replace("FILE", "message.txt");
        let (status, printed) = run(&folder, &line);
        assert_eq!(status, Some(*expected), "{command}: {printed}");
    }
    let run = RUN.iter().map(|(command, _)| *command);
    let listed: Vec<&str> = run.chain(NOT_RUN.iter().map(|(own, _)| *own)).collect();
    for command in &shown {
        assert!(
            listed.contains(command),
            "README.md: `{command}` is not run"
        );
    }
    for command in &listed {
        assert!(shown.contains(command), "README.md has no `{command}`");
    }
}

/// A command in a block has `$ ` before it, or stands in the block of the shell that
/// the example in C is built by.
#[test]
fn every_command_is_marked() {
    let page = page();
    assert_eq!(unmarked_commands(&page), Vec::<&str>::new());
    let marked = page.matches("<!-- build: ").count();
    assert_eq!((shell_blocks(&page), marked), (1, 1));
}
