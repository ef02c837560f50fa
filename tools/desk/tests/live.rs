//! The live checks of `examples/live/`, the C program and the shell loop, each
//! against a name server of its own: what they print, how they end, and that each
//! name came over the wire exactly once.

#[path = "live/address_cases.rs"]
mod address_cases;
#[path = "live/addresses.rs"]
mod addresses;
#[path = "live/cases.rs"]
mod cases;

use std::fs::{self, File};
use std::io::{self, Write};
use std::path::{Path, PathBuf};
use std::process::{Command, Output};
use std::sync::OnceLock;

use cases::{cases, Case};
use desk::compiler::{archive, compile};
use desk::root;
use desk::server::Server;
use desk::zone::Zone;

/// The seconds that a lookup waits: long enough for a machine that is busy.
const PATIENCE: &str = "3";
/// The seconds after which a check is ended that hangs.
const LIMIT: &str = "120";

fn folder() -> &'static Path {
    Path::new(env!("CARGO_TARGET_TMPDIR"))
}

/// The C program, compiled once.
fn c_program() -> PathBuf {
    static BUILT: OnceLock<PathBuf> = OnceLock::new();
    let built = BUILT.get_or_init(|| {
        let program = folder().join("check");
        let source = Path::new("examples/live/check.c");
        let words = [
            source,
            &archive(),
            "-lresolv".as_ref(),
            "-o".as_ref(),
            &program,
        ];
        compile("gcc", "c99", &words);
        program
    });
    built.clone()
}

fn limited(program: &Path) -> Command {
    let mut command = Command::new("timeout");
    command.arg(LIMIT).arg(program);
    command.env_remove("RES_OPTIONS").env_remove("LOCALDOMAIN");
    command
}

fn output(command: &mut Command) -> Output {
    command.output().expect("the check is run")
}

fn text(octets: &[u8]) -> String {
    String::from_utf8_lossy(octets).into_owned()
}

fn lines(lines: &[String]) -> String {
    lines.iter().map(|line| format!("{line}\n")).collect()
}

/// A name as it is asked.
fn asked_name(name: &str) -> String {
    format!("_dmarc.{name}")
}

fn serve(case: &Case) -> Server {
    let names: Vec<String> = case.zone.iter().map(|(name, _)| asked_name(name)).collect();
    let said = case.zone.iter().map(|(_, said)| said.clone());
    let zone: Vec<_> = names.iter().map(String::as_str).zip(said).collect();
    Server::start(Zone::new(&zone)).expect("a server on loopback")
}

/// What the server writes down where each name is asked exactly once.
fn wire(case: &Case) -> Vec<String> {
    let mut wire = Vec::new();
    for name in case.asked {
        wire.push(format!("udp {}", asked_name(name)));
        if case.by_tcp.contains(name) {
            wire.push(format!("tcp {}", asked_name(name)));
        }
    }
    wire
}

fn verdict_lines(case: &Case) -> Vec<String> {
    let [result, policy, disposition] = case.verdict;
    vec![
        format!("result {result}"),
        format!("policy {policy}"),
        format!("disposition {disposition}"),
        format!("asked {}", case.asked.len()),
    ]
}

/// What a program says of a name whose answer is over a limit.
fn over_limit(program: &str, name: &str) -> String {
    let reason = "the answer is over a limit or unreadable, so it is taken as an error";
    format!("{program}: {name}: {reason}")
}

fn over_limit_lines(case: &Case, program: &str) -> Vec<String> {
    let name = case.over_limit.map(asked_name);
    let line = name.map(|name| over_limit(program, &name));
    line.into_iter().collect()
}

/// The C program's words for a message of a description's lines.
fn words(message: &[&str]) -> Vec<String> {
    let mut words = Vec::new();
    for line in message {
        match line.split(' ').collect::<Vec<_>>()[..] {
            ["author", domain, existence, support] => {
                words.extend([domain, existence, support].map(str::to_string));
            }
            [kind, outcome, domain] => words.push(format!("{kind}={outcome}:{domain}")),
            _ => panic!("{line}"),
        }
    }
    words
}

#[test]
fn the_c_program() {
    for case in cases() {
        let server = serve(&case);
        let ended = output(
            limited(&c_program())
                .args(["--server", &server.address().to_string()])
                .args(["--timeout", PATIENCE])
                .args(words(case.message)),
        );
        let ask = |name: &&str| format!("ask {}", asked_name(name));
        let mut printed: Vec<String> = case.asked.iter().map(ask).collect();
        printed.extend(verdict_lines(&case));
        printed.extend(case.more.iter().map(|line| line.to_string()));
        let title = case.title;
        assert_eq!(text(&ended.stdout), lines(&printed), "{title}");
        let said = lines(&over_limit_lines(&case, "check"));
        assert_eq!(text(&ended.stderr), said, "{title}");
        assert_eq!(ended.status.code(), Some(0), "{title}");
        assert_eq!(server.asked(), wire(&case), "{title}");
    }
}

#[test]
fn the_c_program_refused_and_misused() {
    let server = Server::start(Zone::default()).expect("a server on loopback");
    let address = server.address().to_string();
    let run = |words: &[&str]| {
        output(
            limited(&c_program())
                .args(["--server", &address])
                .args(words),
        )
    };
    let author = ["example.com", "exists", "supported"];
    let refused: [(&[&str], &str); 4] = [
        (&["a..b", "exists", "supported"], "refused 1 at 2\n"),
        (&["", "exists", "supported"], "refused 1 at 0\n"),
        (
            &[&author[..], &["spf=pass:a", "spf=pass:a"]].concat(),
            "refused 4 at 1\n",
        ),
        (
            &[&author[..], &["spf=pass:a", "dkim=fail:a b"]].concat(),
            "refused 2 at 1\n",
        ),
    ];
    for (words, printed) in refused {
        let ended = run(words);
        assert_eq!(text(&ended.stdout), printed);
        assert_eq!(ended.status.code(), Some(3), "{words:?}");
    }
    let misused: [&[&str]; 7] = [
        &[],
        &["example.com", "exists"],
        &["example.com", "maybe", "supported"],
        &["--timeout", "0", "example.com", "exists", "supported"],
        &[
            "--server",
            "localhost",
            "example.com",
            "exists",
            "supported",
        ],
        &[&author[..], &["dkim=pass"]].concat(),
        &[&author[..], &["arc=pass:example.com"]].concat(),
    ];
    for words in misused {
        let ended = run(words);
        assert_eq!(text(&ended.stdout), "", "{words:?}");
        assert!(ended.stderr.starts_with(b"usage: check "), "{words:?}");
        assert_eq!(ended.status.code(), Some(2), "{words:?}");
    }
    assert_eq!(server.asked(), [""; 0], "nothing is looked up");
}

#[test]
fn an_output_that_cannot_be_written() {
    let server = Server::start(Zone::default()).expect("a server on loopback");
    let full = File::options().write(true).open("/dev/full");
    let ended = output(
        limited(&c_program())
            .args(["--server", &server.address().to_string()])
            .args(["example.com", "exists", "supported"])
            .stdout(full.expect("/dev/full")),
    );
    assert_eq!(text(&ended.stderr), "check: the output cannot be written\n");
    assert_eq!(ended.status.code(), Some(1));
}

#[test]
fn the_c_program_is_cpp_too() {
    for standard in ["c++11", "c++17", "c++20"] {
        let object = folder().join("check.o");
        let object = object.to_str().expect("a name in UTF-8");
        let words = ["-x", "c++", "-c", "examples/live/check.c", "-o", object];
        compile("g++", standard, &words);
    }
}

/// Whether dig is on the machine; if not, that is said past the test's capture.
fn has_dig() -> bool {
    let found = Command::new("dig").arg("-v").output().is_ok();
    if !found {
        let _ = writeln!(
            io::stderr(),
            "SKIPPED: examples/live/check.sh, since dig is not on this machine"
        );
    }
    found
}

/// Runs the shell loop on a message, with dig's options for a server.
fn shell_loop(server: &Server, options: &[&str], message: &str) -> Output {
    let port = server.address().port().to_string();
    let file = folder().join(format!("message-{port}.txt"));
    fs::write(&file, message).expect("a file in the target folder");
    output(
        limited(&root().join("examples/live/check.sh"))
            .args(options)
            .arg(file)
            .args(["@127.0.0.1", "-p", &port])
            .arg(format!("+time={PATIENCE}")),
    )
}

#[test]
fn the_shell_loop() {
    if !has_dig() {
        return;
    }
    for case in cases() {
        let server = serve(&case);
        let ended = shell_loop(&server, &[], &case.message.join("\n"));
        let title = case.title;
        let said = text(&ended.stderr);
        let verdict = lines(&verdict_lines(&case));
        assert_eq!(text(&ended.stdout), verdict, "{title}:\n{said}");
        for line in over_limit_lines(&case, "check.sh") {
            assert!(said.contains(&line), "{title}:\n{said}");
        }
        assert_eq!(
            said.contains("check.sh"),
            case.over_limit.is_some(),
            "{said}"
        );
        assert_eq!(ended.status.code(), Some(0), "{title}");
        assert_eq!(server.asked(), wire(&case), "{title}");
    }
}

#[test]
fn the_shell_loop_explains() {
    if !has_dig() {
        return;
    }
    let case = cases().swap_remove(0);
    let server = serve(&case);
    let ended = shell_loop(&server, &["--explain"], &case.message.join("\n"));
    let ask = |name: &&str| format!("ask {}", asked_name(name));
    let mut printed: Vec<String> = case.asked.iter().map(ask).collect();
    printed.extend(verdict_lines(&case));
    printed.push("-- why".to_string());
    let said = text(&ended.stdout);
    assert!(said.starts_with(&lines(&printed)), "{said}");
    assert_eq!(ended.status.code(), Some(0));
}

#[test]
fn the_shell_loop_refused_and_misused() {
    if !has_dig() {
        return;
    }
    let server = Server::start(Zone::default()).expect("a server on loopback");
    let refused = shell_loop(&server, &[], "author a..b exists supported");
    assert_eq!(text(&refused.stdout), "refused 1 at 2\n");
    assert_eq!(refused.status.code(), Some(3));
    let mistaken = shell_loop(&server, &[], "auther example.com exists supported");
    assert_eq!(text(&mistaken.stdout), "");
    assert_eq!(mistaken.status.code(), Some(1));
    let check = root().join("examples/live/check.sh");
    let misused = output(&mut limited(&check));
    assert!(misused.stderr.starts_with(b"usage: check.sh "));
    assert_eq!(misused.status.code(), Some(2));
    let missing = output(limited(&check).arg("no such file"));
    assert_eq!(missing.status.code(), Some(1));
    assert_eq!(server.asked(), [""; 0], "nothing is looked up");
}
