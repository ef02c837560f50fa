//! A script that is stopped leaves nothing running, and no temporary files.

use std::fs;
use std::os::unix::process::ExitStatusExt;
use std::path::Path;
use std::process::{Child, Command, Stdio};

use crate::builds::until;
use crate::house::House;

const SIGNALS: [(&str, i32); 3] = [("TERM", 15), ("INT", 2), ("HUP", 1)];
/// Starts one that sleeps, in a process of its own, and waits for it. It runs in
/// the house's own folder.
const SLEEPS: &str = "(sleep 100 & echo $! > sleeper.new; mv sleeper.new sleeper; wait)\n";

/// Whether a process runs; one that ended and is not yet taken note of does not.
fn runs(process: &str) -> bool {
    let stat = fs::read_to_string(format!("/proc/{process}/stat")).unwrap_or_default();
    let state = stat
        .rsplit(") ")
        .next()
        .and_then(|rest| rest.chars().next());
    state.is_some_and(|state| !"ZX".contains(state))
}

fn send(signal: &str, child: &Child) {
    let line = format!("kill -s {signal} {}", child.id());
    let sent = Command::new("sh").args(["-c", &line]).status();
    assert!(sent.expect("sh").success());
}

fn is_empty(folder: &Path) -> bool {
    fs::read_dir(folder).expect("a folder").next().is_none()
}

/// Stops a script once its sleeper sleeps: it ends by the signal, the sleeper is
/// gone, and so are the temporary files.
fn stop(house: &House, script: &str, words: &[&str], (signal, number): (&str, i32)) {
    let temporary = house.path("temporary");
    fs::create_dir_all(&temporary).expect("a folder");
    let mut command = house.script(script);
    command.args(words).env("TMPDIR", &temporary);
    command.stdin(Stdio::piped()).stdout(Stdio::null());
    let mut child = command.stderr(Stdio::null()).spawn().expect("a script");
    until("a sleeper", || house.path("sleeper").exists());
    let sleeper = house.folder.read("sleeper").trim().to_string();
    assert!(runs(&sleeper));
    send(signal, &child);
    let ended = child.wait().expect("an end");
    assert_eq!(ended.signal(), Some(number), "{script} {words:?}");
    until("the sleeper is gone", || !runs(&sleeper));
    assert!(is_empty(&temporary), "{script} {words:?}");
    fs::remove_file(house.path("sleeper")).expect("a file");
}

#[test]
fn the_prover() {
    let house = House::new().with_tools();
    house.program("bin/rt", &format!("cd ../..\n{SLEEPS}"));
    house.program("bin/ar", "exit 1");
    for signal in SIGNALS {
        stop(&house, "dmarc", &["x.txt"], signal);
        stop(&house, "library", &[], signal);
    }
}

#[test]
fn cargo() {
    let house = House::new().with_program();
    house.program("bin/cargo", SLEEPS);
    for signal in SIGNALS {
        stop(&house, "dmarc", &["x.txt"], signal);
        // Here it is built for the notes alone.
        stop(&house, "dmarc", &["x.sheet"], signal);
    }
}

#[test]
fn the_program_and_the_input() {
    let house = House::new().with_tools().with_program();
    let sleeps = "echo $$ > sleeper.new; mv sleeper.new sleeper; exec sleep 100";
    house.program("target/bin/dmarc", sleeps);
    let house = house.with_records(sleeps);
    for signal in SIGNALS {
        stop(&house, "dmarc", &["x.txt"], signal);
        stop(&house, "dmarc", &["--write", "p=none"], signal);
        stop(&house, "dmarc", &["--address", "b", "mailto:x@b"], signal);
    }
    // What reads a standard input that does not end.
    let head = "echo $$ > sleeper.new; mv sleeper.new sleeper; exec cat";
    fs::remove_file(house.path("bin/head")).expect("a link");
    house.program("bin/head", head);
    for signal in SIGNALS {
        stop(&house, "dmarc", &["-"], signal);
        stop(
            &house,
            "dmarc",
            &["--address", "b", "mailto:x@b", "-"],
            signal,
        );
    }
}

/// One that waits for another's build is stopped too, and the other goes on.
#[test]
fn a_script_that_waits() {
    let house = House::new().with_tools();
    house.program("bin/rt", &format!("cd ../..\n{SLEEPS}"));
    let mut command = house.script("dmarc");
    command.arg("x.txt").stdin(Stdio::null());
    command.stdout(Stdio::null()).stderr(Stdio::null());
    let mut first = command.spawn().expect("a script");
    until("a sleeper", || house.path("sleeper").exists());
    let sleeper = house.folder.read("sleeper").trim().to_string();
    let flock = fs::read_link(house.path("bin/flock")).expect("a link");
    fs::remove_file(house.path("bin/flock")).expect("a link");
    let waits = "[ \"$1\" = -n ] || { echo $$ > sleeper.new; mv sleeper.new sleeper; }";
    house.program(
        "bin/flock",
        &format!("{waits}\nexec {} \"$@\"", flock.display()),
    );
    fs::remove_file(house.path("sleeper")).expect("a file");
    stop(&house, "dmarc", &["x.txt"], SIGNALS[0]);
    assert!(runs(&sleeper));
    send("TERM", &first);
    first.wait().expect("an end");
    until("the sleeper is gone", || !runs(&sleeper));
}
