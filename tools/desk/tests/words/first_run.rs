//! What the script builds, what it says on the way, and what it does without.

use std::fs::File;
use std::process::Stdio;

use crate::house::{House, PRINTED};

pub const LOOKING: &str = "dmarc: looking at 4 crates, and proving those that have no proof yet; \
                           the first time this takes some minutes";

/// A made-up prover: says nothing of one crate, which it proved before, and of
/// three that they are proved, and makes the program.
fn prover(house: &House) {
    let proved = ["domain", "policy", "dmarc"].map(House::says_proved);
    let lines = format!(
        "[ \"${{PWD##*/}} $*\" = 'dmarc run' ] || exit 2
echo 'many lines of its own' >&2
{}
{}",
        proved.join("\n"),
        House::makes_program()
    );
    house.program("bin/rt", &lines);
}

impl House {
    /// Prints nothing, says this and ends with 1.
    pub fn fails(&self, words: &[&str], said: &str) {
        let ended = self.dmarc(words);
        assert_eq!(ended.said, format!("{said}\n"));
        assert_eq!((ended.status, ended.printed.as_str()), (1, ""));
    }
}

/// Words with each time that is gone, as in (2m05s gone), as (gone).
pub fn timeless(said: &str) -> String {
    let line = |line: &str| match line.split_once(" (") {
        Some((words, time)) if is_time(time) => format!("{words} (gone)\n"),
        _ => format!("{line}\n"),
    };
    said.lines().map(line).collect()
}

fn is_time(words: &str) -> bool {
    let time = words.strip_suffix("s gone)").unwrap_or_default();
    let numbers = time.split('m').map(|number| number.parse::<u32>().is_ok());
    numbers.eq([true, true])
}

#[test]
fn one_line_for_each_crate_and_the_log_in_a_file() {
    let house = House::new().with_tools();
    prover(&house);
    let first = house.dmarc(&["x.txt"]);
    let said = format!(
        "{LOOKING}
dmarc: 2 of 4 proved: domain (gone)
dmarc: 3 of 4 proved: policy (gone)
dmarc: 4 of 4 proved: dmarc (gone)
"
    );
    assert_eq!(timeless(&first.said), said);
    assert_eq!((first.status, first.printed.as_str()), (0, PRINTED));
    let log = house.folder.read("target/log/dmarc-build.log");
    assert_eq!(log.lines().count(), 7);
    assert!(log.starts_with("many lines of its own\n"));
    // What is there is not built again.
    let second = house.dmarc(&["x.txt"]);
    assert_eq!((second.status, second.said.as_str()), (0, ""));
}

/// A touched file is looked at, and no word is said of proving it.
#[test]
fn where_all_is_proved_nothing_is_said_to_be_proved() {
    let house = House::new().with_tools().with_program();
    house.make_older("target/bin/dmarc");
    let lines = format!(
        "{}printf 'crate dmarc: modules loaded=3 checked=0\\nlogic=proved functions=1\\n'",
        House::makes_program()
    );
    house.program("bin/rt", &lines);
    let touched = house.dmarc(&["x.txt"]);
    assert_eq!(touched.said, format!("{LOOKING}\n"));
    assert_eq!((touched.status, touched.printed.as_str()), (0, PRINTED));
    // It is looked at once.
    assert_eq!(house.dmarc(&["x.txt"]).said, "");
}

/// The prover looks, while it runs, at what was said so far, and fails if that is
/// not all there was to say.
#[test]
fn words_come_when_there_is_something_to_say() {
    let house = House::new().with_tools();
    let lines = format!(
        "said() {{ for _ in {{1..50}}; do ! grep -q \"$1\" ../../said || return 0; sleep 0.1; done; exit 1; }}
said 'looking at 4 crates'
sleep 1.1
{}
said '1 of 4 proved: octets (0m0[1-9]s gone)'
{}",
        House::says_proved("octets"),
        House::makes_program()
    );
    house.program("bin/rt", &lines);
    let mut command = house.script("dmarc");
    let said = File::create(house.path("said")).expect("a file");
    let status = command
        .arg("x.txt")
        .stderr(said)
        .stdout(Stdio::null())
        .status();
    assert!(
        status.expect("a script").success(),
        "{}",
        house.folder.read("said")
    );
}

#[test]
fn tools_are_said_to_be_built_before_they_are() {
    let house = House::new().with_program();
    house.program("bin/cargo", "echo 'words of cargo' >&2; exit 101");
    let said = house.dmarc(&["x.txt"]).said;
    let begin = "dmarc: building tools/sheets, which takes up to a minute\nwords of cargo\n";
    assert!(said.starts_with(begin), "{said}");
}

#[test]
fn a_prover_that_fails() {
    let house = House::new().with_tools();
    house.program(
        "bin/rt",
        "printf 'crate octets: modules loaded=2 checked=1\\nlogic=not-proved\\n'; exit 1",
    );
    let failed = "dmarc: rt failed; target/log/dmarc-build.log has what it said";
    house.fails(&["x.txt"], &format!("{LOOKING}\n{failed}"));
    let log = house.folder.read("target/log/dmarc-build.log");
    let said = "crate octets: modules loaded=2 checked=1\nlogic=not-proved\n";
    assert_eq!(log, said);
    house.program("bin/rt", "exit 0");
    let nothing = "dmarc: rt made no crates/dmarc/out/dmarc; \
                   target/log/dmarc-build.log has what it said";
    house.fails(&["x.txt"], &format!("{LOOKING}\n{nothing}"));
}

#[test]
fn without_rt() {
    let house = House::new().with_tools();
    let said = "dmarc: rt is not on the path; the Rattle toolchain proves and builds what is run";
    house.fails(&["x.txt"], said);
    assert_eq!(house.with_program().dmarc(&["x.txt"]).status, 0);
}

#[test]
fn where_nothing_can_be_written() {
    let house = House::new().with_tools();
    house.program("bin/rt", "exit 0");
    house.folder.write("target", "a file in the folder's place");
    let said = format!(
        "dmarc: {} cannot be written, and all is built there; \
         see its permissions, and whether its disk is full",
        house.path("target").display()
    );
    house.fails(&["x.txt"], &said);
}

const NO_CARGO: &str =
    "dmarc: cargo is not on the path; it builds tools/, which reads descriptions and has the words";

#[test]
fn without_cargo() {
    let house = House::new().with_program();
    for words in [
        ["x.txt"].as_slice(),
        &["--explain", "x.sheet"],
        &["--json", "x.sheet"],
    ] {
        house.fails(words, NO_CARGO);
    }
    // A sheet's verdict stands without words.
    let sheet = house.dmarc(&["x.sheet"]);
    assert_eq!(sheet.said, format!("{NO_CARGO}\n"));
    assert_eq!((sheet.status, sheet.printed.as_str()), (0, PRINTED));
    // Built tools that are current need no cargo.
    let house = house.with_tools();
    for words in [
        ["x.txt"].as_slice(),
        &["--explain", "x.sheet"],
        &["--json", "x.txt"],
    ] {
        let ended = house.dmarc(words);
        assert_eq!((ended.status, ended.said.as_str()), (0, ""), "{words:?}");
    }
    house.folder.write("tools/sheets/src/lib.rs", "// newer");
    house.fails(&["x.txt"], NO_CARGO);
}

#[test]
fn a_build_that_fails() {
    let house = House::new().with_program();
    house.program("bin/cargo", "echo 'no space' >&2; exit 101");
    let said = format!(
        "dmarc: building tools/sheets, which takes up to a minute\nno space\n\
         dmarc: tools/ could not be built; can {} be written?",
        house.path("tools/target").display()
    );
    house.fails(&["x.txt"], &said);
}

#[test]
fn where_the_two_evaluators_differ_nothing_is_explained() {
    let house = House::new().with_tools().with_program();
    let other = PRINTED.replace("none", "pass");
    house.program("target/bin/dmarc", &format!("printf '{other}'"));
    let differ = "dmarc: the second evaluator prints something else for this message, \
                  so nothing more is said of it";
    house.fails(&["--explain", "x.txt"], differ);
    house.fails(&["--json", "x.txt"], differ);
    let plain = house.dmarc(&["x.txt"]);
    assert_eq!(plain.said, format!("{differ}\n"));
    assert_eq!((plain.status, plain.printed), (0, other));
}

#[test]
fn a_program_that_does_not_print_all() {
    let house = House::new().with_tools().with_program();
    house.program("target/bin/dmarc", "printf 'ask _dmarc.b\\n'");
    let ended = house.dmarc(&["x.txt"]);
    assert!(ended
        .said
        .starts_with("dmarc: the program did not print all; "));
    assert_eq!((ended.status, ended.printed.as_str()), (1, ""));
    house.program("target/bin/dmarc", "exit 7");
    house.fails(&["x.txt"], "dmarc: the program ended with status 7");
}
