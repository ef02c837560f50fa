//! What was made counts as made when it is whole; one script builds at a time.

use std::fs;
use std::process::{Child, Stdio};
use std::thread::sleep;
use std::time::{Duration, Instant};

use crate::house::{parts, House, PRINTED};
use desk::script::Ended;

/// Makes each part of the library a text of its own name.
const PARTS_PROVER: &str = "part=${PWD##*/}
[ \"$*\" = lib ] || exit 2
echo \"$part\" >> ../../calls
mkdir -p out
echo \"$part\" > \"out/lib$part.a\"
echo \"crate $part: modules loaded=2 checked=1\"
echo 'logic=proved functions=1'
";
/// In place of archives: texts, joined to one.
pub const JOINER: &str = "case $1 in
  x) cp \"$2\" \"${2##*/lib}.o\" ;;
  rcsD) cat \"${@:3}\" > \"$2\" ;;
esac
";

impl House {
    fn with_joiner() -> House {
        let house = House::new();
        house.program("bin/rt", PARTS_PROVER);
        house.program("bin/ar", JOINER);
        house
    }

    /// The lines of the library, sorted.
    fn joined(&self) -> Vec<String> {
        let mut lines: Vec<String> = self.lines("target/lib/libwaslidhaj.a");
        lines.sort();
        lines
    }

    fn lines(&self, file: &str) -> Vec<String> {
        self.folder.read(file).lines().map(String::from).collect()
    }

    /// The library is built, with all of its parts.
    fn builds_library(&self) {
        let ended = self.library();
        assert_eq!(ended.status, 0, "{}", ended.said);
        let mut parts = parts();
        parts.sort();
        assert_eq!(self.joined(), parts);
    }

    /// The library is not built, no archive is left, and this is the last line.
    fn builds_no_library(&self, said: &str) {
        let ended = self.library();
        assert_eq!((ended.status, ended.printed.as_str()), (1, ""));
        assert_eq!(ended.said.lines().last(), Some(said));
        assert!(!self.path("target/lib/libwaslidhaj.a").exists());
    }
}

#[test]
fn an_archive_that_is_not_all_written_is_not_left() {
    for failing in [
        "[ $1 = x ] || { echo half > \"$2\"; exit 1; }\n",
        "[ $1 != x ] || { echo half > half.o; exit 1; }\n",
    ] {
        let house = House::with_joiner();
        house.program("bin/ar", &format!("{failing}{JOINER}"));
        let folder = house.path("target/lib");
        let folder = folder.display();
        let said = format!("library: the parts of the library cannot be joined in {folder}");
        house.builds_no_library(&said);
        let beside: Vec<_> = fs::read_dir(house.path("target/lib"))
            .expect("a folder")
            .map(|file| file.expect("a file").file_name())
            .collect();
        assert_eq!(beside, ["parts"]);
        house.program("bin/ar", JOINER);
        house.builds_library();
        // The parts were there, and none was made again.
        assert_eq!(house.lines("calls"), parts());
    }
}

#[test]
fn an_older_archive_stands_until_the_new_one_is_whole() {
    let house = House::with_joiner();
    house.builds_library();
    let whole = house.joined();
    house.folder.write("crates/octets/src/lib.rt", "// newer");
    house.program("bin/ar", "[ $1 = x ] || echo half > \"$2\"; exit 1");
    assert_eq!(house.library().status, 1);
    assert_eq!(house.joined(), whole);
    // It does not count as made.
    house.program("bin/ar", JOINER);
    fs::remove_file(house.path("calls")).expect("a file");
    house.builds_library();
}

#[test]
fn a_part_that_is_not_all_written_is_made_again() {
    let house = House::with_joiner();
    house.program(
        "bin/rt",
        "mkdir -p out; echo half > \"out/lib${PWD##*/}.a\"; exit 2",
    );
    house.builds_no_library("library: rt failed; target/log/library-build.log has what it said");
    house.program("bin/rt", PARTS_PROVER);
    house.builds_library();
}

#[test]
fn a_program_that_is_not_all_written_is_made_again() {
    let house = House::new().with_tools();
    house.program(
        "bin/rt",
        "mkdir -p out; echo half > out/dmarc; chmod 755 out/dmarc; exit 2",
    );
    assert_eq!(house.dmarc(&["x.txt"]).status, 1);
    house.program("bin/rt", &prover());
    let ended = house.dmarc(&["x.txt"]);
    assert_eq!((ended.status, ended.printed.as_str()), (0, PRINTED));
}

/// As rt does: what a crate's stamp is true of is left as it is, and nothing is
/// said of it; what has no stamp, or is not there, is made.
fn prover() -> String {
    let program = House::makes_program();
    let (octets, dmarc) = (House::says_proved("octets"), House::says_proved("dmarc"));
    format!(
        "echo \"${{PWD##*/}} $*\" >> ../../calls
mkdir -p out ../octets/out
if [ ! -e ../octets/out/stamp ] || [ ! -e ../octets/out/rlib ]; then
  : > ../octets/out/rlib && : > ../octets/out/stamp && {octets}
fi
if [ ! -e out/stamp ] || [ ! -e out/dmarc ]; then
  {program}: > out/stamp && {dmarc}
fi
"
    )
}

#[test]
fn what_was_removed_is_made_again_though_its_stamp_is_there() {
    let house = House::new().with_tools();
    house.program("bin/rt", &prover());
    let runs = || {
        let ended = house.dmarc(&["x.txt"]);
        let (status, printed) = (ended.status, ended.printed.as_str());
        assert_eq!((status, printed), (0, PRINTED), "{}", ended.said);
    };
    runs();
    fs::remove_file(house.path("target/bin/dmarc")).expect("a program");
    runs();
    for file in [
        "target/bin/dmarc",
        "crates/dmarc/out/dmarc",
        "crates/octets/out/rlib",
    ] {
        fs::remove_file(house.path(file)).expect("a file");
    }
    runs();
    assert_eq!(house.lines("calls"), ["dmarc run"; 3]);
}

/// What rt keeps beside the sources is none of them, however new it is.
#[test]
fn what_rt_keeps_in_the_crates_is_no_source() {
    let house = House::new().with_tools();
    house.program("bin/rt", &prover());
    for _ in 0..2 {
        assert_eq!(house.dmarc(&["x.txt"]).status, 0);
        house.folder.write("crates/octets/out/incremental/kept", "");
    }
    assert_eq!(house.lines("calls"), ["dmarc run"]);
}

/// What is changed while it is built from is built again.
#[test]
fn a_source_that_changes_meanwhile() {
    let house = House::new().with_tools();
    let changes = "echo '// newer' > ../octets/src/lib.rt; sleep 0.1";
    house.program("bin/rt", &format!("{changes}\n{}", prover()));
    assert_eq!(house.dmarc(&["x.txt"]).status, 0);
    house.program("bin/rt", &prover());
    for _ in 0..2 {
        assert_eq!(house.dmarc(&["x.txt"]).status, 0);
    }
    assert_eq!(house.lines("calls"), ["dmarc run"; 2]);
}

/// Runs a script with its words kept.
fn started(house: &House, script: &str, words: &[&str]) -> Child {
    let mut command = house.script(script);
    command.args(words).stdin(Stdio::null());
    command.stdout(Stdio::piped()).stderr(Stdio::piped());
    command.spawn().expect("a script")
}

fn ended(child: Child) -> Ended {
    child.wait_with_output().expect("a script").into()
}

/// Waits until something is so, for half a minute at the most.
pub fn until(what: &str, is_so: impl Fn() -> bool) {
    let begun = Instant::now();
    while !is_so() {
        assert!(begun.elapsed() < Duration::from_secs(30), "never: {what}");
        sleep(Duration::from_millis(20));
    }
}

const WAITING: &str = "another build is running here; waiting for it";

#[test]
fn a_second_script_waits_and_builds_nothing_again() {
    let house = House::new().with_tools();
    let waits = "for _ in {1..300}; do [ ! -e ../../go ] || break; sleep 0.1; done\n";
    house.program(
        "bin/rt",
        &format!(
            "echo \"${{PWD##*/}} $*\" >> ../../calls\n{waits}{}",
            prover().replace("calls", "again")
        ),
    );
    let first = started(&house, "dmarc", &["x.txt"]);
    until("rt is called", || house.path("calls").exists());
    let log = house.path("said");
    let mut second = house.script("dmarc");
    let said = fs::File::create(&log).expect("a file");
    second.arg("x.txt").stdin(Stdio::null());
    let second = second.stdout(Stdio::piped()).stderr(said).spawn();
    until("the second waits", || {
        house.folder.read("said").contains(WAITING)
    });
    house.folder.write("go", "");
    let (first, second) = (ended(first), ended(second.expect("a script")));
    assert_eq!((first.status, first.printed.as_str()), (0, PRINTED));
    assert_eq!((second.status, second.printed.as_str()), (0, PRINTED));
    assert_eq!(house.folder.read("said"), format!("dmarc: {WAITING}\n"));
    assert_eq!(house.lines("calls"), ["dmarc run"]);
}

/// What a build leaves running does not hold the lock.
#[test]
fn the_lock_ends_with_the_script() {
    let house = House::new().with_tools();
    let leaves = "sleep 20 < /dev/null > /dev/null 2>&1 & echo $! > ../../left";
    house.program("bin/rt", &format!("{leaves}\n{}", prover()));
    assert_eq!(house.dmarc(&["x.txt"]).status, 0);
    fs::remove_file(house.path("target/bin/dmarc")).expect("a program");
    house.program("bin/rt", &prover());
    let again = house.dmarc(&["x.txt"]);
    let left = house.folder.read("left");
    let ended = std::process::Command::new("sh")
        .args(["-c", &format!("kill {left}")])
        .status();
    assert!(ended.expect("sh").success(), "the sleeper was still there");
    assert!(!again.said.contains(WAITING), "{}", again.said);
    assert_eq!(again.status, 0);
}

#[test]
fn without_flock() {
    let house = House::new().with_tools();
    house.program("bin/rt", &prover());
    fs::remove_file(house.path("bin/flock")).expect("a link");
    let ended = house.dmarc(&["x.txt"]);
    let said = "dmarc: flock is not on the path, so nothing keeps two builds apart\n";
    assert!(ended.said.starts_with(said), "{}", ended.said);
    assert_eq!((ended.status, ended.printed.as_str()), (0, PRINTED));
}
