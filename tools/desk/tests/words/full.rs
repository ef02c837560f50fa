//! Full disks are named, and nothing else is blamed for them. A disk is a small
//! one in memory, in a name space of its own; where none can be made the tests say
//! that they are skipped.

use std::fs;
use std::io::{self, Write};
use std::path::Path;
use std::process::Command;

use crate::builds::JOINER;
use crate::house::{parts, House, PRINTED};
use desk::script::{ended, Ended};

/// Mounts a disk of so many octets on a folder, fills it but for so many pages, and
/// runs what comes after.
const ON_A_DISK: &str = "mount -t tmpfs -o size=$2 tmpfs \"$1\" || exit 99
if [ \"$3\" -ge 0 ]; then
  head -c $(($2 - 4096 * $3)) /dev/zero > \"$1/filled\" || exit 99
fi
PATH=$4 exec \"${@:5}\"";
const PAGE: usize = 4096;

/// Runs a script of a house where a folder is a disk of its own, or says that it
/// cannot be done here.
struct Disk<'a> {
    folder: &'a Path,
    octets: usize,
    /// How many pages are left of it; nothing if it is empty.
    left: Option<usize>,
}

impl Disk<'_> {
    fn run(&self, house: &House, script: &str, words: &[&str]) -> Option<Ended> {
        fs::create_dir_all(self.folder).expect("a folder");
        for name_space in ["-m", "-rm"] {
            let mut command = Command::new("unshare");
            command.args([name_space, "bash", "-c", ON_A_DISK, "disk"]);
            command.arg(self.folder).arg(self.octets.to_string());
            let left = self.left.map_or("-1".to_string(), |left| left.to_string());
            command.arg(left).arg(house.path("bin"));
            command.arg(house.path(script)).args(words);
            command.current_dir(house.path(""));
            if self.folder.ends_with("temporary") {
                command.env("TMPDIR", self.folder);
            }
            if !can_mount(name_space) {
                continue;
            }
            let ended = ended(command, b"");
            assert_ne!(ended.status, 99, "{}", ended.said);
            return Some(ended);
        }
        let _ = writeln!(
            io::stderr(),
            "SKIPPED: full disks, since none can be mounted here"
        );
        None
    }
}

fn can_mount(name_space: &str) -> bool {
    let mount = "mount -t tmpfs -o size=4096 tmpfs /tmp";
    let mut command = Command::new("unshare");
    command.args([name_space, "sh", "-c", mount]);
    command.output().is_ok_and(|ended| ended.status.success())
}

/// However little is left, either the message is run or the folder is named, and
/// nothing else is.
#[test]
fn temporary_files() {
    let house = House::new().with_tools().with_program();
    let folder = house.path("temporary");
    let full = [
        format!(
            "dmarc: nothing more can be written in {}, where temporary files go; its disk may be full",
            folder.display()
        ),
        format!(
            "dmarc: no temporary folder can be made in {}; \
             set TMPDIR to one that can be written and has room",
            folder.display()
        ),
    ];
    let long = format!("# {}\n{}", "x".repeat(6 * PAGE), crate::house::MESSAGE);
    house.folder.write("long.txt", long);
    let mut ran = 0;
    for words in [
        ["x.txt"].as_slice(),
        &["long.txt"],
        &["x.sheet"],
        &["--json", "x.txt"],
    ] {
        for left in 0..12 {
            let disk = Disk {
                folder: &folder,
                octets: 16 * PAGE,
                left: Some(left),
            };
            let Some(ended) = disk.run(&house, "dmarc", words) else {
                return;
            };
            let said: Vec<&str> = ended.said.lines().collect();
            let case = format!("{words:?}, {left} pages: {said:?}");
            ran += usize::from(ended.status == 0);
            if ended.status != 0 {
                assert_eq!((ended.status, ended.printed.as_str()), (1, ""), "{case}");
                assert!(
                    full.iter().any(|line| said.last() == Some(&line.as_str())),
                    "{case}"
                );
            }
            let blamed = said.iter().any(|line| line.contains("read"));
            assert!(!blamed, "{case}");
            assert!(left > 0 || ended.status != 0, "{case}");
        }
    }
    assert!(ran > 12, "{ran} runs had room");
}

#[test]
fn temporary_files_of_a_record() {
    let lines = "head -c 40000 /dev/zero || exit 1";
    let house = House::new().with_records(lines);
    let folder = house.path("temporary");
    let disk = |octets| Disk {
        folder: &folder,
        octets,
        left: Some(2),
    };
    let said = format!(
        "dmarc: nothing more can be written in {}, where temporary files go; its disk may be full",
        folder.display()
    );
    let runs: [&[&str]; 4] = [
        &["--read", "x"],
        &["--address", "b", "mailto:x@b", "x.txt"],
        &["--day", "x.txt"],
        &["--report", "x.txt"],
    ];
    for words in runs {
        let Some(full) = disk(16 * PAGE).run(&house, "dmarc", words) else {
            return;
        };
        assert_eq!((full.status, full.printed.as_str()), (1, ""));
        assert_eq!(full.said.lines().last(), Some(said.as_str()));
    }
    house.program("tools/target/release/dmarc-records", "echo p: none");
    for words in runs {
        let enough = disk(16 * PAGE).run(&house, "dmarc", words);
        assert_eq!(enough.expect("a disk").printed, "p: none\n");
    }
}

#[test]
fn the_tools() {
    let house = House::new().with_program();
    house.program(
        "bin/cargo",
        "head -c 500000 /dev/zero > tools/target/big || exit 101",
    );
    let folder = house.path("tools/target");
    let disk = Disk {
        folder: &folder,
        octets: 200_000,
        left: None,
    };
    let Some(full) = disk.run(&house, "dmarc", &["x.txt"]) else {
        return;
    };
    assert_eq!((full.status, full.printed.as_str()), (1, ""));
    let said = format!(
        "dmarc: nothing more can be written in {}; its disk may be full",
        folder.display()
    );
    assert!(full.said.lines().any(|line| line == said), "{}", full.said);
}

#[test]
fn the_library() {
    let house = House::new();
    // A part is 26 pages, and its object 25. All parts have room, and two objects.
    let little = (26 * parts().len() + 2 * 25 + 10) * PAGE;
    house.program(
        "bin/rt",
        "part=${PWD##*/}
mkdir -p out
head -c 102400 /dev/zero > \"out/$part.o\" && ar rcD \"out/lib$part.a\" \"out/$part.o\" || exit 1
rm \"out/$part.o\"",
    );
    house.link("ar");
    let folder = house.path("target");
    let disk = |octets| Disk {
        folder: &folder,
        octets,
        left: None,
    };
    let keep =
        "if ./library; then ls -l target/lib; else status=$?; ls target/lib; exit $status; fi";
    house.program("keep", keep);
    house.link("ls");
    let Some(ended) = disk(little).run(&house, "keep", &[]) else {
        return;
    };
    assert_eq!((ended.status, ended.printed.as_str()), (1, "parts\n"));
    let said = format!(
        "library: nothing more can be written in {}; its disk may be full",
        folder.display()
    );
    assert!(
        ended.said.lines().any(|line| line == said),
        "{}",
        ended.said
    );
    // An `ar` that does not say what it left unwritten.
    fs::remove_file(house.path("bin/ar")).expect("a link");
    let silent = format!("{{ {JOINER}}} 2> /dev/null; exit 0");
    house.program("bin/ar", &silent);
    house.program(
        "bin/rt",
        "mkdir -p out; head -c 102400 /dev/zero > \"out/lib${PWD##*/}.a\"",
    );
    let ended = disk(little).run(&house, "keep", &[]).expect("a disk");
    assert_eq!((ended.status, ended.printed.as_str()), (1, "parts\n"));
    let enough = disk(4 * little)
        .run(&house, "library", &[])
        .expect("a disk");
    assert_eq!(enough.status, 0, "{}", enough.said);
}

#[test]
fn the_prover() {
    let house = House::new().with_tools();
    let makes = House::makes_program();
    house.program(
        "bin/rt",
        &format!("head -c 500000 /dev/zero > ../../target/big || exit 1\n{makes}"),
    );
    let folder = house.path("target");
    let disk = |octets| Disk {
        folder: &folder,
        octets,
        left: None,
    };
    let Some(full) = disk(200_000).run(&house, "dmarc", &["x.txt"]) else {
        return;
    };
    assert_eq!((full.status, full.printed.as_str()), (1, ""));
    let said = format!(
        "dmarc: nothing more can be written in {}; its disk may be full",
        folder.display()
    );
    assert!(full.said.lines().any(|line| line == said), "{}", full.said);
    let enough = disk(2_000_000).run(&house, "dmarc", &["x.txt"]);
    let enough = enough.expect("a disk");
    assert_eq!((enough.status, enough.printed.as_str()), (0, PRINTED));
}
