//! A made-up repository with the scripts, and a made-up toolchain for them.

use std::fs;
use std::os::unix::fs::{symlink, PermissionsExt};
use std::path::PathBuf;
use std::process::Command;
use std::time::{Duration, SystemTime};

use desk::root;
use desk::script::{Ended, Folder};

/// What the scripts and the made-up toolchain use of the system.
const SYSTEM: [&str; 24] = [
    "awk", "bash", "cat", "chmod", "cp", "dirname", "env", "find", "flock", "grep", "head",
    "mkdir", "mktemp", "mv", "od", "readlink", "rm", "sed", "sh", "sleep", "tail", "tee", "touch",
    "tr",
];
const CRATES: &str = "# meaning
octets:
domain: octets
policy: octets
other: octets
# code
dmarc: domain policy
";
/// What the made-up program prints, whatever it reads.
pub const PRINTED: &str = "ask _dmarc.b\nresult none\npolicy none\ndisposition none\nasked 1\n";
pub const MESSAGE: &str = "author b exists supported\nanswer _dmarc.b none\n";

/// The crates whose functions the library has, as the scripts list them.
pub fn parts() -> Vec<String> {
    let script = fs::read_to_string(root().join("tools/build.sh")).expect("a script");
    let mut lines = script.lines();
    let list = lines.find_map(|line| line.strip_prefix("parts=\"")?.strip_suffix('"'));
    let parts = list.expect("a list of parts").split(' ');
    parts.map(String::from).collect()
}

pub struct House {
    pub folder: Folder,
}

impl House {
    /// With the scripts and a few crates, and nothing built.
    pub fn new() -> House {
        let folder = Folder::new();
        for file in ["dmarc", "library", "tools/build.sh"] {
            folder.write(file, fs::read(root().join(file)).expect("a file"));
        }
        let parts = parts();
        let lines = parts
            .iter()
            .map(|part| format!("{part} staticlib: policy\n"));
        folder.write(
            "crates.txt",
            CRATES.to_string() + &lines.collect::<String>(),
        );
        let others = ["octets", "domain", "policy", "other", "dmarc"].map(String::from);
        for name in others.into_iter().chain(parts) {
            folder.write(&format!("crates/{name}/src/lib.rt"), "");
        }
        for file in [
            "tools/Cargo.toml",
            "tools/Cargo.lock",
            "tools/evaluator/src/lib.rs",
            "tools/sheets/src/lib.rs",
            "tools/records/src/lib.rs",
            "rust/src/lib.rs",
        ] {
            folder.write(file, "");
        }
        folder.write("x.txt", MESSAGE);
        folder.write("x.sheet", b"AU\0\x03\x01\x01bAN\0\x0a\x01\x08_dmarc.b");
        fs::create_dir_all(folder.path().join("bin")).expect("a folder");
        let house = House { folder };
        for script in ["dmarc", "library"] {
            house.make_runnable(script);
        }
        for name in SYSTEM {
            house.link(name);
        }
        house
    }

    pub fn make_runnable(&self, file: &str) {
        let file = self.folder.path().join(file);
        fs::set_permissions(file, fs::Permissions::from_mode(0o755)).expect("permissions");
    }

    /// Puts a program of the system on the path.
    pub fn link(&self, name: &str) {
        let found = ["/bin", "/usr/bin", "/usr/local/bin"]
            .map(|folder| format!("{folder}/{name}"))
            .into_iter()
            .find(|file| fs::metadata(file).is_ok());
        let own = self.folder.path().join("bin").join(name);
        symlink(found.expect("a program of the system"), own).expect("a link");
    }

    /// Writes a program of bash.
    pub fn program(&self, file: &str, lines: &str) {
        self.folder
            .write(file, format!("#!/usr/bin/env bash\n{lines}"));
        self.make_runnable(file);
    }

    /// With `dmarc-tools` as it was built here, newer than its sources.
    pub fn with_tools(self) -> House {
        let built = Folder::with("x.txt", MESSAGE).dmarc(&["x.txt"]);
        assert_eq!(built.status, 0, "{}", built.said);
        let own = "tools/target/release/dmarc-tools";
        let tools = fs::read(root().join(own)).expect("dmarc-tools");
        self.folder.write(own, tools);
        self.make_runnable(own);
        self
    }

    /// With a program that was proved.
    pub fn with_program(self) -> House {
        self.program("target/bin/dmarc", &format!("printf '{PRINTED}'"));
        self
    }

    /// With a made-up writer and reader of policy records, over a made-up library.
    pub fn with_records(self, lines: &str) -> House {
        self.folder.write("target/lib/libwaslidhaj.a", "");
        self.program("tools/target/release/dmarc-records", lines);
        self
    }

    /// Makes a file older than all others.
    pub fn make_older(&self, file: &str) {
        let file = fs::File::options().write(true).open(self.path(file));
        let past = SystemTime::now() - Duration::from_secs(3600);
        let set = file.and_then(|file| file.set_modified(past));
        set.expect("a time");
    }

    /// A file of the house by its full name, as the scripts say it.
    pub fn path(&self, file: &str) -> PathBuf {
        let path = self.folder.path().canonicalize().expect("a folder");
        path.join(file)
    }

    /// Lines of bash with which a made-up prover, which runs in the crate's folder,
    /// makes the program.
    pub fn makes_program() -> String {
        let printed = PRINTED.replace('\n', "\\\\n");
        format!(
            "mkdir -p out
printf '#!/usr/bin/env bash\\nprintf \"{printed}\"\\n' > out/dmarc
chmod 755 out/dmarc
"
        )
    }

    /// A line of bash with which a made-up prover says that it proved a crate.
    pub fn says_proved(name: &str) -> String {
        format!("printf 'crate {name}: modules loaded=2 checked=1\\nlogic=proved functions=1\\n'")
    }

    /// A script of the house, to be run with only the house's own path.
    pub fn script(&self, name: &str) -> Command {
        let mut command = Command::new(self.folder.path().join(name));
        command.current_dir(self.folder.path());
        command.env("PATH", self.folder.path().join("bin"));
        command
    }

    pub fn dmarc(&self, words: &[&str]) -> Ended {
        let mut command = self.script("dmarc");
        command.args(words);
        desk::script::ended(command, b"")
    }

    pub fn library(&self) -> Ended {
        desk::script::ended(self.script("library"), b"")
    }
}
