//! The script `dmarc` of the repository's root, run on files of their own.

use crate::root;
use std::fs;
use std::io::Write;
use std::path::{Path, PathBuf};
use std::process::{Command, Output, Stdio};
use std::sync::atomic::{AtomicUsize, Ordering};
use std::sync::Once;

/// A folder that is removed when it is dropped.
pub struct Folder {
    path: PathBuf,
}

impl Folder {
    /// An empty folder.
    pub fn new() -> Folder {
        static COUNT: AtomicUsize = AtomicUsize::new(0);
        let count = COUNT.fetch_add(1, Ordering::Relaxed);
        let name = format!("dmarc-desk-{}-{count}", std::process::id());
        let path = std::env::temp_dir().join(name);
        fs::create_dir_all(&path).expect("a folder");
        Folder { path }
    }

    /// A folder with one file.
    pub fn with(name: &str, octets: impl AsRef<[u8]>) -> Folder {
        let folder = Folder::new();
        folder.write(name, octets);
        folder
    }

    pub fn path(&self) -> &Path {
        &self.path
    }

    /// Writes a file, and the folders above it.
    pub fn write(&self, name: &str, octets: impl AsRef<[u8]>) -> PathBuf {
        let file = self.path.join(name);
        let above = file.parent().expect("a folder above");
        fs::create_dir_all(above).expect("a folder");
        fs::write(&file, octets).expect("a file");
        file
    }

    pub fn read(&self, name: &str) -> String {
        let octets = fs::read(self.path.join(name)).expect("a file");
        String::from_utf8(octets).expect("words in UTF-8")
    }

    /// Runs the script here, so that files are named as they are written.
    pub fn dmarc(&self, words: &[&str]) -> Ended {
        self.dmarc_reading(words, b"")
    }

    /// Runs the script here with this on standard input.
    pub fn dmarc_reading(&self, words: &[&str], input: &[u8]) -> Ended {
        let mut command = Command::new(dmarc());
        command.args(words).current_dir(&self.path);
        ended(command, input)
    }
}

impl Default for Folder {
    fn default() -> Folder {
        Folder::new()
    }
}

impl Drop for Folder {
    fn drop(&mut self) {
        let _ = fs::remove_dir_all(&self.path);
    }
}

/// The script, once all that it builds is there and it has no more to say of that.
pub fn dmarc() -> PathBuf {
    static BUILT: Once = Once::new();
    let script = root().join("dmarc");
    BUILT.call_once(|| {
        let message = root().join("examples/01.txt");
        for words in [
            ["--explain".as_ref(), message.as_os_str()],
            ["--write".as_ref(), "p=none".as_ref()],
        ] {
            let mut command = Command::new(&script);
            command.args(words);
            let ended = ended(command, b"");
            assert_eq!(ended.status, 0, "{}", ended.said);
        }
    });
    script
}

/// How a program ended, and what it printed and said.
#[derive(Clone, Debug, PartialEq, Eq)]
pub struct Ended {
    pub status: i32,
    pub printed: String,
    pub said: String,
}

impl From<Output> for Ended {
    fn from(output: Output) -> Ended {
        let text = |octets| String::from_utf8(octets).expect("words in UTF-8");
        Ended {
            status: output.status.code().expect("an exit status"),
            printed: text(output.stdout),
            said: text(output.stderr),
        }
    }
}

/// Runs a command to its end with this on standard input.
pub fn ended(mut command: Command, input: &[u8]) -> Ended {
    command
        .stdin(Stdio::piped())
        .stdout(Stdio::piped())
        .stderr(Stdio::piped());
    let mut child = command.spawn().expect("the program starts");
    let mut stdin = child.stdin.take().expect("standard input");
    // A program that does not read it closes it.
    let _ = stdin.write_all(input);
    drop(stdin);
    child.wait_with_output().expect("the program ends").into()
}
