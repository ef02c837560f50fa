//! The file of a report; one that is packed is unpacked by the system's `zcat`.

use std::ffi::OsStr;
use std::fs::File;
use std::io::{self, Read};
use std::os::unix::ffi::OsStrExt;
use std::process::{Child, ChildStderr, ChildStdout, Command, Stdio};

const PACKED: &[u8] = b".gz";

/// Opens a file by its name.
pub fn open(name: &[u8]) -> Result<Box<dyn Read>, String> {
    let opened =
        File::open(OsStr::from_bytes(name)).and_then(|file| -> io::Result<Box<dyn Read>> {
            match name.ends_with(PACKED) {
                true => Ok(Box::new(Unpacked::new(file)?)),
                false => Ok(Box::new(file)),
            }
        });
    opened.map_err(|error| format!("{}: {error}", String::from_utf8_lossy(name)))
}

/// What `zcat` prints of a file. At its end it must have ended well; one that is not
/// read to its end is stopped.
struct Unpacked {
    zcat: Child,
    printed: ChildStdout,
    said: ChildStderr,
}

impl Unpacked {
    fn new(file: File) -> io::Result<Unpacked> {
        let mut zcat = Command::new("zcat")
            .stdin(file)
            .stdout(Stdio::piped())
            .stderr(Stdio::piped())
            .spawn()
            .map_err(|error| io::Error::other(format!("zcat cannot be run: {error}")))?;
        let (printed, said) = (zcat.stdout.take(), zcat.stderr.take());
        let (printed, said) = printed
            .zip(said)
            .ok_or_else(|| io::Error::other("zcat has no output"))?;
        Ok(Unpacked {
            zcat,
            printed,
            said,
        })
    }

    /// Whether it ended well; the error has the last line that it said.
    fn end(&mut self) -> io::Result<()> {
        if self.zcat.wait()?.success() {
            return Ok(());
        }
        let mut said = String::new();
        self.said.read_to_string(&mut said)?;
        let why = said.lines().last().unwrap_or_default();
        Err(io::Error::other(format!("zcat cannot unpack it: {why}")))
    }
}

impl Read for Unpacked {
    fn read(&mut self, buffer: &mut [u8]) -> io::Result<usize> {
        let count = self.printed.read(buffer)?;
        if count == 0 && !buffer.is_empty() {
            self.end()?;
        }
        Ok(count)
    }
}

impl Drop for Unpacked {
    fn drop(&mut self) {
        let _ = self.zcat.kill();
        let _ = self.zcat.wait();
    }
}
