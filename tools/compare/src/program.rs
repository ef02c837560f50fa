//! The proved evaluator as a program: a sheet on standard input, its output text
//! on standard output.

use std::io::{ErrorKind, Write};
use std::process::{Command, Stdio};

/// What the program prints for a sheet.
pub fn output(path: &str, sheet: &[u8]) -> Result<Vec<u8>, String> {
    let failed = |error: std::io::Error| format!("{path}: {error}");
    let mut child = Command::new(path)
        .stdin(Stdio::piped())
        .stdout(Stdio::piped())
        .spawn()
        .map_err(failed)?;
    if let Some(mut input) = child.stdin.take() {
        match input.write_all(sheet) {
            // The program may stop reading once a sheet is too long.
            Err(error) if error.kind() != ErrorKind::BrokenPipe => return Err(failed(error)),
            _ => {}
        }
    }
    let ended = child.wait_with_output().map_err(failed)?;
    match ended.status.code() {
        Some(_) => Ok(ended.stdout),
        None => Err(format!("{path} was ended by a signal")),
    }
}
