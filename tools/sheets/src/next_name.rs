//! The next name to ask: the first that the proved program asked and that has no
//! answer yet.

use crate::handed::Handed;
use crate::printed::Printed;
use evaluator::sheet;

/// The next name; where there is none, the verdict's lines, or the refusal.
pub fn next_name(handed: &Handed, printed: &Printed) -> Vec<u8> {
    let (asked, lines) = match printed {
        Printed::Refused(refusal) => return format!("{refusal}\n").into_bytes(),
        Printed::Verdict { asked, lines } => (asked, lines),
    };
    let sheet = sheet::read(handed.sheet()).ok();
    let answered = |name: &[u8]| {
        sheet
            .as_ref()
            .is_some_and(|sheet| sheet.given(name).is_some())
    };
    match asked.iter().find(|name| !answered(name)) {
        Some(name) => [name, b"\n".as_slice()].concat(),
        None => [lines.join(&b'\n'), b"\n".to_vec()].concat(),
    }
}
