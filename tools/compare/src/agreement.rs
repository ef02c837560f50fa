//! Holds another evaluator to the second one, sheet by sheet.

#[cfg(test)]
mod tests;

use evaluator::sheet;
use sheets::description::describe;
use sheets::tally::Tally;

/// Octets lent to the other evaluator: more than any output has (136 names of
/// at most 253 octets).
pub const LENT_OCTETS: usize = 40_000;
/// On every sheet of so many, an output one octet too short is lent as well.
const SHORT_EVERY: u64 = 16;

/// What went wrong on a sheet.
#[derive(Clone, Debug, PartialEq, Eq)]
pub struct Fault {
    pub what: &'static str,
    pub given: Vec<u8>,
    pub expected: Vec<u8>,
}

/// Holds an evaluator that takes a sheet and a lent output, writes its text
/// there from octet 0 if it fits, and gives the text's length.
pub struct Checker<R> {
    run: R,
    /// What the lent output holds before each run.
    pattern: Vec<u8>,
    out: Vec<u8>,
    /// How the sheets ended.
    pub tally: Tally,
}

impl<R: FnMut(&[u8], &mut [u8]) -> usize> Checker<R> {
    pub fn new(run: R) -> Checker<R> {
        let pattern: Vec<u8> = (0..=250).cycle().take(LENT_OCTETS).collect();
        Checker {
            run,
            out: pattern.clone(),
            pattern,
            tally: Tally::default(),
        }
    }

    /// Checks the evaluator on one sheet.
    pub fn check(&mut self, sheet: &[u8]) -> Result<(), Fault> {
        let expected = sheet::run(sheet);
        self.check_whole(sheet, &expected)?;
        if self.tally.sheets.is_multiple_of(SHORT_EVERY) {
            self.check_short(sheet, &expected)?;
        }
        self.tally.add(&String::from_utf8_lossy(&expected));
        Ok(())
    }

    /// "On success an output starts at octet 0 and what lies past its end is
    /// unchanged."
    fn check_whole(&mut self, sheet: &[u8], expected: &[u8]) -> Result<(), Fault> {
        self.out.copy_from_slice(&self.pattern);
        let length = (self.run)(sheet, &mut self.out);
        let Some((text, rest)) = self.out.split_at_checked(length) else {
            let what = "the length is past every output's";
            return Err(fault(what, length.to_string().as_bytes(), expected));
        };
        same(text, expected)?;
        if self.pattern.get(length..) != Some(rest) {
            let what = "octets past the text's end were written";
            return Err(fault(what, text, expected));
        }
        Ok(())
    }

    /// Lends an output one octet too short: the length comes back, and nothing
    /// is written.
    fn check_short(&mut self, sheet: &[u8], expected: &[u8]) -> Result<(), Fault> {
        self.out.copy_from_slice(&self.pattern);
        let short = self.out.get_mut(..expected.len().saturating_sub(1));
        let length = (self.run)(sheet, short.unwrap_or_default());
        if length != expected.len() {
            let what = "another length for an output too short";
            return Err(fault(what, length.to_string().as_bytes(), expected));
        }
        if self.out != self.pattern {
            let what = "octets of an output too short were written";
            let written = self.out.get(..expected.len()).unwrap_or_default();
            return Err(fault(what, written, expected));
        }
        Ok(())
    }
}

fn fault(what: &'static str, given: &[u8], expected: &[u8]) -> Fault {
    Fault {
        what,
        given: given.to_vec(),
        expected: expected.to_vec(),
    }
}

/// Holds an output text to the expected one.
pub fn same(text: &[u8], expected: &[u8]) -> Result<(), Fault> {
    match text == expected {
        true => Ok(()),
        false => Err(fault("the outputs differ", text, expected)),
    }
}

impl Fault {
    /// The fault in words, with both outputs and the sheet's description.
    pub fn report(&self, origin: &str, sheet: &[u8]) -> String {
        let shown = |text: &[u8]| String::from_utf8_lossy(text).trim_end().to_string();
        format!(
            "{origin}: {}\n-- the proved evaluator\n{}\n-- the reference\n{}\n-- the sheet\n{}",
            self.what,
            shown(&self.given),
            shown(&self.expected),
            describe(sheet)
        )
    }
}
