//! The functions of the C interface, safe: a slice for each pointer and length.
//!
//! Any values and any octets may be handed in. A slice is lent for the call
//! alone, its pointer is never null, one that is written overlaps no other, and
//! the proved code reads and writes within the lengths; this is the reason of
//! every `unsafe` here. It is also the only module that has any.

use crate::raw::*;

/// The two lists beside a day's rows, each one text of records, as
/// [`ReportLists`](crate::ReportLists) makes them.
#[derive(Clone, Copy, Debug, Default, PartialEq, Eq)]
pub struct Lists<'a> {
    /// The author domains.
    pub authors: &'a [u8],
    /// The sets of identifiers.
    pub sets: &'a [u8],
}

/// What the reporter says in a report of itself.
#[derive(Clone, Copy, Debug, Default, PartialEq, Eq)]
pub struct Reporter<'a> {
    /// Its name.
    pub organization: &'a [u8],
    /// Its email address.
    pub email: &'a [u8],
    /// More of how to reach it; it may be empty.
    pub contact: &'a [u8],
    /// The report's id: 1 to 64 letters and digits.
    pub id: &'a [u8],
    /// The first second.
    pub begin: u64,
    /// The last second.
    pub end: u64,
}

/// Opens an evaluation. Accepted, or refused 1, 3.
pub fn open(state: State, author: &[u8], existence: u8, support: u8) -> Called {
    // SAFETY: the author is lent by its pointer and length.
    unsafe { waslidhaj_open(state, author.as_ptr(), author.len(), existence, support) }
}

/// Adds an identifier. Accepted, or refused 17, 3, 4, 2.
pub fn add(state: State, kind: u8, outcome: u8, domain: &[u8]) -> Called {
    // SAFETY: the domain is lent by its pointer and length.
    unsafe { waslidhaj_add(state, kind, outcome, domain.as_ptr(), domain.len()) }
}

/// The next step: a name to ask, the verdict, or refused 7.
pub fn next(state: State) -> Called {
    // SAFETY: values alone.
    unsafe { waslidhaj_next(state) }
}

/// An answer for the name now asked. Accepted, or refused 5, 6, 10.
pub fn answer(state: State, name: &[u8], status: u8, bytes: &[u8], scratch: &mut [u8]) -> Called {
    // SAFETY: each slice is lent by its pointer and length.
    unsafe {
        waslidhaj_answer_apart(
            state,
            name.as_ptr(),
            name.len(),
            status,
            bytes.as_ptr(),
            bytes.len(),
            scratch.as_mut_ptr(),
            scratch.len(),
        )
    }
}

/// The verdict again, or refused 7.
pub fn result(state: State) -> Given {
    // SAFETY: values alone.
    unsafe { waslidhaj_result(state) }
}

/// Writes the Identity-Alignment field. Accepted, or refused 7, 9, 10.
pub fn field(state: State, out: &mut [u8]) -> Given {
    // SAFETY: the output is lent by its pointer and length.
    unsafe { waslidhaj_field(state, out.as_mut_ptr(), out.len()) }
}

/// Writes the name that a walk and a place mark, or refused 10.
pub fn name(state: State, walk: usize, place: usize, out: &mut [u8]) -> Written {
    // SAFETY: the output is lent by its pointer and length.
    unsafe { waslidhaj_name(state, walk, place, out.as_mut_ptr(), out.len()) }
}

/// Writes the domain of the applied record by a verdict's `begin`, or refused 10.
pub fn domain(state: State, begin: usize, out: &mut [u8]) -> Written {
    // SAFETY: the output is lent by its pointer and length.
    unsafe { waslidhaj_domain(state, begin, out.as_mut_ptr(), out.len()) }
}

/// Runs a sheet, and gives the length of what is printed for it, which stands in
/// the output if there is room; else the output is as it was.
pub fn run(sheet: &[u8], out: &mut [u8]) -> usize {
    // SAFETY: both slices are lent by pointer and length.
    unsafe { waslidhaj_run_apart(sheet.as_ptr(), sheet.len(), out.as_mut_ptr(), out.len()) }
}

/// What is entered in a day's list of an evaluation at its verdict, or refused 7.
pub fn finding(state: State) -> Found {
    // SAFETY: values alone.
    unsafe { waslidhaj_finding(state) }
}

/// A list that was never cleared.
pub fn new_list() -> List {
    // SAFETY: it takes nothing, and gives a value.
    unsafe { waslidhaj_new_list() }
}

/// Clears a list for a policy domain, or refused 11.
pub fn clear(list: List, domain: &[u8], rows: &mut [Row]) -> ListChanged {
    // SAFETY: both slices are lent by pointer and length.
    unsafe {
        waslidhaj_clear_apart(
            list,
            domain.as_ptr(),
            domain.len(),
            rows.as_mut_ptr(),
            rows.len(),
        )
    }
}

/// Enters a verdict whose applied record is of this domain, or refused 14, 27, 28,
/// 12, 13.
pub fn enter(
    list: List,
    entry: Entry,
    domain: &[u8],
    lists: Lists<'_>,
    rows: &mut [Row],
) -> ListChanged {
    // SAFETY: each slice is lent by its pointer and length.
    unsafe {
        waslidhaj_enter_apart(
            list,
            entry,
            domain.as_ptr(),
            domain.len(),
            lists.authors.as_ptr(),
            lists.authors.len(),
            lists.sets.as_ptr(),
            lists.sets.len(),
            rows.as_mut_ptr(),
            rows.len(),
        )
    }
}

/// The rows that a report is written from: those with a count of the first 256.
pub fn gather(rows: &[Row]) -> Gathered {
    // SAFETY: the rows are lent by pointer and length.
    unsafe { waslidhaj_gather(rows.as_ptr(), rows.len()) }
}

/// Writes the aggregate report, or refused 27, 18, 28, 19, 11, 10.
pub fn report(
    list: List,
    gathered: Gathered,
    settings: Settings,
    lists: Lists<'_>,
    reporter: Reporter<'_>,
    out: &mut [u8],
) -> Written {
    // SAFETY: each slice is lent by its pointer and length.
    unsafe {
        waslidhaj_report_apart(
            list,
            gathered,
            settings,
            lists.authors.as_ptr(),
            lists.authors.len(),
            lists.sets.as_ptr(),
            lists.sets.len(),
            reporter.organization.as_ptr(),
            reporter.organization.len(),
            reporter.email.as_ptr(),
            reporter.email.len(),
            reporter.contact.as_ptr(),
            reporter.contact.len(),
            reporter.id.as_ptr(),
            reporter.id.len(),
            reporter.begin,
            reporter.end,
            out.as_mut_ptr(),
            out.len(),
        )
    }
}

/// Writes the subject of the mail with a report, or refused 11, 10.
pub fn subject(receiver: &[u8], domain: &[u8], id: &[u8], out: &mut [u8]) -> Written {
    // SAFETY: each slice is lent by its pointer and length.
    unsafe {
        waslidhaj_subject_apart(
            receiver.as_ptr(),
            receiver.len(),
            domain.as_ptr(),
            domain.len(),
            id.as_ptr(),
            id.len(),
            out.as_mut_ptr(),
            out.len(),
        )
    }
}

/// Writes the file name of a report, or refused 11, 10. Where `has_id` is 0 the id
/// is not read.
pub fn file_name(
    receiver: &[u8],
    domain: &[u8],
    begin: u64,
    end: u64,
    has_id: u8,
    id: &[u8],
    out: &mut [u8],
) -> Written {
    // SAFETY: each slice is lent by its pointer and length.
    unsafe {
        waslidhaj_file_name_apart(
            receiver.as_ptr(),
            receiver.len(),
            domain.as_ptr(),
            domain.len(),
            begin,
            end,
            has_id,
            id.as_ptr(),
            id.len(),
            out.as_mut_ptr(),
            out.len(),
        )
    }
}

/// Writes a policy record, or refused 15, 16, 10.
pub fn write_record(settings: Settings, rua: &[u8], out: &mut [u8]) -> Written {
    // SAFETY: both slices are lent by pointer and length.
    unsafe {
        waslidhaj_write_record_apart(
            settings,
            rua.as_ptr(),
            rua.len(),
            out.as_mut_ptr(),
            out.len(),
        )
    }
}

/// Reads a text as a policy record.
pub fn read_record(text: &[u8]) -> RecordRead {
    // SAFETY: the text is lent by its pointer and length.
    unsafe { waslidhaj_read_record(text.as_ptr(), text.len()) }
}

/// Reads an Identity-Alignment field.
pub fn read_field(text: &[u8]) -> FieldRead {
    // SAFETY: the text is lent by its pointer and length.
    unsafe { waslidhaj_read_field(text.as_ptr(), text.len()) }
}

/// Starts the check of a rua entry for a policy domain. Accepted, or refused 11, 23.
pub fn check_start(check: Check, policy: &[u8], entry: &[u8]) -> CheckCalled {
    // SAFETY: both slices are lent by pointer and length.
    unsafe {
        waslidhaj_check_start_by_value(
            check,
            policy.as_ptr(),
            policy.len(),
            entry.as_ptr(),
            entry.len(),
        )
    }
}

/// The next step of a check: a name to ask, the outcome, or refused 7.
pub fn check_next(check: Check) -> CheckCalled {
    // SAFETY: values alone.
    unsafe { waslidhaj_check_next_by_value(check) }
}

/// An answer for the name that a check now asks. Accepted, or refused 5, 6, 10.
pub fn check_answer(
    check: Check,
    name: &[u8],
    status: u8,
    bytes: &[u8],
    scratch: &mut [u8],
) -> CheckCalled {
    // SAFETY: each slice is lent by its pointer and length.
    unsafe {
        waslidhaj_check_answer_by_value(
            check,
            name.as_ptr(),
            name.len(),
            status,
            bytes.as_ptr(),
            bytes.len(),
            scratch.as_mut_ptr(),
            scratch.len(),
        )
    }
}

/// The outcome of a check again, or refused 7.
pub fn check_result(check: Check) -> CheckGiven {
    // SAFETY: values alone.
    unsafe { waslidhaj_check_result_by_value(check) }
}

/// Writes the name that a walk and a place mark in a check, or refused 10.
pub fn check_name(check: Check, walk: usize, place: usize, out: &mut [u8]) -> Written {
    // SAFETY: the output is lent by its pointer and length.
    unsafe { waslidhaj_check_name_by_value(check, walk, place, out.as_mut_ptr(), out.len()) }
}

/// The numbers of a reader that has read nothing.
pub fn new_reader() -> ReaderState {
    // SAFETY: it takes nothing, and gives a value.
    unsafe { waslidhaj_new_reader() }
}

/// Reads a part of a report. The row is kept in the lent octets, the same at every
/// call of a reader. More, a row, or refused 20, 21.
pub fn read(state: ReaderState, part: &[u8], row: &mut [u8; ROW_OCTETS]) -> Fed {
    // SAFETY: the part is lent by its pointer and length, the row by its pointer: it
    // has as many octets as the proved code writes.
    unsafe { waslidhaj_read_apart(state, part.as_ptr(), part.len(), row.as_mut_ptr()) }
}

/// Declares the end of a report: accepted as more, or refused 22, or as before.
pub fn end(state: ReaderState) -> Ended {
    // SAFETY: values alone.
    unsafe { waslidhaj_end(state) }
}
