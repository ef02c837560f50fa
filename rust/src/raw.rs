//! The values and functions of `include/waslidhaj.h`, as C has them.
//!
//! The flags of a [`RecordRead`], which are 0 or 1, are a `bool` here. The functions
//! are called by [`crate::calls`] alone, those with memory to write by their names
//! `.._apart` and `.._by_value`: what is lent in Rust overlaps nowhere.

mod reader;

pub use reader::*;

/// A refusal: its number and its place. Number 0 is no refusal.
#[repr(C)]
#[derive(Clone, Copy, Debug, Default, PartialEq, Eq)]
pub struct Refusal {
    /// Its number in the README's table.
    pub number: u8,
    /// Its place, as the table says.
    pub place: usize,
}

/// What a writer gives: how many octets it wrote, or the refusal; the length is 0
/// then.
#[repr(C)]
#[derive(Clone, Copy, Debug, Default, PartialEq, Eq)]
pub struct Written {
    /// Number 0 where it is written.
    pub refusal: Refusal,
    /// The octets written from octet 0.
    pub length: usize,
}

/// A verdict by its numbers.
#[repr(C)]
#[derive(Clone, Copy, Debug, PartialEq, Eq)]
pub struct Verdict {
    /// 0 none, 1 pass, 2 fail, 3 temperror, 4 permerror.
    pub result: u8,
    /// 0 none, 1 quarantine, 2 reject, 3 unknown.
    pub policy: u8,
    /// 0 none, 1 quarantine, 2 reject, 3 defer.
    pub disposition: u8,
    /// Where the domain of the applied record begins in the author domain.
    pub begin: usize,
    /// Two bits an identifier, the first one's lowest.
    pub alignments: usize,
    /// How many names were asked.
    pub count: usize,
}

impl Default for Verdict {
    /// What stands where there is no verdict: temperror, unknown and defer.
    fn default() -> Verdict {
        Verdict {
            result: 3,
            policy: 3,
            disposition: 3,
            begin: 0,
            alignments: 0,
            count: 0,
        }
    }
}

/// A kind of what a call gives: accepted.
pub const ACCEPTED: u8 = 0;
/// A kind of what a call gives: a name to ask.
pub const ASK: u8 = 1;
/// A kind of what a call gives: the verdict.
pub const VERDICT: u8 = 2;
/// The same of a check: the outcome.
pub const OUTCOME: u8 = VERDICT;
/// A kind of what a call gives: refused.
pub const REFUSED: u8 = 3;

/// What a call gives, by its kind. Without a verdict its result, policy and
/// disposition are 3, which is temperror, unknown and defer; all else that its
/// kind does not have is 0.
#[repr(C)]
#[derive(Clone, Copy, Debug, Default, PartialEq, Eq)]
pub struct Given {
    /// [`ACCEPTED`], [`ASK`], [`VERDICT`] or [`REFUSED`].
    pub kind: u8,
    /// Of a name to ask: the walk that looks at it first.
    pub walk: usize,
    /// Of a name to ask: where its target begins in that walk's domain.
    pub place: usize,
    /// How many octets the field has.
    pub length: usize,
    /// The verdict.
    pub verdict: Verdict,
    /// The refusal.
    pub refusal: Refusal,
}

/// An evaluation between two calls. Its fields are the proved code's alone; any
/// octets in them get an answer.
#[allow(missing_docs)]
#[repr(C)]
#[derive(Clone, Copy, Debug, PartialEq, Eq)]
pub struct State {
    pub started: u8,
    pub handed: u8,
    pub asked: u8,
    pub existence: u8,
    pub support: u8,
    pub place_kind: u8,
    pub found: u8,
    pub domains: [u8; 4301],
    pub numbers: [u16; 51],
    pub kept: [u16; 408],
    pub stored: [u16; 17],
    pub identifiers: usize,
    pub count: usize,
    pub ruling_begin: usize,
    pub ruling_settings: usize,
    pub ruling_policy: usize,
    pub walk: usize,
    pub record_begin: usize,
    pub record_settings: usize,
    pub target_begin: usize,
    pub target_wider: usize,
    pub more: usize,
}

impl State {
    /// A state of zeros: nothing is opened.
    pub const ZEROS: State = State {
        started: 0,
        handed: 0,
        asked: 0,
        existence: 0,
        support: 0,
        place_kind: 0,
        found: 0,
        domains: [0; 4301],
        numbers: [0; 51],
        kept: [0; 408],
        stored: [0; 17],
        identifiers: 0,
        count: 0,
        ruling_begin: 0,
        ruling_settings: 0,
        ruling_policy: 0,
        walk: 0,
        record_begin: 0,
        record_settings: 0,
        target_begin: 0,
        target_wider: 0,
        more: 0,
    };
}

/// The evaluation to go on with, and what the call gives.
#[repr(C)]
#[derive(Clone, Copy, Debug, PartialEq, Eq)]
pub struct Called {
    /// The evaluation to go on with.
    pub state: State,
    /// What the call gives.
    pub given: Given,
}

/// What a row counts: verdicts that have all this in common. A flag is set where
/// it is not 0, here and in a list and an entry.
#[repr(C)]
#[derive(Clone, Copy, Debug, Default, PartialEq, Eq)]
pub struct Seen {
    /// Where the messages came from: 16 octets, IPv4 mapped.
    pub source: [u8; 16],
    /// 0 none, 1 quarantine, 2 reject; any other is reported as none.
    pub disposition: u8,
    /// Whether DKIM aligned.
    pub dkim: u8,
    /// Whether SPF aligned.
    pub spf: u8,
    /// It is not read.
    pub spare: u8,
    /// The place of the author domain in its list.
    pub author: u32,
    /// The place of the set of identifiers in its list.
    pub set: u32,
}

/// A row of a day's list. One with count 0 is free.
#[repr(C)]
#[derive(Clone, Copy, Debug, Default, PartialEq, Eq)]
pub struct Row {
    /// What it counts.
    pub seen: Seen,
    /// How many messages.
    pub count: u32,
}

/// A day's list: its domain is the first `length` octets, once it is cleared.
#[repr(C)]
#[derive(Clone, Copy, Debug, PartialEq, Eq)]
pub struct List {
    /// Whether it was ever cleared.
    pub cleared: u8,
    /// The policy domain in lower case, and what is past its end.
    pub domain: [u8; 253],
    /// How many octets the policy domain has; over 253, it has all.
    pub length: u16,
}

/// What a verdict says to a list, by numbers.
#[repr(C)]
#[derive(Clone, Copy, Debug, Default, PartialEq, Eq)]
pub struct FindingNumbers {
    /// As a verdict's.
    pub result: u8,
    /// As a verdict's.
    pub disposition: u8,
    /// Whether DKIM aligned.
    pub dkim: u8,
    /// Whether SPF aligned.
    pub spf: u8,
}

/// What is entered: where the message came from, what was found, and the places of
/// its author domain and of its set of identifiers in their lists.
#[repr(C)]
#[derive(Clone, Copy, Debug, Default, PartialEq, Eq)]
pub struct Entry {
    /// 16 octets, IPv4 mapped.
    pub source: [u8; 16],
    /// What was found.
    pub finding: FindingNumbers,
    /// The place of its author domain.
    pub author: u32,
    /// The place of its set.
    pub set: u32,
}

/// The list to go on with, and the refusal.
#[repr(C)]
#[derive(Clone, Copy, Debug, PartialEq, Eq)]
pub struct ListChanged {
    /// The list to go on with.
    pub list: List,
    /// Number 0 where the call is accepted.
    pub refusal: Refusal,
}

/// The rows of a list that a report is written from, gathered of those lent.
#[repr(C)]
#[derive(Clone, Copy, Debug, PartialEq, Eq)]
pub struct Gathered {
    /// The proved code's alone.
    pub count: usize,
    /// The proved code's alone.
    pub octets: [u8; 8192],
}

/// What an evaluation enters at its verdict, of kind [`VERDICT`]; or refused.
#[repr(C)]
#[derive(Clone, Copy, Debug, Default, PartialEq, Eq)]
pub struct Found {
    /// [`VERDICT`] or [`REFUSED`].
    pub kind: u8,
    /// What is entered.
    pub finding: FindingNumbers,
    /// Where the domain of the applied record begins in the author domain.
    pub begin: usize,
    /// The refusal.
    pub refusal: Refusal,
}

/// Settings of a policy record by numbers. `p`, `sp`, `np`: 0 none, 1 quarantine,
/// 2 reject, 3 absent, any other invalid (the reader gives 4). `adkim`, `aspf`: 1
/// strict, any other relaxed (0). `psd`: 1 y, 2 n, any other u (0). `t`: 1 y, any
/// other n (0).
#[allow(missing_docs)]
#[repr(C)]
#[derive(Clone, Copy, Debug, Default, PartialEq, Eq)]
pub struct Settings {
    pub p: u8,
    pub sp: u8,
    pub np: u8,
    pub adkim: u8,
    pub aspf: u8,
    pub psd: u8,
    pub t: u8,
}

/// A policy text as it was read; all is 0 where it is no policy record.
#[repr(C)]
#[derive(Clone, Copy, Debug, Default, PartialEq, Eq)]
pub struct RecordRead {
    /// Whether it is a policy record.
    pub is_record: bool,
    /// Its settings.
    pub settings: Settings,
    /// Whether rua has a valid entry.
    pub reports: bool,
    /// Where the rua text begins in the text.
    pub rua_begin: usize,
    /// How many octets the rua text has; 0 if there is none.
    pub rua_length: usize,
}

/// An Identity-Alignment field as it was read: the methods that it names, 1 or 0.
/// Refused, both are 1.
#[repr(C)]
#[derive(Clone, Copy, Debug, Default, PartialEq, Eq)]
pub struct FieldRead {
    /// The refusal, of number 0 if it was read.
    pub refusal: Refusal,
    /// Whether it names DKIM.
    pub dkim: u8,
    /// Whether it names SPF.
    pub spf: u8,
}

/// Of a check's outcome: a lookup failed.
pub const ADDRESS_NOT_KNOWN: u8 = 0;
/// Of a check's outcome: it did not agree.
pub const ADDRESS_NO: u8 = 1;
/// Of a check's outcome: it is inside.
pub const ADDRESS_INSIDE: u8 = 2;
/// Of a check's outcome: it agreed.
pub const ADDRESS_CONFIRMED: u8 = 3;
/// Of a check's outcome: it agreed, and another text takes its place.
pub const ADDRESS_REPLACED: u8 = 4;

/// The check of a report address between two calls. Its fields are the proved
/// code's alone; any octets in them get an answer.
#[allow(missing_docs)]
#[repr(C)]
#[derive(Clone, Copy, Debug, PartialEq, Eq)]
pub struct Check {
    pub started: u8,
    pub asked: u8,
    pub confirmed: u8,
    pub domains: [u8; 506],
    pub numbers: [u16; 2],
    pub kept: [u16; 48],
    pub count: usize,
    pub point_kind: u8,
    pub organization: usize,
    pub found: u8,
    pub record_begin: usize,
    pub record_settings: usize,
    pub target_begin: usize,
    pub target_wider: usize,
    pub more: usize,
    pub instead_begin: usize,
    pub instead_length: usize,
}

impl Check {
    /// A check of zeros: nothing is started.
    pub const ZEROS: Check = Check {
        started: 0,
        asked: 0,
        confirmed: 0,
        domains: [0; 506],
        numbers: [0; 2],
        kept: [0; 48],
        count: 0,
        point_kind: 0,
        organization: 0,
        found: 0,
        record_begin: 0,
        record_settings: 0,
        target_begin: 0,
        target_wider: 0,
        more: 0,
        instead_begin: 0,
        instead_length: 0,
    };
}

/// What a call of a check gives, by its kind; what its kind does not have is 0,
/// which of an agreement is not known.
#[repr(C)]
#[derive(Clone, Copy, Debug, Default, PartialEq, Eq)]
pub struct CheckGiven {
    /// [`ACCEPTED`], [`ASK`], [`OUTCOME`] or [`REFUSED`].
    pub kind: u8,
    /// Of the outcome: [`ADDRESS_NOT_KNOWN`] to [`ADDRESS_REPLACED`].
    pub agreement: u8,
    /// Of a name to ask: the walk that looks at it first, or 2 for the confirming
    /// name.
    pub walk: usize,
    /// Of a name to ask: where its target begins in that walk's domain.
    pub place: usize,
    /// Of a replaced address: where the text that takes its place begins in the
    /// scratch.
    pub begin: usize,
    /// Of a replaced address: how many octets that text has.
    pub length: usize,
    /// Of the outcome: how many names were asked.
    pub count: usize,
    /// The refusal.
    pub refusal: Refusal,
}

/// The check to go on with, and what the call gives.
#[repr(C)]
#[derive(Clone, Copy, Debug, PartialEq, Eq)]
pub struct CheckCalled {
    /// The check to go on with.
    pub check: Check,
    /// What the call gives.
    pub given: CheckGiven,
}

#[cfg(target_pointer_width = "64")]
const _: () = {
    assert!(size_of::<State>() == 5352);
    assert!(size_of::<Seen>() == 28);
    assert!(size_of::<Row>() == 32);
    assert!(size_of::<List>() == 256);
    assert!(size_of::<Entry>() == 28);
    assert!(size_of::<Gathered>() == 8200);
    assert!(size_of::<Check>() == 704);
};

extern "C" {
    pub(crate) fn waslidhaj_open(
        state: State,
        author: *const u8,
        author_length: usize,
        existence: u8,
        support: u8,
    ) -> Called;

    pub(crate) fn waslidhaj_add(
        state: State,
        kind: u8,
        outcome: u8,
        domain: *const u8,
        domain_length: usize,
    ) -> Called;

    pub(crate) fn waslidhaj_next(state: State) -> Called;

    pub(crate) fn waslidhaj_answer_apart(
        state: State,
        name: *const u8,
        name_length: usize,
        status: u8,
        bytes: *const u8,
        bytes_length: usize,
        scratch: *mut u8,
        scratch_length: usize,
    ) -> Called;

    pub(crate) fn waslidhaj_result(state: State) -> Given;

    pub(crate) fn waslidhaj_field(state: State, out: *mut u8, out_length: usize) -> Given;

    pub(crate) fn waslidhaj_name(
        state: State,
        walk: usize,
        place: usize,
        out: *mut u8,
        out_length: usize,
    ) -> Written;

    pub(crate) fn waslidhaj_domain(
        state: State,
        begin: usize,
        out: *mut u8,
        out_length: usize,
    ) -> Written;

    pub(crate) fn waslidhaj_run_apart(
        sheet: *const u8,
        sheet_length: usize,
        out: *mut u8,
        out_length: usize,
    ) -> usize;

    pub(crate) fn waslidhaj_finding(state: State) -> Found;

    pub(crate) fn waslidhaj_new_list() -> List;

    pub(crate) fn waslidhaj_clear_apart(
        list: List,
        domain: *const u8,
        domain_length: usize,
        rows: *mut Row,
        rows_length: usize,
    ) -> ListChanged;

    pub(crate) fn waslidhaj_enter_apart(
        list: List,
        entry: Entry,
        domain: *const u8,
        domain_length: usize,
        authors: *const u8,
        authors_length: usize,
        sets: *const u8,
        sets_length: usize,
        rows: *mut Row,
        rows_length: usize,
    ) -> ListChanged;

    pub(crate) fn waslidhaj_gather(rows: *const Row, rows_length: usize) -> Gathered;

    pub(crate) fn waslidhaj_report_apart(
        list: List,
        gathered: Gathered,
        settings: Settings,
        authors: *const u8,
        authors_length: usize,
        sets: *const u8,
        sets_length: usize,
        organization: *const u8,
        organization_length: usize,
        email: *const u8,
        email_length: usize,
        contact: *const u8,
        contact_length: usize,
        id: *const u8,
        id_length: usize,
        begin: u64,
        end: u64,
        out: *mut u8,
        out_length: usize,
    ) -> Written;

    pub(crate) fn waslidhaj_subject_apart(
        receiver: *const u8,
        receiver_length: usize,
        domain: *const u8,
        domain_length: usize,
        id: *const u8,
        id_length: usize,
        out: *mut u8,
        out_length: usize,
    ) -> Written;

    pub(crate) fn waslidhaj_file_name_apart(
        receiver: *const u8,
        receiver_length: usize,
        domain: *const u8,
        domain_length: usize,
        begin: u64,
        end: u64,
        has_id: u8,
        id: *const u8,
        id_length: usize,
        out: *mut u8,
        out_length: usize,
    ) -> Written;

    pub(crate) fn waslidhaj_write_record_apart(
        settings: Settings,
        rua: *const u8,
        rua_length: usize,
        out: *mut u8,
        out_length: usize,
    ) -> Written;

    pub(crate) fn waslidhaj_read_record(text: *const u8, text_length: usize) -> RecordRead;

    pub(crate) fn waslidhaj_read_field(text: *const u8, text_length: usize) -> FieldRead;

    pub(crate) fn waslidhaj_check_start_by_value(
        check: Check,
        policy: *const u8,
        policy_length: usize,
        entry: *const u8,
        entry_length: usize,
    ) -> CheckCalled;

    pub(crate) fn waslidhaj_check_next_by_value(check: Check) -> CheckCalled;

    pub(crate) fn waslidhaj_check_answer_by_value(
        check: Check,
        name: *const u8,
        name_length: usize,
        status: u8,
        bytes: *const u8,
        bytes_length: usize,
        scratch: *mut u8,
        scratch_length: usize,
    ) -> CheckCalled;

    pub(crate) fn waslidhaj_check_result_by_value(check: Check) -> CheckGiven;

    pub(crate) fn waslidhaj_check_name_by_value(
        check: Check,
        walk: usize,
        place: usize,
        out: *mut u8,
        out_length: usize,
    ) -> Written;
}
