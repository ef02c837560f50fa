//! The reader of reports, as C has it: its two parts, and where the open row stands
//! in them. All that knows how they are laid out is here.

use std::net::Ipv4Addr;

use super::Refusal;
use crate::{DOMAIN_OCTETS, IDENTIFIERS};

/// The octets in which a reader keeps the open row.
pub const ROW_OCTETS: usize = 8432;

/// An event: the part is used up; of an end, it is accepted.
pub const READ_MORE: u8 = 0;
/// An event: a row is handed out.
pub const READ_ROW: u8 = 1;
/// An event: refused.
pub const READ_REFUSED: u8 = 2;

/// Where the source begins in the open row: 16 octets. Of a dotted one the last four
/// are written alone.
pub const ROW_SOURCE: usize = 0;
/// Where the author domain begins in the open row.
pub const ROW_AUTHOR: usize = 16;
/// Where the first identifier begins in the open row.
pub const ROW_IDENTIFIERS: usize = 272;
/// The octets of an identifier in the open row.
pub const ROW_IDENTIFIER_OCTETS: usize = 510;
/// Where the domain begins in an identifier.
pub const ROW_DOMAIN: usize = 0;
/// Where the selector begins in an identifier.
pub const ROW_SELECTOR: usize = 253;
/// Where the length of its domain stands in an identifier.
pub const ROW_DOMAIN_LENGTH: usize = 506;
/// Where the length of its selector stands in an identifier.
pub const ROW_SELECTOR_LENGTH: usize = 507;
/// Where the outcome stands in an identifier.
pub const ROW_OUTCOME: usize = 508;
/// Where the kind stands in an identifier.
pub const ROW_KIND: usize = 509;

/// The kind of a source that is dotted, in a reader's numbers.
pub const ROW_IS_DOTTED: u8 = 1;
/// The disposition quarantine in a reader's numbers, as the report spells it; before
/// it stand `pass` and none, which both mean none.
pub const ROW_QUARANTINE: u8 = 2;
/// The disposition reject in a reader's numbers.
pub const ROW_REJECT: u8 = 3;

/// The numbers of a reader between two calls. Its fields are the proved code's
/// alone; any octets in them get an answer.
#[allow(missing_docs)]
#[repr(C)]
#[derive(Clone, Copy, Debug, Default, PartialEq, Eq)]
pub struct ReaderState {
    pub taken: u64,
    pub refused: u64,
    pub value: u64,
    pub begin: u64,
    pub count: u64,
    pub length: u16,
    pub left: u16,
    pub ten: u16,
    pub sixteen: u16,
    pub node: u8,
    pub which: u8,
    pub at: u8,
    pub label: u8,
    pub some: u8,
    pub disposition: u8,
    pub dkim: u8,
    pub spf: u8,
    pub kind: u8,
    pub digits: u8,
    pub numbers: u8,
    pub author: u8,
    pub identifiers: u8,
    pub domain: u8,
    pub selector: u8,
    pub outcome: u8,
}

/// What a call tells.
#[repr(C)]
#[derive(Clone, Copy, Debug, Default, PartialEq, Eq)]
pub struct Told {
    /// [`READ_MORE`], [`READ_ROW`] or [`READ_REFUSED`].
    pub event: u64,
    /// The refusal's number, of an event that is refused.
    pub number: u64,
    /// Its place, likewise.
    pub place: u64,
    /// How many messages the row has that is handed out; else 0.
    pub count: u64,
}

/// The numbers to go on with, and what a part gives.
#[repr(C)]
#[derive(Clone, Copy, Debug, PartialEq, Eq)]
pub struct Fed {
    /// The numbers to go on with.
    pub state: ReaderState,
    /// How many octets of the part are used: up to the end of a record, or all.
    pub used: usize,
    /// What there is to tell.
    pub told: Told,
}

/// The numbers to go on with, and what a declared end gives.
#[repr(C)]
#[derive(Clone, Copy, Debug, PartialEq, Eq)]
pub struct Ended {
    /// The numbers to go on with.
    pub state: ReaderState,
    /// What there is to tell.
    pub told: Told,
}

/// A reader between two calls: its numbers and the open row.
#[repr(C)]
#[derive(Clone, Copy, Debug, PartialEq, Eq)]
pub struct Reader {
    /// Its numbers.
    pub state: ReaderState,
    /// The open row.
    pub row: [u8; 8432],
}

/// The row that was handed out.
#[derive(Clone, Copy, Debug, PartialEq, Eq)]
pub struct Received<'a> {
    /// Where the messages came from: 16 octets, IPv4 mapped.
    pub source: [u8; 16],
    /// How many messages.
    pub count: u32,
    /// 0 none, 1 quarantine, 2 reject.
    pub disposition: u8,
    /// Whether DKIM aligned.
    pub dkim: u8,
    /// Whether SPF aligned.
    pub spf: u8,
    /// The author domain.
    pub author: &'a [u8],
    /// How many identifiers.
    pub identifiers: usize,
}

/// An identifier of the row that was handed out.
#[derive(Clone, Copy, Debug, Default, PartialEq, Eq)]
pub struct ReceivedIdentifier<'a> {
    /// 0 SPF, 1 DKIM.
    pub kind: u8,
    /// 0 not passing, 1 pass, 2 temporary error.
    pub outcome: u8,
    /// Its domain.
    pub domain: &'a [u8],
    /// Its selector, empty for SPF.
    pub selector: &'a [u8],
}

impl Told {
    /// Whether this is the event.
    pub fn is(&self, event: u8) -> bool {
        self.event == u64::from(event)
    }

    /// The refusal, of an event that is refused.
    pub fn refusal(&self) -> Refusal {
        Refusal {
            number: u8::try_from(self.number).unwrap_or(u8::MAX),
            place: usize::try_from(self.place).unwrap_or(usize::MAX),
        }
    }
}

impl Reader {
    /// The row that the last call told of, if it told of one; of any octets that the
    /// reader has.
    pub fn received(&self, told: Told) -> Option<Received<'_>> {
        let Reader { state, row } = self;
        told.is(READ_ROW).then(|| Received {
            source: self.source(),
            count: u32::try_from(told.count).unwrap_or(u32::MAX),
            disposition: match state.disposition {
                ROW_QUARANTINE => 1,
                ROW_REJECT => 2,
                _ => 0,
            },
            dkim: state.dkim,
            spf: state.spf,
            author: name(row, ROW_AUTHOR, state.author),
            identifiers: self.identifiers(),
        })
    }

    /// An identifier of that row by its index from 0; past the last one there is
    /// none.
    pub fn identifier(&self, index: usize) -> Option<ReceivedIdentifier<'_>> {
        if index >= self.identifiers() {
            return None;
        }
        let begin = ROW_IDENTIFIERS + index * ROW_IDENTIFIER_OCTETS;
        let own = &self.row[begin..begin + ROW_IDENTIFIER_OCTETS];
        let kind = own[ROW_KIND];
        let selector = name(own, ROW_SELECTOR, own[ROW_SELECTOR_LENGTH]);
        Some(ReceivedIdentifier {
            kind,
            outcome: own[ROW_OUTCOME],
            domain: name(own, ROW_DOMAIN, own[ROW_DOMAIN_LENGTH]),
            selector: if kind == 1 { selector } else { &[] },
        })
    }

    fn identifiers(&self) -> usize {
        usize::from(self.state.identifiers).min(IDENTIFIERS)
    }

    fn source(&self) -> [u8; 16] {
        let mut source = [0; 16];
        source.copy_from_slice(&self.row[ROW_SOURCE..ROW_SOURCE + 16]);
        match (self.state.kind, source) {
            (ROW_IS_DOTTED, [.., a, b, c, d]) => {
                Ipv4Addr::new(a, b, c, d).to_ipv6_mapped().octets()
            }
            (_, source) => source,
        }
    }
}

/// The octets of a domain or a selector, as many as there can be at the most.
fn name(octets: &[u8], begin: usize, length: u8) -> &[u8] {
    &octets[begin..begin + usize::from(length).min(DOMAIN_OCTETS)]
}

#[cfg(target_pointer_width = "64")]
const _: () = {
    assert!(size_of::<ReaderState>() == 64);
    assert!(size_of::<Told>() == 32);
    assert!(size_of::<Fed>() == 104);
    assert!(size_of::<Ended>() == 96);
    assert!(size_of::<Reader>() == 8496);
    assert!(ROW_IDENTIFIERS + IDENTIFIERS * ROW_IDENTIFIER_OCTETS == ROW_OCTETS);
};

extern "C" {
    pub(crate) fn waslidhaj_new_reader() -> ReaderState;

    pub(crate) fn waslidhaj_read_apart(
        state: ReaderState,
        part: *const u8,
        part_length: usize,
        row: *mut u8,
    ) -> Fed;

    pub(crate) fn waslidhaj_end(state: ReaderState) -> Ended;
}

#[cfg(test)]
mod tests {
    use super::*;

    const ROW: Told = Told {
        event: 1,
        number: 0,
        place: 0,
        count: u64::MAX,
    };

    fn filled(octet: u8) -> Reader {
        let state = ReaderState {
            author: octet,
            identifiers: octet,
            disposition: octet,
            kind: octet,
            ..ReaderState::default()
        };
        let row = [octet; ROW_OCTETS];
        Reader { state, row }
    }

    /// Whatever octets a reader has, its row lies within it.
    #[test]
    fn any_octets() {
        for octet in [0, 1, 17, 253, 254, 255] {
            let reader = filled(octet);
            let row = reader.received(ROW).expect("a row");
            assert_eq!((row.count, row.disposition), (u32::MAX, 0));
            assert_eq!(row.author.len(), usize::from(octet).min(253));
            assert_eq!(row.identifiers, usize::from(octet).min(16));
            for index in 0..row.identifiers {
                let own = reader.identifier(index).expect("an identifier");
                assert_eq!(own.domain.len(), usize::from(octet).min(253));
                assert_eq!(own.selector.len(), usize::from(octet == 1));
                assert_eq!((own.kind, own.outcome), (octet, octet));
            }
            assert_eq!(reader.identifier(row.identifiers), None);
        }
    }

    /// Of a dotted source the octets before it are another row's.
    #[test]
    fn sources() {
        let source = |octet| filled(octet).received(ROW).expect("a row").source;
        assert_eq!(source(2), [2; 16]);
        assert_eq!(source(0), [0; 16]);
        let mapped = [0, 0, 0, 0, 0, 0, 0, 0, 0, 0, 255, 255, 1, 1, 1, 1];
        assert_eq!(source(1), mapped);
    }

    /// Without a row that is told of there is none, and any refusal has a number.
    #[test]
    fn what_is_told() {
        for event in [0, 2, 257] {
            assert_eq!(filled(1).received(Told { event, ..ROW }), None);
        }
        let told = Told {
            number: 256,
            place: 7,
            ..ROW
        };
        let (number, place) = (255, 7);
        assert_eq!(told.refusal(), Refusal { number, place });
    }
}
