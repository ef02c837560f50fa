//! The octets of sheets and answers.

use evaluator::txt::Status;

/// The longest character-string.
const MOST_STRING_OCTETS: usize = 255;
/// The longest body of a record, whose length has 16 bits.
pub const MOST_BODY_OCTETS: usize = 65_535;

/// A record of a sheet or of an answer, before it is written.
#[derive(Clone, Debug, PartialEq, Eq)]
pub struct Record {
    pub mark: [u8; 2],
    pub body: Vec<u8>,
}

impl Record {
    pub fn new(mark: &[u8; 2], body: &[u8]) -> Record {
        Record {
            mark: *mark,
            body: body.to_vec(),
        }
    }

    /// "`AU` ...: existence, support, domain"
    pub fn author(existence: u8, support: u8, domain: &[u8]) -> Record {
        Record::new(b"AU", &[&[existence, support], domain].concat())
    }

    /// "`ID`: kind, outcome, domain."
    pub fn identifier(kind: u8, outcome: u8, domain: &[u8]) -> Record {
        Record::new(b"ID", &[&[kind, outcome], domain].concat())
    }

    /// "`AN`: status ..., name length, whole asked name, then ... the answer's
    /// bytes". The length of a name over 255 octets is written as 255.
    pub fn answer(status: u8, name: &[u8], bytes: &[u8]) -> Record {
        let head = [status, name.len().min(255) as u8];
        Record::new(b"AN", &[&head, name, bytes].concat())
    }

    /// Writes the record at the end of a sheet; nothing if its body is too long
    /// for a 16-bit length.
    pub fn push(&self, sheet: &mut Vec<u8>) -> Option<()> {
        let length = u16::try_from(self.body.len()).ok()?;
        sheet.extend(self.mark);
        sheet.extend(length.to_be_bytes());
        sheet.extend(&self.body);
        Some(())
    }
}

/// Records as a sheet; one whose body is too long is left out.
pub fn sheet(records: &[Record]) -> Vec<u8> {
    sheet_and_places(records).0
}

/// Records as a sheet, and where each begins there.
pub fn sheet_and_places(records: &[Record]) -> (Vec<u8>, Vec<usize>) {
    let (mut sheet, mut places) = (Vec::new(), Vec::new());
    for record in records {
        places.push(sheet.len());
        let _ = record.push(&mut sheet);
    }
    (sheet, places)
}

/// Where each record of a well-formed sheet begins.
pub fn places(sheet: &[u8]) -> Vec<usize> {
    let (mut places, mut place) = (Vec::new(), 0);
    while let Some([_, _, high, low, ..]) = sheet.get(place..) {
        places.push(place);
        place += 4 + usize::from(u16::from_be_bytes([*high, *low]));
    }
    places
}

/// The bytes of an answer with these records, each a list of
/// character-strings of at most 255 octets.
pub fn answer_bytes(records: &[Vec<&[u8]>]) -> Option<Vec<u8>> {
    let mut bytes = Vec::new();
    for record in records {
        let mut rdata = Vec::new();
        for string in record {
            rdata.push(u8::try_from(string.len()).ok()?);
            rdata.extend(*string);
        }
        Record::new(b"TX", &rdata).push(&mut bytes)?;
    }
    Some(bytes)
}

/// The bytes of an answer of one record with this text.
pub fn text_answer(text: &[u8]) -> Option<Vec<u8>> {
    answer_bytes(&[cut(text)])
}

/// A text's character-strings: of at most 255 octets, at least one.
pub fn cut(text: &[u8]) -> Vec<&[u8]> {
    match text.is_empty() {
        true => vec![text],
        false => text.chunks(MOST_STRING_OCTETS).collect(),
    }
}

/// "status (0 records, 1 none, 2 error)"
pub fn status_number(status: Status) -> u8 {
    match status {
        Status::Records => 0,
        Status::None => 1,
        Status::Error => 2,
    }
}

pub fn hex(octets: &[u8]) -> String {
    octets.iter().map(|octet| format!("{octet:02x}")).collect()
}
