//! Ask 10 of document 02: "Read the form that Ask 9 writes from any rows, in parts cut
//! anywhere, with nothing kept but a bounded state and the open row."

mod address;
mod choice;
mod form;
mod row;
mod values;

pub use row::{Identifier, Name, Row};

use crate::message::{Kind, MOST_IDENTIFIERS};
use crate::refusal::Refusal;
use crate::rows::MOST_ROWS;
use address::Address;
use choice::Choice;
use form::{behind, content, Content, Place, FAIL, NONE, PASS};
use values::{Id, Labels, Number, Text};

/// "20 text outside the form"
const OUTSIDE: u8 = 20;
/// "22 the text ends early"
const EARLY: u8 = 22;

/// The number of the refusal that an octet gets.
type Fault = u8;

/// What is read of a text so far.
#[derive(Clone, Debug)]
pub struct Reader {
    /// Octets read, "counted from the start".
    read: usize,
    refusal: Option<Refusal>,
    /// The place in the form, and what stands there or behind it.
    place: Place,
    open: Open,
    begin: u64,
    /// The word of the disposition, which decides on those of the methods.
    disposition: u8,
    records: usize,
    /// The domain or selector that is read, and the row.
    name: Name,
    row: Row,
}

/// What the next octet is of.
#[derive(Clone, Debug)]
enum Open {
    Text(Text),
    Id(Id),
    Number(Number),
    Domain(Labels),
    Address(Address),
    Word(Choice<u8>),
    /// The tags behind a value.
    Tags(Choice<Place>),
    /// The text is whole.
    Whole,
}

/// What a part gives.
#[derive(Clone, Copy, Debug, PartialEq, Eq)]
pub struct Step<'r> {
    /// The octets of the part that were read.
    pub read: usize,
    pub told: Told<'r>,
}

/// "Each row is handed out when its record ends".
#[derive(Clone, Copy, Debug, PartialEq, Eq)]
pub enum Told<'r> {
    /// A record ended; what is left of the part is still to be read.
    Row(&'r Row),
    /// All of the part was read.
    More,
    /// "after a refusal every later part gets the same one"
    Refused(Refusal),
}

/// The rows of an uncut text, and whether it is whole.
pub fn read(text: &[u8]) -> (Vec<Row>, Result<(), Refusal>) {
    let (mut reader, mut rows, mut rest) = (Reader::new(), Vec::new(), text);
    loop {
        let step = reader.step(rest);
        rest = rest.get(step.read..).unwrap_or_default();
        match step.told {
            Told::Row(row) => rows.push(row.clone()),
            Told::More => return (rows, reader.end()),
            Told::Refused(refusal) => return (rows, Err(refusal)),
        }
    }
}

impl Default for Reader {
    fn default() -> Reader {
        Reader::new()
    }
}

impl Reader {
    /// A reader of which nothing was read.
    pub fn new() -> Reader {
        Reader {
            read: 0,
            refusal: None,
            place: Place::Start,
            open: Open::Tags(Choice::of(behind(Place::Start), |_| true)),
            begin: 0,
            disposition: 0,
            records: 0,
            name: Name::default(),
            row: Row::default(),
        }
    }

    /// Reads a part as far as the end of a record, a refusal, or its own end.
    pub fn step(&mut self, part: &[u8]) -> Step<'_> {
        if let Some(refusal) = self.refusal {
            let told = Told::Refused(refusal);
            return Step { read: 0, told };
        }
        let mut read = 0;
        while let Some((octet, rest)) = part.get(read..).and_then(<[u8]>::split_first) {
            match self.take(*octet) {
                Ok(Ends::Nothing) => read += 1 + self.run(rest),
                Ok(Ends::Record) => {
                    read += 1;
                    self.read += read;
                    let told = Told::Row(&self.row);
                    return Step { read, told };
                }
                Err(fault) => {
                    self.read += read;
                    let refusal = Refusal::new(fault, self.read);
                    self.refusal = Some(refusal);
                    let told = Told::Refused(refusal);
                    return Step { read, told };
                }
            }
        }
        self.read += read;
        let told = Told::More;
        Step { read, told }
    }

    /// The end is declared: 22 "at its length, only when the end is declared".
    pub fn end(&mut self) -> Result<(), Refusal> {
        if self.refusal.is_none() && !matches!(self.open, Open::Whole) {
            self.refusal = Some(Refusal::new(EARLY, self.read));
        }
        self.refusal.map_or(Ok(()), Err)
    }
}

/// Whether an octet ends a record.
#[derive(Clone, Copy, PartialEq, Eq)]
enum Ends {
    Nothing,
    Record,
}

/// How many octets are taken, one after the other.
fn taken(rest: &[u8], mut take: impl FnMut(u8) -> Result<(), Fault>) -> usize {
    let taken = rest.iter().take_while(|octet| take(**octet).is_ok());
    taken.count()
}

impl Reader {
    /// One octet more, or "the first octet ... that no such text can have there".
    fn take(&mut self, octet: u8) -> Result<Ends, Fault> {
        if octet == b'<' && self.may_end() {
            self.close()?;
            self.go_behind();
        }
        match &mut self.open {
            Open::Text(text) => text.take(octet)?,
            Open::Id(id) => id.take(octet)?,
            Open::Number(number) => number.take(octet)?,
            Open::Domain(labels) => labels.take(octet, &mut self.name)?,
            Open::Address(address) => address.take(octet)?,
            Open::Word(word) => {
                if let Some(word) = word.take(octet)? {
                    self.note(word);
                    self.go_behind();
                }
            }
            Open::Tags(tags) => {
                if let Some(place) = tags.take(octet)? {
                    return Ok(self.go_to(place));
                }
            }
            Open::Whole => return Err(OUTSIDE),
        }
        Ok(Ends::Nothing)
    }

    /// How many octets more are of the value or the tags that are read, and end nothing.
    fn run(&mut self, rest: &[u8]) -> usize {
        match &mut self.open {
            Open::Text(text) => taken(rest, |octet| text.take(octet)),
            Open::Id(id) => taken(rest, |octet| id.take(octet)),
            Open::Number(number) => taken(rest, |octet| number.take(octet)),
            Open::Domain(labels) => taken(rest, |octet| labels.take(octet, &mut self.name)),
            Open::Address(address) => taken(rest, |octet| address.take(octet)),
            Open::Tags(tags) => tags.run(rest),
            Open::Word(_) | Open::Whole => 0,
        }
    }

    /// Whether the value that is read can have its end here. A word ends by itself.
    fn may_end(&self) -> bool {
        match &self.open {
            Open::Text(text) => text.may_end(),
            Open::Id(id) => id.may_end(),
            Open::Number(number) => number.may_end(),
            Open::Domain(labels) => labels.may_end(),
            Open::Address(address) => address.may_end(),
            Open::Word(_) | Open::Tags(_) | Open::Whole => false,
        }
    }

    /// Keeps a value that ends: "an end below begin at the `<` after it".
    fn close(&mut self) -> Result<(), Fault> {
        match (self.place, &self.open) {
            (Place::Begin, Open::Number(number)) => self.begin = number.value(),
            (Place::End, Open::Number(number)) if number.value() < self.begin => {
                return Err(OUTSIDE)
            }
            (Place::Count, Open::Number(number)) => self.row.count = number.value() as u32,
            (Place::Source, Open::Address(address)) => self.row.source = address.octets(),
            (Place::Author, _) => self.row.author = self.name,
            (Place::DkimDomain | Place::SpfDomain, _) => self.row.open().domain = self.name,
            (Place::DkimSelector, _) => self.row.open().selector = self.name,
            _ => {}
        }
        Ok(())
    }

    /// Keeps a word: "`pass` as none", which it was written for.
    fn note(&mut self, word: u8) {
        match self.place {
            Place::Disposition => {
                self.disposition = word;
                self.row.disposition = if word == PASS { NONE } else { word };
            }
            Place::Dkim => self.row.dkim = word != FAIL,
            Place::Spf => self.row.spf = word != FAIL,
            Place::DkimResult => self.row.close(Kind::Dkim, word),
            Place::SpfResult => self.row.close(Kind::Spf, word),
            _ => {}
        }
    }

    /// What stands behind the value that was read.
    fn go_behind(&mut self) {
        let (identifiers, records) = (self.row.identifiers().len(), self.records);
        let tags = Choice::of(behind(self.place), |place| match place {
            Place::DkimDomain | Place::SpfDomain => identifiers < MOST_IDENTIFIERS,
            Place::Source => records < MOST_ROWS,
            _ => true,
        });
        self.open = Open::Tags(tags);
    }

    /// A place is reached, its tags being read.
    fn go_to(&mut self, place: Place) -> Ends {
        self.place = place;
        self.open = match content(place) {
            Content::Text => Open::Text(Text::default()),
            Content::Id => Open::Id(Id::default()),
            Content::Number { least, most } => Open::Number(Number::of(least, most)),
            Content::Domain => {
                self.name.clear();
                Open::Domain(Labels::default())
            }
            Content::Address => {
                self.row.clear();
                Open::Address(Address::default())
            }
            Content::Word(words) => Open::Word(Choice::of(words, |word| self.fits(place, word))),
            Content::Nothing if place == Place::RecordEnd => {
                self.records += 1;
                self.go_behind();
                return Ends::Record;
            }
            Content::Nothing => Open::Whole,
        };
        Ends::Nothing
    }

    /// "disposition none with a method aligned `pass`": so `none` stands beside no
    /// aligned method, and `pass` beside one or two.
    fn fits(&self, place: Place, aligned: u8) -> bool {
        match (place, self.disposition) {
            (Place::Dkim | Place::Spf, NONE) => aligned == FAIL,
            (Place::Spf, PASS) => aligned != FAIL || self.row.dkim,
            _ => true,
        }
    }
}
