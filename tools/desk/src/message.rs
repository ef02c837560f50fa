//! DNS messages, as far as a server of TXT records needs them: RFC 1035, and of
//! RFC 6891 the room that a client has for a reply.

pub const CNAME: u16 = 5;
pub const TXT: u16 = 16;
const OPT: u16 = 41;
const IN: u16 = 1;

/// Flags of a header: a reply to one who wants recursion; that recursion is to be
/// had; that the reply is cut off.
const REPLY: u16 = 0x8100;
const RECURSION: u16 = 0x0080;
const CUT_OFF: u16 = 0x0200;

/// A message's first octets, before its question.
const HEADER: usize = 12;
/// The room of a client that says nothing of it.
const LEAST_ROOM: usize = 512;
/// The room that this server says it has itself.
const OWN_ROOM: u16 = 8192;
/// The seconds that a record may be kept.
const TTL: u32 = 60;

/// A reply's code.
#[derive(Clone, Copy, Debug, PartialEq, Eq)]
pub enum Code {
    NoError = 0,
    ServerFailure = 2,
    NoSuchName = 3,
}

/// A record of a reply.
#[derive(Clone, Debug, PartialEq, Eq)]
pub struct Record {
    pub name: String,
    pub kind: u16,
    pub data: Vec<u8>,
}

/// A question as it came.
#[derive(Clone, Debug, PartialEq, Eq)]
pub struct Query {
    id: u16,
    /// In lower case.
    pub name: String,
    pub kind: u16,
    /// How many octets of a reply the client takes over UDP.
    pub room: usize,
    /// The question's octets, to be given back.
    question: Vec<u8>,
    extended: bool,
}

impl Query {
    /// Reads a message of one question, and an OPT record after it if one is there.
    pub fn read(octets: &[u8]) -> Option<Query> {
        let mut rest = octets;
        let header: Vec<u16> = (0..6).map_while(|_| number(&mut rest)).collect();
        let [id, flags, 1, 0, 0, _] = header[..] else {
            return None;
        };
        let is_reply = flags >> 15 == 1;
        if is_reply {
            return None;
        }
        let name = name(&mut rest)?;
        let kind = number(&mut rest)?;
        number(&mut rest).filter(|class| *class == IN)?;
        let question = octets.get(HEADER..octets.len() - rest.len())?.to_vec();
        let extended = room(rest);
        Some(Query {
            id,
            name,
            kind,
            room: extended.map_or(LEAST_ROOM, |room| LEAST_ROOM.max(usize::from(room))),
            question,
            extended: extended.is_some(),
        })
    }

    /// A reply with these records.
    pub fn reply(&self, code: Code, answers: &[Record]) -> Vec<u8> {
        let mut reply = self.head(code as u16 | RECURSION, answers.len() as u16);
        for record in answers {
            reply.extend(record.octets());
        }
        reply.extend(self.tail());
        reply
    }

    /// A reply that says that it is cut off: the client asks again over TCP.
    pub fn cut_off(&self) -> Vec<u8> {
        [self.head(CUT_OFF | RECURSION, 0), self.tail()].concat()
    }

    /// A reply without records, of a server that has no authority and asks no
    /// other: the client should ask elsewhere.
    pub fn referral(&self) -> Vec<u8> {
        [self.head(0, 0), self.tail()].concat()
    }

    /// A reply whose one record goes on past the end.
    pub fn damaged(&self) -> Vec<u8> {
        let record = Record {
            name: self.name.clone(),
            kind: TXT,
            data: text_data(&[b"v=DMARC1; p=none".to_vec()]),
        };
        let mut reply = self.head(RECURSION, 1);
        reply.extend(record.octets());
        reply.truncate(reply.len() - 4);
        reply
    }

    /// Header and question of a reply.
    fn head(&self, flags: u16, answers: u16) -> Vec<u8> {
        let more = u16::from(self.extended);
        let numbers = [self.id, REPLY | flags, 1, answers, 0, more];
        let mut head: Vec<u8> = numbers.iter().flat_map(|n| n.to_be_bytes()).collect();
        head.extend(&self.question);
        head
    }

    /// The OPT record, where the client sent one.
    fn tail(&self) -> Vec<u8> {
        let mut tail = vec![0];
        tail.extend(OPT.to_be_bytes());
        tail.extend(OWN_ROOM.to_be_bytes());
        tail.extend([0; 6]);
        tail.truncate(if self.extended { tail.len() } else { 0 });
        tail
    }
}

impl Record {
    fn octets(&self) -> Vec<u8> {
        let mut octets = name_octets(&self.name);
        octets.extend(self.kind.to_be_bytes());
        octets.extend(IN.to_be_bytes());
        octets.extend(TTL.to_be_bytes());
        octets.extend((self.data.len() as u16).to_be_bytes());
        octets.extend(&self.data);
        octets
    }
}

/// The data of a TXT record: each string with its length before it.
pub fn text_data(strings: &[Vec<u8>]) -> Vec<u8> {
    let mut data = Vec::new();
    for string in strings {
        data.push(u8::try_from(string.len()).expect("a string of at most 255 octets"));
        data.extend(string);
    }
    data
}

/// A name in labels, each with its length before it, and the root's.
pub fn name_octets(name: &str) -> Vec<u8> {
    let mut octets = Vec::new();
    for label in name.split('.') {
        octets.push(u8::try_from(label.len()).expect("a label of at most 63 octets"));
        octets.extend(label.bytes());
    }
    octets.push(0);
    octets
}

fn take<'a>(rest: &mut &'a [u8], length: usize) -> Option<&'a [u8]> {
    let (taken, after) = rest.split_at_checked(length)?;
    *rest = after;
    Some(taken)
}

fn number(rest: &mut &[u8]) -> Option<u16> {
    let octets = take(rest, 2)?;
    Some(u16::from_be_bytes([octets[0], octets[1]]))
}

/// A name in labels, as text in lower case. A question has it without pointers.
fn name(rest: &mut &[u8]) -> Option<String> {
    let mut labels = Vec::new();
    loop {
        let length = usize::from(take(rest, 1)?[0]);
        if length == 0 {
            return Some(labels.join("."));
        }
        let label = String::from_utf8(take(rest, length)?.to_vec()).ok()?;
        labels.push(label.to_ascii_lowercase());
    }
}

/// The room that an OPT record tells, if one comes next.
fn room(mut rest: &[u8]) -> Option<u16> {
    name(&mut rest).filter(String::is_empty)?;
    number(&mut rest).filter(|kind| *kind == OPT)?;
    number(&mut rest)
}
