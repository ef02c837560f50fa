//! Sheets, answers and outputs put together octet by octet, without any
//! package's own writers.

/// E and Y of document 01's marked sheets.
pub const E: &str = "v=DMARC1; p=reject; sp=quarantine; np=reject; aspf=s";
pub const Y: &str = "v=DMARC1; p=reject; psd=y";

/// A mark, a 16-bit length (high octet first), a body.
pub fn record(mark: &[u8; 2], body: &[u8]) -> Vec<u8> {
    let length = u16::try_from(body.len()).expect("a body of 16 bits");
    let mut octets = mark.to_vec();
    octets.push((length >> 8) as u8);
    octets.push((length & 255) as u8);
    octets.extend(body);
    octets
}

/// A TX record with these character-strings.
pub fn tx(strings: &[&[u8]]) -> Vec<u8> {
    let mut rdata = Vec::new();
    for string in strings {
        rdata.push(u8::try_from(string.len()).expect("a string of 255 octets"));
        rdata.extend(*string);
    }
    record(b"TX", &rdata)
}

pub fn au(existence: u8, support: u8, domain: &[u8]) -> Vec<u8> {
    record(b"AU", &[&[existence, support], domain].concat())
}

pub fn id(kind: u8, outcome: u8, domain: &[u8]) -> Vec<u8> {
    record(b"ID", &[&[kind, outcome], domain].concat())
}

pub fn an(status: u8, name: &[u8], bytes: &[u8]) -> Vec<u8> {
    let length = u8::try_from(name.len()).expect("a name of 255 octets");
    record(b"AN", &[&[status, length], name, bytes].concat())
}

/// An answer of one record with a short text.
pub fn an_text(name: &str, text: &str) -> Vec<u8> {
    an(0, name.as_bytes(), &tx(&[text.as_bytes()]))
}

pub fn an_none(name: &str) -> Vec<u8> {
    an(1, name.as_bytes(), b"")
}

pub fn an_error(name: &str) -> Vec<u8> {
    an(2, name.as_bytes(), b"")
}

pub fn run(sheet: &[u8]) -> String {
    String::from_utf8(evaluator::sheet::run(sheet)).expect("an output in ASCII")
}

/// Result, policy and disposition, apart.
pub fn three(words: &str) -> [&str; 3] {
    let words: Vec<&str> = words.split(' ').collect();
    words.try_into().expect("three words")
}

/// The whole output of a verdict: the names asked, without their `_dmarc.`;
/// result, policy and disposition.
pub fn printed(asked: &[&str], words: &str) -> String {
    let asks = asked.iter().map(|name| format!("ask _dmarc.{name}\n"));
    let [result, policy, disposition] = three(words);
    asks.collect::<String>()
        + &format!("result {result}\npolicy {policy}\ndisposition {disposition}\n")
        + &format!("asked {}\n", asked.len())
}
