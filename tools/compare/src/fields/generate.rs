//! Fields from a seed: good ones, ones that name a method again or are nested too
//! deep, and such as have something put in, left out or changed.

use sheets::random::Random;

const NAME: &[u8] = b"Identity-Alignment:";
/// What may be named, as a list of words.
const GOOD: &[&[&str]] = &[
    &["none"],
    &["dkim"],
    &["spf"],
    &["dkim", "spf"],
    &["spf", "dkim"],
];
const AGAIN: &[&[&str]] = &[
    &["dkim", "dkim"],
    &["spf", "spf"],
    &["dkim", "spf", "dkim"],
    &["dkim", "spf", "spf"],
    &["spf", "dkim", "spf"],
    &["spf", "dkim", "dkim", "spf"],
    &["dkim", "dkim", "none"],
    &["spf", "spfspf"],
    &["dkim", "dkimx"],
];
/// What may not be named.
const BAD: &[&[&str]] = &[
    &["none", "dkim"],
    &["none", "none"],
    &["dkim", "none"],
    &["dkim", "spf", "none"],
    &["dkimspf"],
    &["dkim spf"],
    &["nonedkim"],
    &["dkim", ""],
    &["", "spf"],
    &[""],
    &["dkim", "", "spf"],
    &["arc"],
    &["dkim", "dki"],
    &["dkim", "dkix"],
    &["spf", "sp"],
    &["spf", "spg"],
    &["non"],
    &["\"none\""],
];
/// What is put in at any place.
const PIECES: &[&[u8]] = &[
    b",",
    b"(",
    b")",
    b"\\",
    b"\\(",
    b"\\)",
    b"()",
    b" ",
    b"\t",
    b"\r",
    b"\n",
    b"\r\n",
    b"\n\r",
    b"\r\n ",
    b" \r\n\t",
    b"\r\n \r\n ",
    b"\r\n\r\n ",
    b"none",
    b"dkim",
    b"SPF",
    b", spf",
    b",dkim",
    b"(((((((((",
    b"\0",
    b"\\\0",
    b"\\\r",
    b"\x0b",
    b"\x7f",
    b"\\\x7f",
    b"\x80",
    b"\xc3\xa9",
    b":",
    b";",
    b"\"",
];
/// Of comments.
const WORDS: &[&str] = &[
    "a", "x-1", "dkim", "none", "spf,", "~", "!", "'", "*", "[", "]", ":;,", "{=}", "failed",
];

/// The field of a seed and index.
pub fn field(seed: u64, index: u64) -> Vec<u8> {
    let mut random = Random::of(seed ^ 0x6669_656c_6473, index);
    let random = &mut random;
    match random.below(100) {
        0..=63 => unhurt(random),
        64..=96 => {
            let mut text = unhurt(random);
            for _ in 0..random.pick(&[1, 1, 1, 1, 2, 3]) {
                hurt(random, &mut text);
            }
            text
        }
        _ => pieces(random),
    }
}

/// One that is read, or refused for what its list or its depth says.
fn unhurt(random: &mut Random) -> Vec<u8> {
    let (words, depth) = match random.below(64) {
        0..=25 => (GOOD, None),
        26..=36 => (AGAIN, None),
        37..=52 => (GOOD, Some(depth(random))),
        53..=56 => (AGAIN, Some(depth(random))),
        _ => (BAD, None),
    };
    let words = random.pick(words);
    Writer::new(random).field(words, depth)
}

/// Around the deepest that is allowed.
fn depth(random: &mut Random) -> usize {
    random.pick(&[7, 8, 8, 9, 9, 9, 10])
}

/// Pieces of fields and any octets, behind a name or not.
fn pieces(random: &mut Random) -> Vec<u8> {
    let mut text = match random.percent(70) {
        true => NAME.to_vec(),
        false => Vec::new(),
    };
    for _ in 0..random.below(12) {
        match random.percent(80) {
            true => text.extend(random.pick(PIECES)),
            false => text.push(random.octet()),
        }
    }
    text
}

/// Does one thing to a text that may make it another one.
fn hurt(random: &mut Random, text: &mut Vec<u8>) {
    let place = place(random, text);
    match random.below(15) {
        0 | 1 => text.insert(place, random.octet()),
        2 | 3 => replace(text, place..place + 1, &[random.octet()]),
        4 => replace(text, place..place + 1, b""),
        5 => {
            let octet: Vec<u8> = text.get(place).copied().into_iter().collect();
            replace(text, place..place, &octet);
        }
        6 => text.truncate(place),
        7 if place + 1 < text.len() => text.swap(place, place + 1),
        7..=9 => replace(text, place..place, random.pick(PIECES)),
        10 => at_a_fold(random, text),
        11 => at_the_colon(random, text),
        12 => in_a_comment(random, text),
        13 => text.extend(random.pick(PIECES)),
        _ => text.truncate(text.len().saturating_sub(random.between(1, 2))),
    }
}

/// Mostly behind the name.
fn place(random: &mut Random, text: &[u8]) -> usize {
    match random.percent(85) && text.len() > NAME.len() {
        true => random.between(NAME.len(), text.len()),
        false => random.below(text.len() + 1),
    }
}

fn replace(text: &mut Vec<u8>, range: std::ops::Range<usize>, by: &[u8]) {
    let end = range.end.min(text.len());
    text.splice(range.start.min(end)..end, by.iter().copied());
}

/// One of the places where a part stands, or 0.
fn found(random: &mut Random, text: &[u8], part: &[u8]) -> usize {
    let all = text.windows(part.len()).enumerate();
    let all = all.filter(|(_, own)| *own == part);
    let places: Vec<usize> = all.map(|(place, _)| place).collect();
    random.pick(&places)
}

/// A CR LF doubled or hurt, or the blank behind it left out.
fn at_a_fold(random: &mut Random, text: &mut Vec<u8>) {
    let place = found(random, text, b"\r\n");
    if random.percent(20) {
        return replace(text, place + 2..place + 3, b"");
    }
    let by: &[u8] = random.pick(&[
        b"\r\n\r\n".as_slice(),
        b"\r\n \r\n",
        b"\r\n\t\r\n \r\n",
        b"\r",
        b"\n",
        b"\n\r",
        b"\r\r\n",
        b"\r\n ",
        b" ",
    ]);
    replace(text, place..place + 2, by);
}

/// What a comment cannot have, right behind a parenthesis.
fn in_a_comment(random: &mut Random, text: &mut Vec<u8>) {
    let place = found(random, text, b"(") + 1;
    let by: &[u8] = random.pick(&[
        b"\0".as_slice(),
        b"\x01",
        b"\x0b",
        b"\x1f",
        b"\x7f",
        b"\x80",
        b"\xff",
        b"\\\0",
        b"\\\x07",
        b"\\\r\n ",
        b"\\\x7f",
        b"\\\xa0",
        b"\n",
        b"\r",
    ]);
    replace(text, place..place, by);
}

/// The colon left out, doubled, or not where it must be.
fn at_the_colon(random: &mut Random, text: &mut Vec<u8>) {
    let place = text.iter().position(|octet| *octet == b':').unwrap_or(0);
    let by: &[u8] = random.pick(&[
        b"".as_slice(),
        b" :",
        b"\t:",
        b"::",
        b";",
        b"(a):",
        b"\r\n :",
    ]);
    replace(text, place..place + 1, by);
}

/// Writes a field as the grammar has it.
struct Writer<'r> {
    random: &'r mut Random,
    text: Vec<u8>,
}

impl Writer<'_> {
    fn new(random: &mut Random) -> Writer<'_> {
        Writer {
            random,
            text: Vec::new(),
        }
    }

    /// These words with blanks and comments between them, in one place a comment
    /// that is nested so deep.
    fn field(mut self, words: &[&str], depth: Option<usize>) -> Vec<u8> {
        let deep = self.random.below(2 * words.len());
        let plain = self.random.percent(20);
        self.in_some_case(NAME);
        for (index, word) in words.iter().enumerate() {
            if index > 0 {
                self.between(depth.filter(|_| deep == 2 * index - 1), plain);
                self.text.push(b',');
            }
            self.between(depth.filter(|_| deep == 2 * index), plain);
            self.in_some_case(word.as_bytes());
        }
        self.between(depth.filter(|_| deep + 1 == 2 * words.len()), plain);
        self.text.extend(b"\r\n");
        self.text
    }

    fn in_some_case(&mut self, word: &[u8]) {
        let style = self.random.below(6);
        for octet in word {
            let octet = match style {
                0 => octet.to_ascii_uppercase(),
                1 => octet.to_ascii_lowercase(),
                2 if self.random.percent(50) => {
                    octet ^ (u8::from(octet.is_ascii_alphabetic()) << 5)
                }
                _ => *octet,
            };
            self.text.push(octet);
        }
    }

    /// Blanks and comments, or nothing.
    fn between(&mut self, depth: Option<usize>, plain: bool) {
        match depth {
            Some(depth) => {
                self.maybe_blanks(50);
                self.nested(depth);
                self.maybe_blanks(50);
            }
            None if plain => self.text.extend(self.random.pick(&["", "", " "]).bytes()),
            None => {
                for _ in 0..self.random.pick(&[0, 0, 0, 1, 1, 2]) {
                    self.maybe_blanks(60);
                    self.comment(3);
                }
                self.maybe_blanks(60);
            }
        }
    }

    fn maybe_blanks(&mut self, rate: usize) {
        if self.random.percent(rate) {
            self.blanks();
        }
    }

    /// FWS
    fn blanks(&mut self) {
        if self.random.percent(35) {
            for _ in 0..self.random.pick(&[0, 0, 1, 2]) {
                self.blank();
            }
            self.text.extend(b"\r\n");
        }
        for _ in 0..self.random.pick(&[1, 1, 1, 2, 5]) {
            self.blank();
        }
    }

    fn blank(&mut self) {
        let octet = self.random.pick(b"   \t");
        self.text.push(octet);
    }

    /// A comment with others in it, so many levels at the most.
    fn comment(&mut self, levels: usize) {
        let pieces = match self.random.below(150) {
            0 => self.random.between(200, 1_000),
            _ => self.random.below(4),
        };
        self.text.push(b'(');
        for _ in 0..pieces {
            self.piece(levels);
        }
        self.maybe_blanks(20);
        self.text.push(b')');
    }

    fn piece(&mut self, levels: usize) {
        self.maybe_blanks(30);
        match self.random.below(10) {
            0..=5 => self.text.extend(self.random.pick(WORDS).bytes()),
            6 | 7 => self.quoted_pair(),
            8 => self.character(),
            _ if levels > 1 => self.comment(levels - 1),
            _ => self.text.extend(b"()"),
        }
    }

    fn quoted_pair(&mut self) {
        let odd = self.random.pick(b"(()\\ \t~!");
        let any = self.random.between(32, 126) as u8;
        let octet = if self.random.percent(70) { odd } else { any };
        self.text.extend([b'\\', octet]);
    }

    fn character(&mut self) {
        let octet = self.random.between(33, 126) as u8;
        if !matches!(octet, b'(' | b')' | b'\\') {
            self.text.push(octet);
        }
    }

    /// Comments one in the other, just so many.
    fn nested(&mut self, depth: usize) {
        self.text.push(b'(');
        self.beside(depth);
        if depth > 1 {
            self.nested(depth - 1);
        }
        self.beside(depth);
        self.text.push(b')');
    }

    /// Nothing mostly; what stands here opens no more than the deepest does.
    fn beside(&mut self, depth: usize) {
        match self.random.below(12) {
            0 => self.blanks(),
            1 => self.quoted_pair(),
            2 => self.text.extend(self.random.pick(WORDS).bytes()),
            3 if depth > 1 => self.text.extend(b"()"),
            4 if depth > 1 => self.text.extend(b"(\\()"),
            _ => {}
        }
    }
}
