//! Elements and what stands in them: "no blanks or line ends between elements, each
//! with a start and an end tag".

/// The start and the end tag of an element.
#[derive(Clone, Copy)]
pub struct Tags {
    pub start: &'static str,
    pub end: &'static str,
}

/// The tags of a name.
macro_rules! tags {
    ($name:literal) => {
        $crate::aggregate::xml::Tags {
            start: concat!("<", $name, ">"),
            end: concat!("</", $name, ">"),
        }
    };
}

pub(super) use tags;

/// A text to which elements are added.
pub struct Xml<'t>(&'t mut Vec<u8>);

impl<'t> Xml<'t> {
    pub fn behind(text: &'t mut Vec<u8>) -> Xml<'t> {
        Xml(text)
    }

    /// Octets as they are.
    pub fn plain(&mut self, octets: &[u8]) {
        self.0.extend_from_slice(octets);
    }

    /// An element, with all that is written in it.
    pub fn element(&mut self, tags: Tags, content: impl FnOnce(&mut Self)) {
        self.plain(tags.start.as_bytes());
        content(self);
        self.plain(tags.end.as_bytes());
    }

    /// An element with a word or a domain in it, which has nothing to escape.
    pub fn word(&mut self, tags: Tags, word: impl AsRef<[u8]>) {
        self.element(tags, |xml| xml.plain(word.as_ref()));
    }

    /// An element with a decimal number in it.
    pub fn number(&mut self, tags: Tags, number: u64) {
        self.element(tags, |xml| xml.digits(number, 10));
    }

    /// An element with a text in it: "`&`, `<` and `>` in texts are written as
    /// entities".
    pub fn text(&mut self, tags: Tags, text: &[u8]) {
        self.element(tags, |xml| {
            for octet in text {
                match octet {
                    b'&' => xml.plain(b"&amp;"),
                    b'<' => xml.plain(b"&lt;"),
                    b'>' => xml.plain(b"&gt;"),
                    _ => xml.plain(&[*octet]),
                }
            }
        });
    }

    /// "numbers and groups without leading zeros", in lower case
    pub fn digits(&mut self, number: u64, base: u64) {
        let mut digits = [0; 20];
        let mut begin = digits.len();
        let mut rest = number;
        while begin == digits.len() || rest > 0 {
            begin -= 1;
            digits[begin] = b"0123456789abcdef"[(rest % base) as usize];
            rest /= base;
        }
        self.plain(&digits[begin..]);
    }
}
