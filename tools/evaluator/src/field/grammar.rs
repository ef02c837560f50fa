//! The grammar of the field, as the papers have it: RFC 9991's rule with the
//! closing CR LF that Ask 12 adds, and RFC 5322's comments and folded blanks
//! without its obsolete forms. `front` reads by it.

use crate::message::Kind;
use Rule::{All, Any, Comment, Many, Method, One, Optional, Text};

/// What a rule of ABNF (RFC 5234) says.
pub enum Rule {
    /// Text in quotes, which is in either case (RFC 5234, 2.3).
    Text(&'static str),
    /// One octet of a class.
    One(Class),
    /// One after the other.
    All(&'static [&'static Rule]),
    /// One of them.
    Any(&'static [&'static Rule]),
    /// `[rule]`
    Optional(&'static Rule),
    /// `*rule`
    Many(&'static Rule),
    /// A method's name, which is remembered with the place where it begins.
    Method(Kind),
    /// What stands between the parentheses of a comment, which are counted.
    Comment(&'static Rule),
}

/// Octets of which one is read.
#[derive(Clone, Copy, Debug, PartialEq, Eq)]
pub enum Class {
    /// WSP
    Blank,
    /// ctext
    Character,
    /// What a quoted-pair may quote: VCHAR / WSP.
    Quoted,
}

impl Class {
    pub fn has(self, octet: u8) -> bool {
        match self {
            Class::Blank => matches!(octet, b' ' | b'\t'),
            Class::Character => matches!(octet, 33..=39 | 42..=91 | 93..=126),
            Class::Quoted => matches!(octet, 33..=126 | b' ' | b'\t'),
        }
    }
}

pub const NAME: &str = "Identity-Alignment:";
pub const CR_LF: &str = "\r\n";

/// What a method is called.
pub fn method_name(kind: Kind) -> &'static str {
    match kind {
        Kind::Dkim => "dkim",
        Kind::Spf => "spf",
    }
}

/// `id-align = "Identity-Alignment:" [CFWS] ( "none" / dmarc-method *( [CFWS] ","
/// [CFWS] dmarc-method ) ) [CFWS]`, "with a closing CR LF added".
pub static FIELD: Rule = All(&[
    &Text(NAME),
    &Optional(&CFWS),
    &Any(&[&Text("none"), &All(&[&METHOD, &Many(&NEXT_METHOD)])]),
    &Optional(&CFWS),
    &Text(CR_LF),
]);

static NEXT_METHOD: Rule = All(&[&Optional(&CFWS), &Text(","), &Optional(&CFWS), &METHOD]);

/// `dmarc-method = ( "dkim" / "spf" )`
static METHOD: Rule = Any(&[&Method(Kind::Dkim), &Method(Kind::Spf)]);

/// `CFWS = (1*([FWS] comment) [FWS]) / FWS`
static CFWS: Rule = Any(&[
    &All(&[&BLANK_COMMENT, &Many(&BLANK_COMMENT), &Optional(&FWS)]),
    &FWS,
]);

/// `[FWS] comment`
static BLANK_COMMENT: Rule = All(&[&Optional(&FWS), &COMMENT]);

/// `FWS = ([*WSP CRLF] 1*WSP)`
static FWS: Rule = All(&[
    &Optional(&All(&[&Many(&WSP), &Text(CR_LF)])),
    &WSP,
    &Many(&WSP),
]);

static WSP: Rule = One(Class::Blank);

/// `comment = "(" *([FWS] ccontent) [FWS] ")"`
static COMMENT: Rule = Comment(&All(&[
    &Many(&All(&[&Optional(&FWS), &CCONTENT])),
    &Optional(&FWS),
]));

/// `ccontent = ctext / quoted-pair / comment`
static CCONTENT: Rule = Any(&[&One(Class::Character), &QUOTED_PAIR, &COMMENT]);

/// `quoted-pair = ("\" (VCHAR / WSP))`
static QUOTED_PAIR: Rule = All(&[&Text("\\"), &One(Class::Quoted)]);
