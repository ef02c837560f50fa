//! What could stand at a place of a field, so that it may still become one.

use super::front::{Front, Next};
use super::grammar::{method_name, Class, CR_LF};
use super::{named, Methods, MOST_OPEN};
use crate::message::Kind;

/// One thing that could stand at a place.
#[derive(Clone, Copy, Debug, PartialEq, Eq, PartialOrd, Ord)]
pub enum Expected {
    /// The field's name with its colon, `none` or a method, of which so many
    /// octets stand before the place.
    Word { word: &'static str, read: usize },
    /// Between methods.
    Comma,
    /// A blank or a tab.
    Blank,
    /// The CR LF of a fold, with a blank or a tab after it.
    Fold,
    /// A comment, or one within a comment.
    Comment,
    /// Any character of a comment but parentheses, backslashes and blanks.
    Character,
    /// A backslash with the character that it quotes.
    QuotedPair,
    /// The character that a backslash quotes.
    Quoted,
    /// The parenthesis that closes a comment.
    Close,
    /// The LF of a CR LF.
    LineFeed,
    /// The CR LF at the field's end.
    ClosingCrLf,
    /// The end of the text.
    End,
}

/// What could stand after a front part so that it is refused neither 24, 25 nor
/// 26 there: a method that is named already could not, nor a comma after which no
/// method is left. Empty where nothing could, or where only a method named already
/// could go on.
pub fn expected(front: &[u8]) -> Vec<Expected> {
    let front = Front::of(front);
    let methods = named(front.methods());
    let mut things: Vec<Expected> = front.next().into_iter().map(thing).collect();
    let asks_a_word = things.iter().any(is_word);
    things.retain(|own| fits(own, &front, methods));
    if asks_a_word && !things.iter().any(is_word) {
        return Vec::new();
    }
    things.sort();
    things.dedup();
    things
}

fn is_word(thing: &Expected) -> bool {
    matches!(thing, Expected::Word { .. })
}

fn thing(next: Next) -> Expected {
    match next {
        Next::End => Expected::End,
        Next::One(Class::Blank) => Expected::Blank,
        Next::One(Class::Character) => Expected::Character,
        Next::One(Class::Quoted) => Expected::Quoted,
        Next::Text { text, read, last } => match text {
            CR_LF if read > 0 => Expected::LineFeed,
            CR_LF if last => Expected::ClosingCrLf,
            CR_LF => Expected::Fold,
            "," => Expected::Comma,
            "(" => Expected::Comment,
            ")" => Expected::Close,
            "\\" => Expected::QuotedPair,
            word => Expected::Word { word, read },
        },
    }
}

/// Repeats and depth are not of the grammar.
fn fits(thing: &Expected, front: &Front, methods: Methods) -> bool {
    let is = |word: &str, kind| word == method_name(kind);
    match thing {
        Expected::Comment => front.open() < MOST_OPEN,
        Expected::Comma => !(methods.dkim && methods.spf),
        Expected::Word { word, .. } if is(word, Kind::Dkim) => !methods.dkim,
        Expected::Word { word, .. } if is(word, Kind::Spf) => !methods.spf,
        _ => true,
    }
}
