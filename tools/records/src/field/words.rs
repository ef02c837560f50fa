//! The words for a field that is read or refused.

use super::code::Read;
use evaluator::field::{Expected, Methods, MOST_OPEN};
use evaluator::refusal::Refusal;
use sheets::json::Json;

/// The methods named, as a field lists them.
fn names(methods: Methods) -> Vec<&'static str> {
    let names = [("dkim", methods.dkim), ("spf", methods.spf)];
    let named = names.into_iter().filter(|(_, named)| *named);
    named.map(|(name, _)| name).collect()
}

fn listed(methods: Methods) -> String {
    match names(methods).as_slice() {
        [] => "none".to_string(),
        names => names.join(", "),
    }
}

/// An answer on one line.
pub fn answer(answer: &Read) -> String {
    match answer {
        Ok(methods) => format!("read: {}", listed(*methods)),
        Err(refusal) => refusal.to_string(),
    }
}

/// What a field says (RFC 9991, 4).
pub fn methods(methods: Methods) -> Vec<String> {
    let first = format!("methods: {}", listed(methods));
    if names(methods).is_empty() {
        let all = "all methods that were tried authenticated an aligned identity";
        return vec![first, all.to_string()];
    }
    let line = |name: &str, named| match named {
        true => format!("{name}: it failed to authenticate an aligned identity"),
        false => format!(
            "{name}: not named, so it was not tried, or it authenticated an aligned identity"
        ),
    };
    vec![first, line("dkim", methods.dkim), line("spf", methods.spf)]
}

pub fn methods_json(methods: Methods) -> Json {
    let names = names(methods).into_iter().map(Json::text);
    Json::Object(vec![("methods", Json::List(names.collect()))])
}

/// What a refusal means.
pub fn meaning(text: &[u8], refusal: Refusal) -> String {
    match refusal.number {
        24 if refusal.place == text.len() => "the field ends too early".to_string(),
        24 => "the grammar of the field has no such octet there".to_string(),
        25 => format!("a parenthesis is opened where {MOST_OPEN} are open, which is the most"),
        26 => "a method is named again".to_string(),
        _ => "no number of a field's refusal".to_string(),
    }
}

/// One thing that could stand at a place.
pub fn expected(thing: Expected) -> String {
    let words = match thing {
        Expected::Word { word, read: 0 } => return format!("`{word}`"),
        Expected::Word { word, read } => {
            let rest = word.get(read..).unwrap_or_default();
            return format!("`{rest}`, the rest of `{word}`");
        }
        Expected::Comma => "a comma",
        Expected::Blank => "a blank",
        Expected::Fold => "a fold (CR LF and a blank)",
        Expected::Comment => "a comment",
        Expected::Character => "a character of a comment (33 to 126)",
        Expected::QuotedPair => "a backslash with the character that it quotes",
        Expected::Quoted => "a character to be quoted (32 to 126, or a tab)",
        Expected::Close => "a closing parenthesis",
        Expected::LineFeed => "LF, the rest of CR LF",
        Expected::ClosingCrLf => "the closing CR LF",
        Expected::End => "the end of the text",
    };
    words.to_string()
}

/// All that could stand at a place, on one line.
pub fn expected_line(things: &[String]) -> String {
    match things {
        [] => {
            "nothing could stand there: only a method that is named already could go on".to_string()
        }
        [one] => format!("there could stand {one}"),
        [first @ .., last] => format!("there could stand {} or {last}", first.join(", ")),
    }
}

/// What is likely to be the reason.
pub fn hint(text: &[u8], refusal: Refusal) -> Option<String> {
    let octet = text.get(refusal.place)?;
    let hint = "an LF stands there without a CR before it; a line of mail ends with CR LF";
    (refusal.number == 24 && *octet == b'\n').then(|| hint.to_string())
}
