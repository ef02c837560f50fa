//! The Identity-Alignment field read (Ask 12 of document 02), in words and as
//! JSON: the methods that it names, or what is wrong with it, where, and what
//! could stand there.

pub mod code;
mod words;

use crate::words::{differing, two};
use code::Read;
use evaluator::field::{expected, read_field};
use evaluator::refusal::Refusal;
use sheets::json::Json;
use sheets::marked;

/// What both read; the error says how they differ.
pub fn agreed(reader: impl Fn(&[u8]) -> Read, text: &[u8]) -> Result<Read, String> {
    let (given, expected) = (reader(text), read_field(text));
    match given == expected {
        true => Ok(given),
        false => {
            let (given, expected) = (words::answer(&given), words::answer(&expected));
            let differ = two("the readings differ", &given, &expected);
            Err(format!("{differ}\n-- the field\n{}", marked::shown(text)))
        }
    }
}

/// What a field says, once both readers agree on it; the error says what is wrong
/// with it. The closing CR LF is of the text.
pub fn lines(reader: impl Fn(&[u8]) -> Read, text: &[u8]) -> Result<Vec<String>, String> {
    match agreed(reader, text).map_err(differing)? {
        Ok(methods) => Ok(words::methods(methods)),
        Err(refusal) => Err(refused_lines(text, refusal).join("\n")),
    }
}

/// The refusal that both readers give, if they do.
pub fn refused(reader: impl Fn(&[u8]) -> Read, text: &[u8]) -> Option<Refusal> {
    agreed(reader, text).ok()?.err()
}

/// The same as one value of JSON, read or refused; the error is of two readers
/// that differ.
pub fn json(reader: impl Fn(&[u8]) -> Read, text: &[u8]) -> Result<Json, String> {
    let answer = agreed(reader, text).map_err(differing)?;
    Ok(answer.map_or_else(|refusal| refused_json(text, refusal), words::methods_json))
}

/// The refusal, the text with a mark below the place, and what could stand there.
fn refused_lines(text: &[u8], refusal: Refusal) -> Vec<String> {
    let mut lines = vec![format!("{refusal}: {}", words::meaning(text, refusal))];
    lines.extend(marked::marked(text, refusal.place));
    lines.push(words::expected_line(&could_stand(text, refusal)));
    lines.extend(words::hint(text, refusal));
    lines
}

fn refused_json(text: &[u8], refusal: Refusal) -> Json {
    let could = could_stand(text, refusal).into_iter().map(Json::text);
    Json::Object(vec![
        ("refused", Json::Number(usize::from(refusal.number))),
        ("at", Json::Number(refusal.place)),
        ("meaning", Json::text(words::meaning(text, refusal))),
        ("expected", Json::List(could.collect())),
    ])
}

/// What could stand at the place of a refusal.
fn could_stand(text: &[u8], refusal: Refusal) -> Vec<String> {
    let front = text.get(..refusal.place).unwrap_or(text);
    expected(front).into_iter().map(words::expected).collect()
}
