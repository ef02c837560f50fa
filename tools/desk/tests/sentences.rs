//! Each sentence of the papers is quoted by the definitions, or is an exception with
//! its reason.
//!
//! A quote is what stands between two double quotes in a comment of
//! `crates/*/specs/*.antt`, cut at `..`, full stops and semicolons. One of three words
//! or more, or of a whole sentence, covers these words wherever a sentence has them in
//! a row. A sentence is quoted if some of its words are covered, and never more than
//! three in a row are not. An exception covers its words as a quote does.
//!
//! `sentences/` has the sentences, one a line: demands 1 to 3 (`mission.txt`),
//! document 01 (`01.txt`), the requests of document 02 that have landed (`02.txt`);
//! and `exceptions.txt`: words of a sentence, a tab, the reason.

use std::fs;
use std::path::{Path, PathBuf};

use desk::root;

const PAPERS: [&str; 3] = ["mission.txt", "01.txt", "02.txt"];

/// The fewest words of a quote that is no whole sentence, and the most in a row that
/// may stand outside of the quotes.
const FEWEST: usize = 3;
const GAP: usize = 3;

type Words = Vec<String>;

/// Words without the marks around them.
fn words(text: &str) -> Words {
    let text = text.replace('’', "'");
    let marks = |c: char| ",;:.()|`\"“”".contains(c);
    let bare = text.split_whitespace().map(|word| word.trim_matches(marks));
    let kept = bare.filter(|word| !word.is_empty());
    kept.map(String::from).collect()
}

/// Comments, lines that follow one another joined.
fn comments(text: &str) -> Vec<String> {
    let mut comments = vec![String::new()];
    for line in text.lines() {
        let last = comments.len() - 1;
        match line.trim().strip_prefix("--") {
            Some(rest) => comments[last] += &format!("{} ", rest.trim()),
            None if comments[last].is_empty() => {}
            None => comments.push(String::new()),
        }
    }
    comments
}

/// The quotes of a comment.
fn quotes(comment: &str) -> Vec<Words> {
    let pieces: Vec<&str> = comment.split('"').collect();
    assert!(pieces.len() % 2 == 1, "a quote has no end: {comment}");
    let quoted = pieces.into_iter().skip(1).step_by(2);
    let cut = |quote: &str| {
        let ends = quote.replace("..", "\n").replace(". ", "\n");
        ends.replace("; ", "\n").lines().map(words).collect()
    };
    quoted.flat_map::<Vec<Words>, _>(cut).collect()
}

/// Where one row of words begins in another.
fn places(part: &Words, whole: &Words) -> Vec<usize> {
    let rows = whole.windows(part.len().max(1)).enumerate();
    let found = rows.filter(|(_, row)| row == part);
    found.map(|(at, _)| at).collect()
}

/// What of a sentence is not covered, rows of words that follow one another; nothing
/// for a sentence that is quoted.
fn missing<'a>(sentence: &Words, quotes: impl Iterator<Item = &'a Words>) -> Vec<String> {
    let mut open: Vec<Option<&str>> = sentence.iter().map(|word| Some(word.as_str())).collect();
    for quote in quotes.filter(|quote| quote.len() >= FEWEST || *quote == sentence) {
        for at in places(quote, sentence) {
            open[at..at + quote.len()].fill(None);
        }
    }
    let most = if open.contains(&None) { GAP } else { 0 };
    let rows = open.split(|word| word.is_none());
    let rows = rows.filter(|row| row.len() > most);
    rows.map(|row| row.iter().flatten().copied().collect::<Vec<_>>().join(" "))
        .collect()
}

fn read(file: &Path) -> String {
    fs::read_to_string(file).unwrap_or_else(|reason| panic!("{}: {reason}", file.display()))
}

fn data(name: &str) -> String {
    let folder = Path::new(env!("CARGO_MANIFEST_DIR")).join("tests/sentences");
    read(&folder.join(name))
}

/// What is in a folder; nothing if there is none.
fn entries(folder: &Path) -> Vec<PathBuf> {
    let entries = fs::read_dir(folder).into_iter().flatten();
    entries
        .map(|entry| entry.expect("an entry").path())
        .collect()
}

/// The quotes of all definitions that a reader must believe; those in `specs/code/`
/// are not among them.
fn all_quotes() -> Vec<Words> {
    let crates = entries(&root().join("crates")).into_iter();
    let files = crates.flat_map(|own| entries(&own.join("specs")));
    let specs = files.filter(|file| file.extension().is_some_and(|end| end == "antt"));
    let comments = specs.flat_map(|file| comments(&read(&file)));
    comments.flat_map(|comment| quotes(&comment)).collect()
}

fn sentences() -> Vec<Words> {
    let papers = PAPERS.iter().map(|name| data(name));
    papers
        .flat_map(|paper| paper.lines().map(words).collect::<Vec<_>>())
        .collect()
}

struct Exception {
    words: Words,
    reason: String,
}

fn exceptions() -> Vec<Exception> {
    let exception = |line: &str| {
        let (text, reason) = line.split_once('\t').expect("a tab");
        let (words, reason) = (words(text), reason.to_string());
        Exception { words, reason }
    };
    data("exceptions.txt").lines().map(exception).collect()
}

#[test]
fn each_sentence_is_quoted_or_an_exception() {
    let (quotes, exceptions) = (all_quotes(), exceptions());
    let mut wrong = String::new();
    for sentence in sentences() {
        let excepted = exceptions.iter().map(|own| &own.words);
        for words in missing(&sentence, quotes.iter().chain(excepted)) {
            wrong += &format!("{words}\n    in: {}\n", sentence.join(" "));
        }
    }
    assert!(wrong.is_empty(), "quoted by no definition:\n{wrong}");
}

#[test]
fn each_exception_is_of_a_sentence_that_needs_it() {
    let (sentences, exceptions) = (sentences(), exceptions());
    let mut covers = all_quotes();
    let first = covers.len();
    covers.extend(exceptions.iter().map(|own| own.words.clone()));
    for at in first..covers.len() {
        let (own, text) = (&covers[at], covers[at].join(" "));
        let others = || covers[..at].iter().chain(&covers[at + 1..]);
        let has = |sentence: &&Words| !places(own, sentence).is_empty();
        let mut of = sentences.iter().filter(has).peekable();
        assert!(of.peek().is_some(), "in no sentence: {text}");
        let needed = of.any(|sentence| !missing(sentence, others()).is_empty());
        assert!(needed, "quoted without the exception: {text}");
    }
}

/// The files that a reason names.
fn files(reason: &str) -> String {
    let folders = ["crates/", "docs/", "tools/"];
    let is_file = |word: &String| folders.iter().any(|own| word.starts_with(own));
    let words = words(reason).into_iter().filter(|word| !word.contains('*'));
    let named = words.filter(is_file);
    named.map(|file| read(&root().join(file))).collect()
}

/// What a reason names in backquotes stands in a file that it names.
#[test]
fn each_reason_names_what_is_there() {
    for Exception { reason, .. } in exceptions() {
        assert!(words(&reason).len() > 1, "no reason: {reason}");
        let files = files(&reason);
        for name in reason.split('`').skip(1).step_by(2) {
            assert!(files.contains(name), "no {name} there: {reason}");
        }
    }
}

#[test]
fn what_is_quoted_and_what_is_not() {
    let sentence = words("Else any unknown, or any outcome 2: temperror.");
    let left = |comment: &str| missing(&sentence, quotes(comment).iter());
    let nothing: [&str; 0] = [];
    assert_eq!(left("\"any unknown, or any outcome 2\": a rule"), nothing);
    assert_eq!(
        left("\"Any aligned: pass. Else any unknown, or .. any outcome 2\""),
        nothing
    );
    assert_eq!(left("\"Else any unknown\""), ["or any outcome 2 temperror"]);
    assert_eq!(left("\"else any unknown, or\""), [sentence.join(" ")]);
    assert_eq!(
        left("Else any unknown, or any outcome 2"),
        [sentence.join(" ")]
    );
    assert_eq!(left("\"Else any\", \"outcome 2\""), [sentence.join(" ")]);
    assert_eq!(
        missing(&words("Else fail."), quotes("\"Else fail\"").iter()),
        nothing
    );
    assert_eq!(comments("-- a\n-- b\n\n  -- c\nd\n"), ["a b ", "c ", ""]);
}
