//! What a field says and what is wrong with it, in lines and as JSON.

use evaluator::refusal::Refusal;
use records::field::code::proved as read_field;
use records::field::{agreed, json, lines};

const METHODS: &str = "there could stand `dkim`, `none`, `spf`, a blank, a fold (CR LF and a \
                       blank) or a comment";

fn says(text: &str, expected: &[&str]) {
    let expected = expected.iter().map(|line| line.to_string()).collect();
    assert_eq!(lines(read_field, text.as_bytes()), Ok(expected), "{text:?}");
}

fn wrong(text: &[u8], expected: &[&str]) {
    let said = lines(read_field, text).expect_err("a refusal");
    assert_eq!(said.lines().collect::<Vec<_>>(), expected);
}

fn json_says(text: &str, expected: &str) {
    let said = json(read_field, text.as_bytes()).map(|value| value.to_string());
    assert_eq!(said, Ok(expected.to_string()), "{text:?}");
}

#[test]
fn the_methods_named() {
    let failed = |name: &str| format!("{name}: it failed to authenticate an aligned identity");
    let not_named = |name: &str| {
        format!("{name}: not named, so it was not tried, or it authenticated an aligned identity")
    };
    let (dkim, spf) = (failed("dkim"), failed("spf"));
    says(
        "Identity-Alignment: none\r\n",
        &[
            "methods: none",
            "all methods that were tried authenticated an aligned identity",
        ],
    );
    says(
        "Identity-Alignment: DKIM\r\n",
        &["methods: dkim", &dkim, &not_named("spf")],
    );
    says(
        "identity-alignment:(a)\r\n spf\r\n",
        &["methods: spf", &not_named("dkim"), &spf],
    );
    says(
        "Identity-Alignment: spf, dkim\r\n",
        &["methods: dkim, spf", &dkim, &spf],
    );
}

#[test]
fn what_is_wrong() {
    wrong(
        b"Identity-Alignment: dkim; spf\r\n",
        &[
            "refused 24 at 24: the grammar of the field has no such octet there",
            "Identity-Alignment: dkim; spf\\r\\n",
            "                        ^",
            "there could stand a comma, a blank, a fold (CR LF and a blank), a comment or the \
             closing CR LF",
        ],
    );
    wrong(
        b"Identity-Alignment:\t\x80\r\n",
        &[
            "refused 24 at 20: the grammar of the field has no such octet there",
            "Identity-Alignment:\\t\\x80\\r\\n",
            "                     ^",
            METHODS,
        ],
    );
    wrong(
        b"Identity Alignment: none\r\n",
        &[
            "refused 24 at 8: the grammar of the field has no such octet there",
            "Identity Alignment: none\\r\\n",
            "        ^",
            "there could stand `-Alignment:`, the rest of `Identity-Alignment:`",
        ],
    );
    wrong(
        b"Identity-Alignment: none\n",
        &[
            "refused 24 at 24: the grammar of the field has no such octet there",
            "Identity-Alignment: none\\n",
            "                        ^",
            "there could stand a blank, a fold (CR LF and a blank), a comment or the closing CR LF",
            "an LF stands there without a CR before it; a line of mail ends with CR LF",
        ],
    );
    wrong(
        b"Identity-Alignment: none\r\nSubject: x\r\n",
        &[
            "refused 24 at 26: the grammar of the field has no such octet there",
            "Identity-Alignment: none\\r\\nSubject: x\\r\\n",
            "                            ^",
            "there could stand a blank or the end of the text",
        ],
    );
}

#[test]
fn a_text_that_ends_early() {
    wrong(
        b"",
        &[
            "refused 24 at 0: the field ends too early",
            "",
            "^",
            "there could stand `Identity-Alignment:`",
        ],
    );
    wrong(
        b"Identity-Alignment: dk",
        &[
            "refused 24 at 22: the field ends too early",
            "Identity-Alignment: dk",
            "                      ^",
            "there could stand `im`, the rest of `dkim`",
        ],
    );
    wrong(
        b"Identity-Alignment: none\r",
        &[
            "refused 24 at 25: the field ends too early",
            "Identity-Alignment: none\\r",
            "                          ^",
            "there could stand LF, the rest of CR LF",
        ],
    );
    wrong(
        b"Identity-Alignment: (a\\",
        &[
            "refused 24 at 23: the field ends too early",
            "Identity-Alignment: (a\\\\",
            "                        ^",
            "there could stand a character to be quoted (32 to 126, or a tab)",
        ],
    );
}

#[test]
fn depth_and_repeats() {
    wrong(
        b"Identity-Alignment: ((((((((( none\r\n",
        &[
            "refused 25 at 28: a parenthesis is opened where 8 are open, which is the most",
            "Identity-Alignment: ((((((((( none\\r\\n",
            "                            ^",
            "there could stand a blank, a fold (CR LF and a blank), a character of a comment (33 \
             to 126), a backslash with the character that it quotes or a closing parenthesis",
        ],
    );
    wrong(
        b"Identity-Alignment: dkim, DKIM\r\n",
        &[
            "refused 26 at 26: a method is named again",
            "Identity-Alignment: dkim, DKIM\\r\\n",
            "                          ^",
            "there could stand `spf`, a blank, a fold (CR LF and a blank) or a comment",
        ],
    );
    let nothing = "nothing could stand there: only a method that is named already could go on";
    wrong(
        b"Identity-Alignment: dkim, dkx\r\n",
        &[
            "refused 24 at 28: the grammar of the field has no such octet there",
            "Identity-Alignment: dkim, dkx\\r\\n",
            "                            ^",
            nothing,
        ],
    );
    wrong(
        b"Identity-Alignment: dkim, spf, none\r\n",
        &[
            "refused 24 at 31: the grammar of the field has no such octet there",
            "Identity-Alignment: dkim, spf, none\\r\\n",
            "                               ^",
            nothing,
        ],
    );
}

/// Of a long text is shown what stands around the place.
#[test]
fn long_texts() {
    let text = format!(
        "Identity-Alignment: ({}\0{})",
        "a".repeat(500),
        "b".repeat(500)
    );
    let said = lines(read_field, text.as_bytes()).expect_err("a refusal");
    let said: Vec<&str> = said.lines().collect();
    let shown = format!("...{}\\x00{}...", "a".repeat(60), "b".repeat(26));
    assert_eq!(said[1], shown);
    assert_eq!(said[2], " ".repeat(63) + "^");
    // An escape is not cut in two.
    let text = format!("Identity-Alignment: ({}", "\t".repeat(31) + "\x7f");
    let said = lines(read_field, text.as_bytes()).expect_err("a refusal");
    let said: Vec<&str> = said.lines().collect();
    assert_eq!(said[1], format!("...{}\\x7F", "\\t".repeat(30)));
}

#[test]
fn as_json() {
    json_says("Identity-Alignment: none\r\n", "{\"methods\":[]}");
    json_says("Identity-Alignment: dkim\r\n", "{\"methods\":[\"dkim\"]}");
    json_says(
        "Identity-Alignment: spf,dkim\r\n",
        "{\"methods\":[\"dkim\",\"spf\"]}",
    );
    json_says(
        "Identity-Alignment: dkim, dkim\r\n",
        "{\"refused\":26,\"at\":26,\"meaning\":\"a method is named again\",\"expected\":\
         [\"`spf`\",\"a blank\",\"a fold (CR LF and a blank)\",\"a comment\"]}",
    );
    json_says(
        "Identity-Alignment: dkim, sp\r\n",
        "{\"refused\":24,\"at\":28,\"meaning\":\"the grammar of the field has no such octet \
         there\",\"expected\":[\"`f`, the rest of `spf`\"]}",
    );
    json_says(
        "",
        "{\"refused\":24,\"at\":0,\"meaning\":\"the field ends too early\",\"expected\":\
         [\"`Identity-Alignment:`\"]}",
    );
}

/// Where the readers differ, nothing is said but how they do.
#[test]
fn readers_that_differ() {
    let text = b"Identity-Alignment: (\\\t) none\r\n";
    let other = |_: &[u8]| Err(Refusal::new(24, 22));
    let how = "the readings differ
-- the proved code
refused 24 at 22
-- the reference
read: none
-- the field
Identity-Alignment: (\\\\\\t) none\\r\\n";
    assert_eq!(agreed(other, text), Err(how.to_string()));
    let said =
        format!("the proved code and the second evaluator differ, so nothing is said: {how}");
    assert_eq!(lines(other, text), Err(said.clone()));
    assert_eq!(json(other, text), Err(said));
}
