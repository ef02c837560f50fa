//! Ask 12 of document 02, readings 181 to 187: reading the field.

use crate::case::refusal;
use evaluator::field::{expected, read_field, viable, Expected, Methods};
use evaluator::message::Kind::{Dkim, Spf};
use evaluator::refusal::Refusal;
use evaluator::report::identity_alignment;
use evaluator::verdict::Alignment::{Aligned, NotAligned, Unknown};

const NONE: Methods = Methods {
    dkim: false,
    spf: false,
};
const DKIM: Methods = Methods {
    dkim: true,
    spf: false,
};
const SPF: Methods = Methods {
    dkim: false,
    spf: true,
};
const BOTH: Methods = Methods {
    dkim: true,
    spf: true,
};
/// The octets of the field's name with its colon.
const NAME: usize = 19;

/// What comes after the name and its colon, which have 19 octets.
fn field(rest: &[u8]) -> Vec<u8> {
    [b"Identity-Alignment:", rest].concat()
}

fn read(rest: &[u8], methods: Methods) {
    let text = field(rest);
    assert_eq!(read_field(&text), Ok(methods), "{}", text.escape_ascii());
}

fn refused_text(text: &[u8], number: u8, place: usize) {
    let given = read_field(text);
    assert_eq!(
        given,
        Err(refusal(number, place)),
        "{}",
        text.escape_ascii()
    );
}

/// The place is counted from the octet after the colon.
fn refused(rest: &[u8], number: u8, place: usize) {
    refused_text(&field(rest), number, NAME + place);
}

#[test]
fn point_181_every_value() {
    read(b" none\r\n", NONE);
    read(b" dkim\r\n", DKIM);
    read(b" spf\r\n", SPF);
    read(b" dkim, spf\r\n", BOTH);
    read(b" spf, dkim\r\n", BOTH);
    read(b"none\r\n", NONE);
    read(b"dkim,spf\r\n", BOTH);
}

#[test]
fn point_181_names_in_either_case() {
    for text in [
        b"identity-alignment: DKIM, SPF\r\n",
        b"IDENTITY-ALIGNMENT: dkim, spf\r\n",
        b"iDENTITY-aLIGNMENT: dKiM, SpF\r\n",
    ] {
        assert_eq!(read_field(text), Ok(BOTH));
    }
    read(b" NoNe\r\n", NONE);
    // Letters alone have two cases: these differ by 32 from `-` and `:`.
    refused_text(b"Identity\rAlignment: none\r\n", 24, 8);
    refused_text(b"Identity-Alignment\x1a none\r\n", 24, 18);
    refused(b" dkim\x0c spf\r\n", 24, 5);
    // The Kelvin sign is no k.
    refused(b" d\xe2\x84\xaaim\r\n", 24, 2);
}

#[test]
fn point_181_blanks_and_comments_wherever_they_may_stand() {
    read(b"\t \t dkim \t , \t spf\t \r\n", BOTH);
    read(b"(a)dkim(b),(c)spf(d)\r\n", BOTH);
    read(b" (a) (b)(c) dkim (d)\t(e) , (f) spf (g) (h) \r\n", BOTH);
    read(b"()none()()\r\n", NONE);
    read(b"( )none( \t )\r\n", NONE);
    read(b"((()(()))())none\r\n", NONE);
    read(b"\r\n none\r\n", NONE);
    read(b" \r\n\t(a\r\n b \r\n c)\r\n dkim\r\n ,\r\n spf\r\n", BOTH);
    read(b" (dkim, spf) none (, dkim)\r\n", NONE);
}

#[test]
fn point_181_ctext_octet_by_octet() {
    for octet in 0..=255 {
        let rest = [b"(", [octet].as_slice(), b")none\r\n"].concat();
        match octet {
            33..=39 | 42..=91 | 93..=126 | b' ' | b'\t' => read(&rest, NONE),
            // A comment is closed at once: `())none`.
            b')' => refused(&rest, 24, 2),
            // One is opened and not closed: `(()none` CR LF.
            b'(' => refused(&rest, 24, 9),
            // The closing parenthesis is quoted.
            b'\\' => refused(&rest, 24, 9),
            // A CR without an LF.
            b'\r' => refused(&rest, 24, 2),
            _ => refused(&rest, 24, 1),
        }
    }
}

#[test]
fn point_181_quoted_pairs_octet_by_octet() {
    for octet in 0..=255 {
        let rest = [b"(\\", [octet].as_slice(), b")none\r\n"].concat();
        match octet {
            33..=126 | b' ' | b'\t' => read(&rest, NONE),
            _ => refused(&rest, 24, 2),
        }
    }
    // Not outside a comment.
    refused(b" \\none\r\n", 24, 1);
    refused(b" none\\\r\n", 24, 5);
}

#[test]
fn point_182_what_is_fixed() {
    refused_text(b"Identity-Alignment : none\r\n", 24, 18);
    refused_text(b" Identity-Alignment: none\r\n", 24, 0);
    refused_text(b"Identity-Alignment none\r\n", 24, 18);
    refused_text(b"Identity Alignment: none\r\n", 24, 8);
    refused_text(b"Identity-Alignment(a): none\r\n", 24, 18);
    refused_text(b"Authentication-Results: none\r\n", 24, 0);
    refused(b" none, dkim\r\n", 24, 5);
    refused(b" none ,dkim\r\n", 24, 6);
    refused(b" dkim, none\r\n", 24, 7);
    refused(b" dkimspf\r\n", 24, 5);
    refused(b" dkim spf\r\n", 24, 6);
    refused(b" dkim(a)spf\r\n", 24, 8);
    refused(b" dkim,\r\n", 24, 8);
    refused(b" dkim,, spf\r\n", 24, 6);
    refused(b" ,dkim\r\n", 24, 1);
    refused(b" dk im\r\n", 24, 3);
    refused(b" dk(a)im\r\n", 24, 3);
    refused(b" nonee\r\n", 24, 5);
    refused(b" no\r\n", 24, 3);
    refused(b" arc\r\n", 24, 1);
    refused(b" dkim; spf\r\n", 24, 5);
    refused(b" none)\r\n", 24, 5);
    refused(b" \"none\"\r\n", 24, 1);
    refused(b"\r\n", 24, 2);
    refused(b" \r\n", 24, 3);
}

#[test]
fn point_182_an_octet_before_a_value() {
    for octet in 0..=255 {
        let rest = [[octet].as_slice(), b"dkim\r\n"].concat();
        match octet {
            b' ' | b'\t' => read(&rest, DKIM),
            // A comment that is not closed, and a fold without a blank.
            b'(' => refused(&rest, 24, 7),
            b'\r' | b'd' | b'D' | b's' | b'S' | b'n' | b'N' => refused(&rest, 24, 1),
            _ => refused(&rest, 24, 0),
        }
    }
}

#[test]
fn point_182_an_octet_after_a_value() {
    for octet in 0..=255 {
        let rest = [b"spf", [octet].as_slice(), b"\r\n"].concat();
        match octet {
            b' ' | b'\t' => read(&rest, SPF),
            // Nothing but a fold without a blank.
            b',' | b'(' => refused(&rest, 24, 6),
            b'\r' => refused(&rest, 24, 4),
            _ => refused(&rest, 24, 3),
        }
    }
}

#[test]
fn point_183_folds_after_the_value() {
    read(b" none\r\n", NONE);
    read(b" none \r\n", NONE);
    read(b" none\r\n \r\n", NONE);
    read(b" none \t\r\n\t \r\n", NONE);
    refused(b" none\r\n \r\n ", 24, 10);
    refused(b" none\r\n \r\n \r\n", 24, 10);
    refused(b" none\r\n\r\n", 24, 7);
    refused(b" none\r\nX", 24, 7);
    refused(b" none\r\n\0", 24, 7);
    refused(b" none\r\n ", 24, 8);
    refused(b" none\r\n , dkim\r\n", 24, 8);
    read(b" dkim\r\n , spf\r\n", BOTH);
    // A comment parts two FWS.
    read(b" none\r\n (a)\r\n \r\n", NONE);
    read(b" none\r\n (a)\r\n (b)\r\n \r\n", NONE);
    refused(b" none\r\n (a)\r\n \r\n \r\n", 24, 16);
    refused(b" none\r\n(a)\r\n", 24, 7);
}

#[test]
fn point_183_folds_elsewhere() {
    read(b"\r\n none\r\n", NONE);
    read(b" \t\r\n \tnone\r\n", NONE);
    refused(b"\r\nnone\r\n", 24, 2);
    refused(b" \r\n \r\n none\r\n", 24, 4);
    refused(b" \r\n\r\n none\r\n", 24, 3);
    refused(b"\r\r\n none\r\n", 24, 1);
    refused(b"\n none\r\n", 24, 0);
    refused(b"\r none\r\n", 24, 1);
    read(b"\r\n (a)\r\n none\r\n", NONE);
    read(b" dkim\r\n ,\r\n spf\r\n", BOTH);
    refused(b" dkim\r\n \r\n , spf\r\n", 24, 10);
    refused(b" dkim,\r\n \r\n spf\r\n", 24, 9);
    // In a comment.
    read(b"(\r\n )none\r\n", NONE);
    read(b"(a\r\n b\r\n c)none\r\n", NONE);
    read(b"(a\r\n \\ \r\n c)none\r\n", NONE);
    read(b"(a\r\n ()\r\n c)none\r\n", NONE);
    refused(b"(a\r\nb)none\r\n", 24, 4);
    refused(b"(a\r\n)none\r\n", 24, 4);
    refused(b"(a\r\n \r\n b)none\r\n", 24, 5);
    refused(b"(a\r\n \r\n )none\r\n", 24, 5);
    refused(b"(a\rb)none\r\n", 24, 3);
    refused(b"(a\nb)none\r\n", 24, 2);
}

#[test]
fn point_184_a_text_that_ends_early() {
    refused_text(b"", 24, 0);
    let text = b"Identity-Alignment: (a\\)\r\n (b)) dkim\r\n , spf (c) \r\n";
    assert_eq!(read_field(text), Ok(BOTH));
    for length in 0..text.len() {
        // As far as this it is a field.
        match text[..length].ends_with(b"dkim\r\n") {
            true => assert_eq!(read_field(&text[..length]), Ok(DKIM)),
            false => refused_text(&text[..length], 24, length),
        }
    }
    // With an octet that can stand nowhere in its place.
    for length in 0..text.len() {
        refused_text(&[&text[..length], b"\x80"].concat(), 24, length);
    }
    refused(b" none", 24, 5);
    refused(b" none\r", 24, 6);
    refused(b" none\n", 24, 5);
}

/// So many comments, one in the other.
fn nested(depth: usize) -> Vec<u8> {
    [b"(".repeat(depth), b")".repeat(depth)].concat()
}

#[test]
fn point_185_the_ninth_parenthesis_open_at_once() {
    for depth in 0..=8 {
        read(&[nested(depth), b"none\r\n".to_vec()].concat(), NONE);
    }
    for depth in 9..=12 {
        refused(&[nested(depth), b"none\r\n".to_vec()].concat(), 25, 8);
    }
    // Open at once, not in all.
    read(
        &[nested(8), nested(8), b"none".to_vec(), nested(8)]
            .concat()
            .into_iter()
            .chain(*b"\r\n")
            .collect::<Vec<_>>(),
        NONE,
    );
    read(b"(((((((()()())()))))))none\r\n", NONE);
    refused(b"(((((((()(()))))))))none\r\n", 25, 10);
    refused(b"none (((((((( ( x\r\n", 25, 14);
    // The text ends with it, or a fault follows.
    refused(b"(((((((((", 25, 8);
    refused(b"(((((((((\0", 25, 8);
    refused(b"((((((((", 24, 8);
    refused(b"((((((((\0(", 24, 8);
    refused(b"(((((((()\0(", 24, 9);
}

#[test]
fn point_185_a_quoted_parenthesis() {
    read(b"((((((((\\())))))))none\r\n", NONE);
    read(b"((((((((\\)))))))))none\r\n", NONE);
    refused(b"((((((((\\((", 25, 10);
    refused(b"((((((((\\\\(", 25, 10);
    refused(b"((((((((\\)(", 25, 10);
    read(b"(\\(\\(\\(\\(\\(\\(\\(\\(\\(\\()none\r\n", NONE);
}

#[test]
fn point_186_a_method_again() {
    refused_text(b"Identity-Alignment: dkim, dkim\r\n", 26, 26);
    refused_text(b"Identity-Alignment: dkim, dkim", 26, 26);
    refused(b" dkim, dkix", 24, 10);
    refused(b" dkim, dki", 24, 10);
    refused(b" dkim, dki\r\n", 24, 10);
    refused(b" dkim, dkimx", 26, 7);
    refused(b" dkim, DKIM\r\n", 26, 7);
    refused(b"spf,spf\r\n", 26, 4);
    refused(b"spf,SpF\0", 26, 4);
    refused(b"spf,sp", 24, 6);
    refused(b"spf, (a)\r\n spf\r\n", 26, 11);
    refused(b"dkim,spf,dkim\r\n", 26, 9);
    refused(b"dkim,spf,spf\r\n", 26, 9);
    refused(b"spf,dkim,spf,dkim\r\n", 26, 9);
    refused(b"dkim,spf,none\r\n", 24, 9);
    refused(b"dkim,spf,\r\n", 24, 11);
    // None again is not the grammar.
    refused(b"none,none\r\n", 24, 4);
    // In a comment it is no method.
    read(b"dkim(dkim),spf(dkim)\r\n", BOTH);
}

#[test]
fn the_earliest_refusal() {
    refused(b"spf,spf(((((((((\r\n", 26, 4);
    refused(b"spf(((((((((a))))))))),spf\r\n", 25, 11);
    refused(b"spf\0,spf(((((((((\r\n", 24, 3);
    refused(b"spf,spf\0(((((((((\r\n", 26, 4);
    refused(b"spf(((((((((\0,spf\r\n", 25, 11);
    refused(b"spf((((((((\0(,spf\r\n", 24, 11);
    refused(b"spf,((((((((spf))))))))sp", 24, 25);
}

/// "so every field we write reads back as its own"
#[test]
fn point_187_every_field_that_is_written() {
    let states = [None, Some(Aligned), Some(NotAligned), Some(Unknown)];
    for dkim in states {
        for spf in states {
            let judged = [(Dkim, dkim), (Spf, spf)].map(|(kind, own)| own.map(|own| (kind, own)));
            let judged: Vec<_> = judged.into_iter().flatten().collect();
            let is_listed = |own| matches!(own, Some(NotAligned | Unknown));
            let methods = Methods {
                dkim: is_listed(dkim),
                spf: is_listed(spf),
            };
            assert_eq!(read_field(&identity_alignment(&judged)), Ok(methods));
        }
    }
}

/// A refused place is where the front part is the last that the grammar can have,
/// or where depth or repeats are refused.
#[test]
fn front_parts() {
    assert!(viable(b""));
    assert!(viable(b"Identity-Alignment: dkim, dkim, dkim"));
    assert!(viable(b"Identity-Alignment: (((((((((("));
    assert!(!viable(b"Identity-Alignment: dkix"));
    assert!(!viable(b"Identity-Alignment: none\r\n \r\n "));
}

/// A long text takes no longer for an octet than a short one.
#[test]
fn long_comments() {
    let inside = b"a \\( (b)\t\r\n ".repeat(2_000);
    let rest = [b"(", inside.as_slice(), b") none\r\n"].concat();
    read(&rest, NONE);
    let blanks = b" ".repeat(20_000);
    let rest = [
        blanks.as_slice(),
        b"spf",
        &blanks,
        b"\r\n",
        &blanks,
        b"\r\n",
    ]
    .concat();
    read(&rest, SPF);
}

const WORD_NAME: &str = "Identity-Alignment:";

fn word(word: &'static str, read: usize) -> Expected {
    Expected::Word { word, read }
}

#[test]
fn what_could_stand_there() {
    use Expected::*;
    let rows: [(&[u8], Vec<Expected>); 20] = [
        (b"", vec![word("dkim", 0), word("none", 0), word("spf", 0)]),
        (
            b" (a)",
            vec![word("dkim", 0), word("none", 0), word("spf", 0)],
        ),
        (b" dk", vec![word("dkim", 2)]),
        (b" none", vec![Blank, Fold, Comment, ClosingCrLf]),
        (b" dkim ", vec![Comma, Blank, Fold, Comment, ClosingCrLf]),
        (b" dkim, spf", vec![Blank, Fold, Comment, ClosingCrLf]),
        (b" dkim, ", vec![word("spf", 0), Blank, Fold, Comment]),
        (b" spf,", vec![word("dkim", 0), Blank, Fold, Comment]),
        (b" spf, sp", vec![]),
        (b" dkim, spf, ", vec![]),
        (b" none\r", vec![LineFeed]),
        (b" none\r\n", vec![Blank, End]),
        (b" none\r\n ", vec![Blank, Comment, ClosingCrLf]),
        (b" none\r\n \r\n", vec![End]),
        (b"\r\n", vec![Blank]),
        (
            b"(",
            vec![Blank, Fold, Comment, Character, QuotedPair, Close],
        ),
        (
            b"(\r\n ",
            vec![Blank, Comment, Character, QuotedPair, Close],
        ),
        (b"(\\", vec![Quoted]),
        (b"((((((((", vec![Blank, Fold, Character, QuotedPair, Close]),
        (b"x", vec![]),
    ];
    for (rest, mut things) in rows {
        if matches!(rest, b"" | b" (a)") {
            things.extend([Blank, Fold, Comment]);
        }
        assert_eq!(expected(&field(rest)), things, "{}", rest.escape_ascii());
    }
    assert_eq!(expected(b""), [word(WORD_NAME, 0)]);
    assert_eq!(expected(b"IDENTITY-"), [word(WORD_NAME, 9)]);
}

/// Whether one of these things begins with an octet.
fn begins(things: &[Expected], octet: u8) -> bool {
    let begins = |thing: &Expected| match thing {
        Expected::Word { word, read } => word.as_bytes()[*read].eq_ignore_ascii_case(&octet),
        Expected::Comma => octet == b',',
        Expected::Blank => matches!(octet, b' ' | b'\t'),
        Expected::Fold | Expected::ClosingCrLf => octet == b'\r',
        Expected::Comment => octet == b'(',
        Expected::Character => matches!(octet, 33..=39 | 42..=91 | 93..=126),
        Expected::QuotedPair => octet == b'\\',
        Expected::Quoted => matches!(octet, 33..=126 | b' ' | b'\t'),
        Expected::Close => octet == b')',
        Expected::LineFeed => octet == b'\n',
        Expected::End => false,
    };
    things.iter().any(begins)
}

/// Every octet after every front part of a field: where no method was named, what
/// could stand there is what is not refused.
#[test]
fn what_could_stand_there_octet_by_octet() {
    let text = field(b" (a\\)\r\n ((((((((b))))) ))\r\n) ) none\r\n (c)\r\n \r\n");
    for length in 0..=text.len() {
        let front = &text[..length];
        if read_field(front) == Err(refusal(25, length.wrapping_sub(1))) {
            break;
        }
        let things = expected(front);
        for octet in 0..=255 {
            let next = [front, [octet].as_slice()].concat();
            let taken = match read_field(&next) {
                Ok(_) => true,
                Err(Refusal { place, .. }) => place > length,
            };
            assert_eq!(begins(&things, octet), taken, "{}", next.escape_ascii());
        }
        let whole = read_field(front).is_ok();
        assert_eq!(things.contains(&Expected::End), whole);
    }
}
