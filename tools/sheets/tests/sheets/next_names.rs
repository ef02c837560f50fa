//! The next name to ask, from what the program printed.

use crate::octets::run;
use evaluator::book::{Book, Step};
use evaluator::txt::{Answer, Status};
use sheets::generate::ordinary;
use sheets::handed::{Form, Handed};
use sheets::next_name::next_name;
use sheets::printed::Printed;
use sheets::written::{sheet, Record};

fn next(handed: &Handed) -> String {
    let printed = Printed::read(run(handed.sheet()).as_bytes()).expect("an output");
    String::from_utf8(next_name(handed, &printed)).expect("words")
}

fn of_description(text: &str) -> String {
    next(&Handed::read(Form::Description, "x", text.as_bytes()).expect("a message"))
}

#[test]
fn one_name_after_the_other() {
    let mut text = "author example.com exists supported\ndkim pass Mail.example.com.\n".to_string();
    assert_eq!(of_description(&text), "_dmarc.example.com\n");
    text += "answer _DMARC.example.com. \"v=DMARC1; p=reject\"\n";
    assert_eq!(of_description(&text), "_dmarc.com\n");
    text += "answer _dmarc.com none\n";
    assert_eq!(of_description(&text), "_dmarc.mail.example.com\n");
    text += "answer _dmarc.mail.example.com error\n";
    let verdict = "result temperror\npolicy reject\ndisposition defer\nasked 3\n";
    assert_eq!(of_description(&text), verdict);
}

#[test]
fn a_refusal_is_the_refusal() {
    let text = "author example.com exists supported\nanswer _dmarc.example.com hex 00\n";
    assert_eq!(of_description(text), "refused 6 at 0\n");
}

#[test]
fn outputs_of_another_form() {
    for output in [
        "",
        "ask a\n",
        "refused\n",
        "refused 6 at x\n",
        "result none",
    ] {
        assert_eq!(Printed::read(output.as_bytes()), None, "{output}");
    }
}

/// Answers are added to a sheet one by one, as its names are asked: these are
/// the names that the book of document 01 hands out.
#[test]
fn the_names_of_the_book() {
    for index in 0..300 {
        let octets = ordinary(31, index);
        let Ok(given) = evaluator::sheet::read(&octets) else {
            continue;
        };
        let message = &given.message;
        let mut book = Book::default();
        let opened = book.open(message.author, message.existence, message.support);
        let mut records = vec![Record::author(
            message.existence,
            message.support,
            message.author,
        )];
        let mut accepted = opened.is_ok();
        for own in &message.identifiers {
            accepted &= book.add(own.kind, own.outcome, own.domain).is_ok();
            records.push(Record::identifier(own.kind, own.outcome, own.domain));
        }
        while let Some(Step::Ask(asked)) = book.next_step().ok().filter(|_| accepted) {
            let name = String::from_utf8(asked.name.clone()).expect("a name");
            let said = next(&Handed::sheet_of("x", &sheet(&records)));
            assert_eq!(said, format!("{name}\n"), "ordinary 31 {index}");
            let answer = given.given(&asked.name).map(|own| own.answer);
            let answer = answer.unwrap_or(Answer::NONE);
            if book.answer(&asked.name, answer, &mut [0; 4096]).is_err() {
                break;
            }
            let status = match answer.status {
                Status::Records => 0,
                Status::None => 1,
                Status::Error => 2,
            };
            records.push(Record::answer(status, &asked.name, answer.bytes));
        }
    }
}
