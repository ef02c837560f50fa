//! Runs, makes and describes sheets, generates them from a seed, and has the
//! words that the script `dmarc` says of a message.

use std::fs;
use std::path::Path;
use std::process::ExitCode;

use evaluator::sheet;
use sheets::command::{self, failed, file, input, output};
use sheets::examples::MARKED;
use sheets::generate::SheetKind;
use sheets::handed::{Form, Handed, STANDARD_INPUT};
use sheets::message_json::message_json;
use sheets::next_name::next_name;
use sheets::notes::notes;
use sheets::printed::Printed;
use sheets::programs::messages;
use sheets::tally::tally;
use sheets::{description, explain};

const USAGE: &str = "usage:
  dmarc-tools run < sheet
  dmarc-tools make [NAME] < description > sheet
  dmarc-tools describe < sheet
  dmarc-tools explain < sheet
  dmarc-tools explain FORM NAME INPUT OUTPUT
  dmarc-tools notes FORM NAME INPUT OUTPUT
  dmarc-tools next FORM NAME INPUT OUTPUT
  dmarc-tools json FORM NAME INPUT OUTPUT
  dmarc-tools sheets KIND SEED COUNT DIR
  dmarc-tools tally KIND SEED COUNT
  dmarc-tools marked
  dmarc-tools messages CASES EXPECTED
KIND is ordinary or hostile. FORM, of the message in the file INPUT, is sheet or
description; NAME is what it is called in messages, and OUTPUT is a file of what
the proved program printed for it.";

fn main() -> ExitCode {
    command::run(|words| match words {
        ["run"] => run(),
        ["make"] => make(STANDARD_INPUT),
        ["make", name] => make(name),
        ["describe"] => described(),
        ["explain"] => explained(),
        [what @ ("explain" | "notes" | "next" | "json"), form, name, input, output] => {
            say_of_message(what, form, name, [input, output])
        }
        ["sheets", kind, seed, count, dir] => write_sheets(kind, seed, count, dir),
        ["tally", kind, seed, count] => tallied(kind, seed, count),
        ["marked"] => marked(),
        ["messages", cases, expected] => write_messages(cases, expected),
        _ => Err(USAGE.to_string()),
    })
}

/// A sheet from standard input. One octet over the limit settles that it is
/// over it.
fn sheet_input() -> Result<Vec<u8>, String> {
    input(sheet::MOST_OCTETS as u64 + 1)
}

fn run() -> Result<(), String> {
    output(&sheet::run(&sheet_input()?))
}

fn explained() -> Result<(), String> {
    let handed = Handed::sheet_of(STANDARD_INPUT, &sheet_input()?);
    output(explain::explain(&handed).as_bytes())
}

fn make(name: &str) -> Result<(), String> {
    let form = Form::Description;
    let octets = input(form.most_octets())?;
    output(Handed::read(form, name, &octets)?.sheet())
}

/// What is said of a message and of what the proved program printed for it.
fn say_of_message(what: &str, form: &str, name: &str, files: [&str; 2]) -> Result<(), String> {
    let form = Form::read(form).ok_or("FORM is sheet or description")?;
    let [input, printed] = files;
    let handed = Handed::read(form, name, &file(input, form.most_octets())?)?;
    let octets = file(printed, u64::MAX)?;
    let printed =
        Printed::read(&octets).ok_or("the program printed neither a verdict nor a refusal")?;
    if what == "next" {
        return output(&next_name(&handed, &printed));
    }
    if sheet::run(handed.sheet()) != octets {
        let differ = "the second evaluator prints something else for this message";
        return Err(format!("{differ}, so nothing more is said of it"));
    }
    let lines = match what {
        "notes" => notes(&handed, &printed)
            .iter()
            .map(|l| format!("{l}\n"))
            .collect(),
        "json" => format!("{}\n", message_json(&handed)),
        _ => explain::explain(&handed),
    };
    output(lines.as_bytes())
}

fn described() -> Result<(), String> {
    output(description::describe(&input(u64::MAX)?).as_bytes())
}

fn numbers(kind: &str, seed: &str, count: &str) -> Result<(SheetKind, u64, u64), String> {
    let kind = SheetKind::read(kind).ok_or("KIND is ordinary or hostile")?;
    let seed = seed.parse().map_err(|_| "SEED is a number")?;
    let count = count.parse().map_err(|_| "COUNT is a number")?;
    Ok((kind, seed, count))
}

fn write_sheets(kind_word: &str, seed: &str, count: &str, dir: &str) -> Result<(), String> {
    let (kind, seed, count) = numbers(kind_word, seed, count)?;
    fs::create_dir_all(dir).map_err(failed)?;
    for index in 0..count {
        let file = Path::new(dir).join(format!("{kind_word}-{seed}-{index:06}.sheet"));
        fs::write(file, kind.sheet(seed, index)).map_err(failed)?;
    }
    Ok(())
}

fn tallied(kind: &str, seed: &str, count: &str) -> Result<(), String> {
    let (kind, seed, count) = numbers(kind, seed, count)?;
    let tally = tally(kind, seed, count);
    output(tally.to_string().as_bytes())?;
    eprintln!("time of the runs: {} ms", tally.time.as_millis());
    Ok(())
}

fn marked() -> Result<(), String> {
    let mut held = 0;
    for row in MARKED {
        let holds = row.holds();
        held += usize::from(holds);
        let word = if holds { "as marked" } else { "DIFFERENT" };
        output(format!("marked sheet {}: {word}\n", row.name).as_bytes())?;
    }
    output(format!("{held} of {} as marked\n", MARKED.len()).as_bytes())?;
    match held == MARKED.len() {
        true => Ok(()),
        false => Err("some marked sheets came out differently".to_string()),
    }
}

/// Writes the sheets for a program and what it must print, and prints how many
/// there are.
fn write_messages(cases: &str, expected: &str) -> Result<(), String> {
    let files = messages::files()?;
    fs::write(cases, &files.cases).map_err(failed)?;
    fs::write(expected, &files.expected).map_err(failed)?;
    let count = messages::messages()?.len();
    output(format!("{count} sheets\n").as_bytes())
}
