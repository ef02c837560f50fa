//! The stack that each call needs, on hostile input: what the header says of it
//! holds, and is no idle figure; and every call is made on a small thread.

use std::collections::BTreeMap;
use std::fs;
use std::path::{Path, PathBuf};
use std::process::Command;

use desk::compiler::{archive, compile};
use desk::header::{plain, Header};
use desk::root;
use waslidhaj::{RUN_STACK_OCTETS, STACK_OCTETS};

/// A thread of a careful program.
const SMALL: usize = 128 * 1024;
/// What the dynamic linker needs to bind a function at its first call.
const BINDING: usize = 4096;
const OVERLAPPING: &str = " overlapping";
const RUN: &str = "waslidhaj_run";

/// Octets of stack by a call's name; one of lent memory that overlaps has
/// ` overlapping` after it.
type Needs = BTreeMap<String, usize>;

fn header() -> String {
    fs::read_to_string(root().join("include/waslidhaj.h")).expect("the header")
}

/// The header's table.
fn said() -> Needs {
    let mut said = Needs::new();
    for line in header().lines() {
        let words: Vec<&str> = line.split_whitespace().collect();
        let ["*", call, figures @ ..] = &words[..] else {
            continue;
        };
        let figures: Vec<usize> = figures.iter().map_while(|word| word.parse().ok()).collect();
        if !call.starts_with("waslidhaj_") || words.len() != figures.len() + 2 {
            continue;
        }
        for (figure, more) in figures.into_iter().zip(["", OVERLAPPING]) {
            said.insert(format!("{call}{more}"), figure);
        }
    }
    said
}

/// The program, compiled with a level of optimization.
fn built(level: &str, title: &str) -> PathBuf {
    let program = Path::new(env!("CARGO_TARGET_TMPDIR")).join(format!("{title}{level}"));
    let source = root().join("tools/desk/tests/stack/stack.c");
    let words = [
        level.as_ref(),
        source.as_path(),
        &archive(),
        "-pthread".as_ref(),
        "-o".as_ref(),
        &program,
    ];
    compile("gcc", "c99", &words);
    program
}

fn printed(program: &Path, words: &[&str]) -> String {
    let ran = Command::new(program).args(words).output();
    let ran = ran.expect("the program runs");
    let printed = String::from_utf8(ran.stdout).expect("plain text");
    assert!(
        ran.status.success(),
        "{words:?}: {}, after:\n{printed}",
        ran.status
    );
    printed
}

/// The most that each call needed, with and without optimization.
fn measured() -> Needs {
    let mut most = Needs::new();
    for level in ["-O0", "-O2"] {
        for line in printed(&built(level, "measured"), &["measure"]).lines() {
            let (call, octets) = line.rsplit_once(' ').expect("a name and a number");
            let octets: usize = octets.parse().expect("a number");
            let need = most.entry(call.to_string()).or_default();
            *need = octets.max(*need);
        }
    }
    most
}

/// Whether a figure is enough, and not much more.
fn holds(said: usize, measured: usize) -> bool {
    measured <= said && said <= 2 * measured + 1024
}

#[test]
fn each_call_needs_what_the_header_says() {
    let (said, measured) = (said(), measured());
    println!("{measured:#?}");
    let calls: Vec<&String> = measured.keys().collect();
    assert_eq!(calls, said.keys().collect::<Vec<_>>());
    for (call, octets) in &measured {
        let said = said[call];
        assert!(holds(said, *octets), "{call} needs {octets}, said {said}");
    }
    let most = |is_run: bool| {
        let own = measured
            .iter()
            .filter(|(call, _)| call.starts_with(RUN) == is_run);
        own.map(|(_, octets)| *octets).max().unwrap_or_default() + BINDING
    };
    assert!(holds(STACK_OCTETS, most(false)), "{}", most(false));
    assert!(holds(RUN_STACK_OCTETS, most(true)), "{}", most(true));
}

/// The table has every function that the header declares, and the overlapping ones
/// are those that it defines for memory that overlaps.
#[test]
fn the_table_has_every_call() {
    let header = Header::read(&header());
    let defined = header.defined();
    let mut calls = Vec::new();
    for name in &header.functions() {
        let plain = plain(name);
        calls.push(plain.to_string());
        if name.ends_with("_apart") || defined.contains(&format!("{plain}_copied")) {
            calls.push(format!("{plain}{OVERLAPPING}"));
        }
    }
    calls.sort();
    assert_eq!(calls, said().into_keys().collect::<Vec<_>>());
}

#[test]
fn every_call_on_a_small_thread() {
    let program = built("-O0", "small");
    let [small, whole] = [("small", SMALL), ("whole", RUN_STACK_OCTETS)]
        .map(|(mode, octets)| printed(&program, &[mode, &octets.to_string()]));
    let mut called: Vec<&str> = whole.lines().collect();
    called.sort_unstable();
    assert_eq!(called, said().keys().collect::<Vec<_>>());
    let longest = format!("{RUN}{OVERLAPPING}");
    called.retain(|call| *call != longest);
    let mut on_small: Vec<&str> = small.lines().collect();
    on_small.sort_unstable();
    assert_eq!(on_small, called);
}
