//! Report addresses by both live checks.

use std::process::Output;

use super::address_cases::{address_cases, AddressCase};
use super::{c_program, has_dig, limited, lines, output, over_limit, text, PATIENCE};
use desk::root;
use desk::server::Server;
use desk::zone::Zone;

fn serve(case: &AddressCase) -> Server {
    let zone = case.zone.iter();
    let zone: Vec<_> = zone
        .map(|(name, said)| (name.as_str(), said.clone()))
        .collect();
    Server::start(Zone::new(&zone)).expect("a server on loopback")
}

/// What the server writes down where each name is asked exactly once.
fn wire(case: &AddressCase) -> Vec<String> {
    let asked = case.asked.iter();
    asked.map(|name| format!("udp {name}")).collect()
}

fn outcome_lines(case: &AddressCase) -> Vec<String> {
    let mut lines = vec![format!("agreement {}", case.agreement)];
    lines.extend(case.rua.map(|text| format!("rua {text}")));
    lines.push(format!("asked {}", case.asked.len()));
    lines
}

/// Runs the C program on a domain and an entry.
fn in_c(server: &Server, words: &[&str]) -> Output {
    output(
        limited(&c_program())
            .args(["--server", &server.address().to_string()])
            .args(["--timeout", PATIENCE, "--address"])
            .args(words),
    )
}

#[test]
fn the_c_program_on_addresses() {
    for case in address_cases() {
        let server = serve(&case);
        let ended = in_c(&server, &[&case.policy, &case.entry]);
        let asked = case.asked.iter().map(|name| format!("ask {name}"));
        let mut printed: Vec<String> = asked.chain(outcome_lines(&case)).collect();
        printed.extend(case.send.iter().map(|entry| format!("send {entry}")));
        let title = case.title;
        assert_eq!(text(&ended.stdout), lines(&printed), "{title}");
        let mut said: Vec<String> = case
            .over_limit
            .map(|name| over_limit("check", name))
            .into_iter()
            .collect();
        said.extend(
            case.odd
                .map(|entry| format!("check: a mailer may find another host in {entry}")),
        );
        assert_eq!(text(&ended.stderr), lines(&said), "{title}");
        assert_eq!(ended.status.code(), Some(0), "{title}");
        assert_eq!(server.asked(), wire(&case), "{title}");
    }
}

/// Without an outcome it is not known, whatever else is printed.
#[test]
fn the_c_program_on_addresses_refused_and_misused() {
    let server = Server::start(Zone::default()).expect("a server on loopback");
    for (words, refusal) in [
        (["a..b", "mailto:x@c"], "refused 11 at 0"),
        (["", ""], "refused 11 at 0"),
        (["a", "https://c/x@c"], "refused 23 at 0"),
        (["a", "mailto:x@c,mailto:x@c"], "refused 23 at 0"),
    ] {
        let ended = in_c(&server, &words);
        let printed = format!("{refusal}\nagreement not known\n");
        assert_eq!(text(&ended.stdout), printed);
        assert_eq!(ended.status.code(), Some(3), "{words:?}");
    }
    let misused: [&[&str]; 3] = [&[], &["a"], &["a", "mailto:x@c", "b"]];
    for words in misused {
        let ended = in_c(&server, words);
        assert_eq!(text(&ended.stdout), "", "{words:?}");
        assert!(ended.stderr.starts_with(b"usage: check "), "{words:?}");
        assert_eq!(ended.status.code(), Some(2), "{words:?}");
    }
    assert_eq!(server.asked(), [""; 0], "nothing is looked up");
}

/// Runs the shell loop on an address, with its option before that, if any.
fn in_shell(server: &Server, option: &[&str], words: &[&str]) -> Output {
    let port = server.address().port().to_string();
    output(
        limited(&root().join("examples/live/check.sh"))
            .args(option)
            .arg("--address")
            .args(words)
            .args(["@127.0.0.1", "-p", &port])
            .arg(format!("+time={PATIENCE}")),
    )
}

#[test]
fn the_shell_loop_on_addresses() {
    if !has_dig() {
        return;
    }
    for case in address_cases() {
        let server = serve(&case);
        let ended = in_shell(&server, &[], &[&case.policy, &case.entry]);
        let (title, said) = (case.title, text(&ended.stderr));
        let printed = lines(&outcome_lines(&case));
        assert_eq!(text(&ended.stdout), printed, "{title}:\n{said}");
        match case.over_limit {
            Some(name) => assert!(
                said.contains(&over_limit("check.sh", name)),
                "{title}:\n{said}"
            ),
            None => {
                let expected = case.said.iter().map(|line| format!("dmarc: {line}"));
                assert_eq!(said, lines(&expected.collect::<Vec<_>>()), "{title}");
            }
        }
        assert_eq!(ended.status.code(), Some(0), "{title}");
        assert_eq!(server.asked(), wire(&case), "{title}");
    }
}

#[test]
fn the_shell_loop_explains_an_address() {
    if !has_dig() {
        return;
    }
    let case = address_cases().swap_remove(0);
    let server = serve(&case);
    let ended = in_shell(&server, &["--explain"], &[&case.policy, &case.entry]);
    let asked = case.asked.iter().map(|name| format!("ask {name}"));
    let mut printed: Vec<String> = asked.chain(outcome_lines(&case)).collect();
    printed.push("-- why".to_string());
    let said = text(&ended.stdout);
    assert!(said.starts_with(&lines(&printed)), "{said}");
    assert_eq!(ended.status.code(), Some(0));
    assert_eq!(server.asked(), wire(&case), "nothing is asked again");
}

#[test]
fn the_shell_loop_on_addresses_refused_and_misused() {
    if !has_dig() {
        return;
    }
    let server = Server::start(Zone::default()).expect("a server on loopback");
    for (words, printed) in [
        (["a..b", "mailto:x@c"], "refused 11 at 0\n"),
        (["a", "mailto:x"], "refused 23 at 0\n"),
        (["--json", "mailto:x@c!"], "refused 23 at 0\n"),
    ] {
        let ended = in_shell(&server, &[], &words);
        assert_eq!(text(&ended.stdout), printed);
        assert_eq!(ended.status.code(), Some(3), "{words:?}");
    }
    let check = root().join("examples/live/check.sh");
    let misused = output(limited(&check).args(["--address", "example.com"]));
    assert!(misused.stderr.starts_with(b"usage: check.sh "));
    assert_eq!(misused.status.code(), Some(2));
    assert_eq!(server.asked(), [""; 0], "nothing is looked up");
}
