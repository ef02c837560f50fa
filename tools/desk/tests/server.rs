//! The name server of the live tests, asked in octets.

use std::io::{Read, Write};
use std::net::{TcpStream, UdpSocket};
use std::time::Duration;

use desk::message::name_octets;
use desk::server::Server;
use desk::zone::{long, record, Said, Zone};

/// A question for the TXT records of a name, with the room that is told.
fn question(name: &str, room: Option<u16>) -> Vec<u8> {
    let more = u8::from(room.is_some());
    let mut octets = vec![7, 9, 1, 0, 0, 1, 0, 0, 0, 0, 0, more];
    octets.extend(name_octets(name));
    octets.extend([0, 16, 0, 1]);
    if let Some(room) = room {
        octets.extend([0, 0, 41]);
        octets.extend(room.to_be_bytes());
        octets.extend([0; 6]);
    }
    octets
}

/// The wait for a reply that comes, and for one that does not.
const LONG: Duration = Duration::from_secs(10);
const SHORT: Duration = Duration::from_millis(500);

/// A reply over UDP, if one comes.
fn by_udp(server: &Server, question: &[u8], patience: Duration) -> Option<Vec<u8>> {
    let socket = UdpSocket::bind("127.0.0.1:0").expect("a socket");
    socket.set_read_timeout(Some(patience)).expect("a time");
    socket.send_to(question, server.address()).expect("sent");
    let mut room = vec![0; 65536];
    let length = socket.recv(&mut room).ok()?;
    room.truncate(length);
    Some(room)
}

fn by_tcp(server: &Server, question: &[u8]) -> Vec<u8> {
    let mut connection = TcpStream::connect(server.address()).expect("connected");
    let length = [0, question.len() as u8];
    connection.write_all(&length).expect("sent");
    connection.write_all(question).expect("sent");
    let mut reply = Vec::new();
    connection.read_to_end(&mut reply).expect("a reply");
    assert_eq!(reply[..2], ((reply.len() - 2) as u16).to_be_bytes());
    reply.split_off(2)
}

/// Flags and code, and how many answers.
fn head(reply: &[u8]) -> ([u8; 2], u8) {
    assert_eq!(reply[..2], [7, 9]);
    ([reply[2], reply[3]], reply[7])
}

const WHOLE: [u8; 2] = [0x81, 0x80];
const CUT_OFF: [u8; 2] = [0x83, 0x80];

#[test]
fn a_reply_in_octets() {
    let server = Server::start(Zone::new(&[("a.b", record("x"))])).expect("a server");
    let asked = question("A.b", None);
    let mut expected = vec![7, 9, 0x81, 0x80, 0, 1, 0, 1, 0, 0, 0, 0];
    expected.extend(b"\x01A\x01b\0\0\x10\0\x01");
    expected.extend(b"\x01a\x01b\0\0\x10\0\x01\0\0\0\x3c\0\x02\x01x");
    assert_eq!(by_udp(&server, &asked, LONG), Some(expected.clone()));
    assert_eq!(by_tcp(&server, &asked), expected);
    assert_eq!(server.asked(), ["udp a.b", "tcp a.b"]);
    assert_eq!(server.count("a.b"), (1, 1));
}

#[test]
fn a_reply_has_the_room_that_the_client_tells() {
    let text = "x".repeat(5000);
    let server = Server::start(Zone::new(&[("a", long(&text))])).expect("a server");
    let reply = |room| by_udp(&server, &question("a", room), LONG).expect("a reply");
    assert_eq!(head(&reply(None)), (CUT_OFF, 0));
    assert_eq!(head(&reply(Some(1232))), (CUT_OFF, 0));
    let whole = reply(Some(8192));
    assert_eq!(head(&whole), (WHOLE, 1));
    assert!(whole.len() > 5000);
    assert_eq!(head(&by_tcp(&server, &question("a", None))), (WHOLE, 1));
    assert_eq!(server.count("a"), (3, 1));
}

#[test]
fn codes_and_silence() {
    let zone = [
        ("f", Said::Failure),
        ("d", Said::NoData),
        ("s", Said::Silence),
    ];
    let server = Server::start(Zone::new(&zone)).expect("a server");
    let reply = |name: &str| by_udp(&server, &question(name, None), LONG);
    assert_eq!(reply("f").as_deref().map(head), Some(([0x81, 0x82], 0)));
    assert_eq!(reply("d").as_deref().map(head), Some((WHOLE, 0)));
    assert_eq!(reply("x").as_deref().map(head), Some(([0x81, 0x83], 0)));
    assert_eq!(by_udp(&server, &question("s", None), SHORT), None);
    assert_eq!(by_udp(&server, b"no question", SHORT), None);
    assert_eq!(server.asked(), ["udp f", "udp d", "udp x", "udp s"]);
}

/// A name that is named itself is not the wildcard's, and neither is the one that
/// the wildcard stands below.
#[test]
fn a_wildcard() {
    let zone = [
        ("*.b", record("x")),
        ("*.c.b", Said::Failure),
        ("d.b", Said::NoData),
    ];
    let server = Server::start(Zone::new(&zone)).expect("a server");
    let reply = |name: &str| {
        let reply = by_udp(&server, &question(name, None), LONG);
        head(&reply.expect("a reply"))
    };
    assert_eq!(reply("a.b"), (WHOLE, 1));
    assert_eq!(reply("a.e.b"), (WHOLE, 1));
    assert_eq!(reply("d.b"), (WHOLE, 0));
    assert_eq!(reply("a.c.b"), ([0x81, 0x82], 0));
    assert_eq!(reply("b"), ([0x81, 0x83], 0));
    let octets = by_udp(&server, &question("a.b", None), LONG).expect("a reply");
    assert!(octets.ends_with(b"\x01a\x01b\0\0\x10\0\x01\0\0\0\x3c\0\x02\x01x"));
}
