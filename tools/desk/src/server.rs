//! A small name server on loopback, over UDP and TCP, that writes down what it
//! was asked. It ends when it is dropped.

use crate::message::{Query, TXT};
use crate::zone::Zone;
use std::io::{self, Read, Write};
use std::net::{SocketAddr, TcpListener, TcpStream, UdpSocket};
use std::sync::atomic::{AtomicBool, Ordering};
use std::sync::{Arc, Mutex};
use std::thread::{self, JoinHandle};
use std::time::Duration;

/// How often a port is sought that is free for both.
const TRIES: usize = 16;
/// The longest wait for a client that is connected.
const PATIENCE: Duration = Duration::from_secs(5);

/// What the two threads have in common.
struct Desk {
    zone: Zone,
    asked: Mutex<Vec<String>>,
    stopped: AtomicBool,
}

pub struct Server {
    address: SocketAddr,
    desk: Arc<Desk>,
    threads: Vec<JoinHandle<()>>,
}

impl Server {
    /// Starts a server on a port that the system chooses.
    pub fn start(zone: Zone) -> io::Result<Server> {
        let (datagrams, connections) = sockets()?;
        let address = datagrams.local_addr()?;
        let desk = Arc::new(Desk {
            zone,
            asked: Mutex::default(),
            stopped: AtomicBool::new(false),
        });
        let (one, other) = (desk.clone(), desk.clone());
        let threads = vec![
            thread::spawn(move || one.serve_datagrams(&datagrams)),
            thread::spawn(move || other.serve_connections(&connections)),
        ];
        Ok(Server {
            address,
            desk,
            threads,
        })
    }

    pub fn address(&self) -> SocketAddr {
        self.address
    }

    /// What came over the wire, in order: each question by its transport, its type
    /// unless that is TXT, and its name, such as `udp _dmarc.example.com`.
    pub fn asked(&self) -> Vec<String> {
        self.desk.asked.lock().expect("the list").clone()
    }

    /// How often a name was asked, over UDP and over TCP.
    pub fn count(&self, name: &str) -> (usize, usize) {
        let asked = self.asked();
        let count = |over: &str| {
            let line = format!("{over} {name}");
            asked.iter().filter(|asked| **asked == line).count()
        };
        (count("udp"), count("tcp"))
    }
}

impl Drop for Server {
    /// Wakes both threads, and waits for them.
    fn drop(&mut self) {
        self.desk.stopped.store(true, Ordering::SeqCst);
        let woken = UdpSocket::bind("127.0.0.1:0")
            .and_then(|socket| socket.send_to(&[], self.address))
            .and_then(|_| TcpStream::connect(self.address))
            .map(drop);
        if woken.is_ok() {
            for thread in self.threads.drain(..) {
                let _ = thread.join();
            }
        }
    }
}

/// Sockets of both transports on one port.
fn sockets() -> io::Result<(UdpSocket, TcpListener)> {
    let pair = || {
        let connections = TcpListener::bind("127.0.0.1:0")?;
        let datagrams = UdpSocket::bind(connections.local_addr()?)?;
        Ok((datagrams, connections))
    };
    let mut found = pair();
    for _ in 1..TRIES {
        if found.is_ok() {
            break;
        }
        found = pair();
    }
    found
}

impl Desk {
    fn stopped(&self) -> bool {
        self.stopped.load(Ordering::SeqCst)
    }

    fn serve_datagrams(&self, socket: &UdpSocket) {
        let mut room = [0; 65536];
        while !self.stopped() {
            let Ok((length, client)) = socket.recv_from(&mut room) else {
                continue;
            };
            let Some(query) = self.take("udp", &room[..length]) else {
                continue;
            };
            let reply = self.zone.reply(&query).map(|reply| fitted(&query, reply));
            if let Some(reply) = reply {
                let _ = socket.send_to(&reply, client);
            }
        }
    }

    fn serve_connections(&self, listener: &TcpListener) {
        while !self.stopped() {
            if let Ok((connection, _)) = listener.accept() {
                let _ = self.serve_connection(connection);
            }
        }
    }

    /// One question and its reply, each with its length before it.
    fn serve_connection(&self, mut connection: TcpStream) -> io::Result<()> {
        connection.set_read_timeout(Some(PATIENCE))?;
        connection.set_write_timeout(Some(PATIENCE))?;
        let mut length = [0; 2];
        connection.read_exact(&mut length)?;
        let mut octets = vec![0; usize::from(u16::from_be_bytes(length))];
        connection.read_exact(&mut octets)?;
        let query = self.take("tcp", &octets);
        if let Some(reply) = query.and_then(|query| self.zone.reply(&query)) {
            let length = u16::try_from(reply.len()).expect("a reply of at most 65535 octets");
            connection.write_all(&[&length.to_be_bytes()[..], &reply].concat())?;
        }
        Ok(())
    }

    /// Reads a question and writes it down.
    fn take(&self, over: &str, octets: &[u8]) -> Option<Query> {
        let query = Query::read(octets)?;
        let kind = match query.kind {
            TXT => String::new(),
            other => format!("type {other} "),
        };
        let line = format!("{over} {kind}{}", query.name);
        self.asked.lock().expect("the list").push(line);
        Some(query)
    }
}

/// A reply over UDP: cut off where the client has too little room for it.
fn fitted(query: &Query, reply: Vec<u8>) -> Vec<u8> {
    match reply.len() <= query.room {
        true => reply,
        false => query.cut_off(),
    }
}
