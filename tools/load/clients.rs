//! Clients that log in, and check what comes.

use crate::delays::Delays;
use crate::epoll::{Epoll, Event, READABLE};
use crate::lines::{mark_of, split_line, Mark};
use std::io::{self, BufRead, BufReader, ErrorKind, Read, Write};
use std::net::TcpStream;
use std::sync::atomic::{AtomicBool, AtomicU64, Ordering};
use std::time::{Duration, Instant};

/// Where links of a kind are opened, and how they log in.
pub struct Port<'a> {
    pub address: &'a str,
    /// The first letter of the calls.
    pub letter: char,
    pub filter: &'a str,
    /// Whether they get the first sender's lines alone.
    pub is_first_only: bool,
}

/// What readers tell while they run.
pub struct Progress {
    pub is_over: AtomicBool,
    /// Lines that came in all.
    pub delivered: AtomicU64,
    /// For each reader how many lines the slowest of its clients with the full feed got.
    pub slowest: Vec<AtomicU64>,
}

/// What became of the lines.
pub struct Tally {
    pub delivered: u64,
    pub lost: u64,
    pub disordered: u64,
    pub closed: u64,
    pub delays: Delays,
}

impl Tally {
    pub fn new() -> Tally {
        Tally {
            delivered: 0,
            lost: 0,
            disordered: 0,
            closed: 0,
            delays: Delays::new(),
        }
    }

    pub fn add(&mut self, other: &Tally) {
        self.delivered += other.delivered;
        self.lost += other.lost;
        self.disordered += other.disordered;
        self.closed += other.closed;
        self.delays.add(&other.delays);
    }
}

pub struct Client {
    stream: TcpStream,
    /// The beginning of a line whose end hasn't come.
    rest: Vec<u8>,
    /// The number of each sender's next line.
    due: Vec<u64>,
    /// Where it sends, its number among the senders.
    own: Option<usize>,
    is_first_only: bool,
    got: u64,
    lost: u64,
    disordered: u64,
    is_closed: bool,
}

/// The passcode of a call without SSID.
fn passcode(call: &str) -> u16 {
    let mut hash: u16 = 0x73E2;
    for pair in call.to_ascii_uppercase().as_bytes().chunks(2) {
        hash ^= u16::from(pair[0]) << 8;
        hash ^= pair.get(1).copied().map_or(0, u16::from);
    }
    hash & 0x7FFF
}

impl Client {
    /// Opens a link and says the login line.
    fn connect(port: &Port, number: usize) -> io::Result<Client> {
        let call = format!("{}{number:05}", port.letter);
        let mut stream = TcpStream::connect(port.address)?;
        stream.set_nodelay(true)?;
        stream.set_read_timeout(Some(Duration::from_secs(30)))?;
        let code = passcode(&call);
        stream.write_all(
            format!("user {call} pass {code} vers load 1{}\r\n", port.filter).as_bytes(),
        )?;
        Ok(Client {
            stream,
            rest: Vec::new(),
            due: Vec::new(),
            own: None,
            is_first_only: port.is_first_only,
            got: 0,
            lost: 0,
            disordered: 0,
            is_closed: false,
        })
    }

    /// Hears up to the answer to the login.
    fn await_login(&mut self, senders: usize) -> io::Result<()> {
        let mut reader = BufReader::new(&self.stream);
        let mut line = Vec::new();
        while !line.starts_with(b"# logresp") {
            line.clear();
            if reader.read_until(b'\n', &mut line)? == 0 {
                return Err(ErrorKind::UnexpectedEof.into());
            }
        }
        // Whole lines there are comments, since nobody has sent yet.
        let begun = reader.buffer().rsplit(|byte| *byte == b'\n').next();
        self.rest = begun.unwrap_or_default().to_vec();
        self.due = vec![0; senders];
        self.stream.set_nonblocking(true)
    }

    /// The link to send on, as the sender of this number.
    pub fn as_sender(&mut self, number: usize) -> io::Result<TcpStream> {
        self.own = Some(number);
        self.stream.try_clone()
    }

    /// Whether the server has closed the link; what it brought before is let go.
    pub fn has_ended(&mut self) -> bool {
        let mut bytes = [0; 4096];
        loop {
            match self.stream.read(&mut bytes) {
                Ok(0) => return true,
                Ok(_) => {}
                Err(error) => return error.kind() != ErrorKind::WouldBlock,
            }
        }
    }

    /// Reads once. False at the link's end.
    fn read(&mut self, buffer: &mut [u8], began: Instant, delays: &mut Delays) -> bool {
        let count = match self.stream.read(buffer) {
            Ok(0) => return false,
            Ok(count) => count,
            Err(error) => {
                return matches!(error.kind(), ErrorKind::WouldBlock | ErrorKind::Interrupted)
            }
        };
        let now = began.elapsed().as_micros() as u64;
        let mut left = &buffer[..count];
        while let Some((line, after)) = split_line(left) {
            left = after;
            if self.rest.is_empty() {
                self.note(mark_of(line), now, delays);
            } else {
                self.rest.extend_from_slice(line);
                self.note(mark_of(&self.rest), now, delays);
                self.rest.clear();
            }
        }
        self.rest.extend_from_slice(left);
        true
    }

    fn note(&mut self, mark: Option<Mark>, now: u64, delays: &mut Delays) {
        let Some(mark) = mark else {
            return;
        };
        let Some(due) = self.due.get_mut(mark.sender) else {
            return;
        };
        if mark.number < *due {
            self.disordered += 1;
            return;
        }
        self.lost += mark.number - *due;
        *due = mark.number + 1;
        self.got += 1;
        delays.note(now.saturating_sub(mark.micros));
    }

    /// How many lines never came, where each sender sent so many.
    fn lost(&self, sent: &[u64]) -> u64 {
        let mut lost = self.lost;
        for (sender, (due, sent)) in self.due.iter().zip(sent).enumerate() {
            if self.own != Some(sender) && (sender == 0 || !self.is_first_only) {
                lost += sent - due;
            }
        }
        lost
    }
}

/// Opens so many links, and logs all in.
pub fn open_all(port: &Port, count: usize, senders: usize) -> io::Result<Vec<Client>> {
    let mut clients = Vec::new();
    for number in 0..count {
        clients.push(Client::connect(port, number)?);
    }
    for client in &mut clients {
        client.await_login(senders)?;
    }
    Ok(clients)
}

/// Some clients, and what came to them.
pub struct Reader {
    pub number: usize,
    pub clients: Vec<Client>,
    delivered: u64,
    delays: Delays,
}

impl Reader {
    pub fn new(number: usize) -> Reader {
        Reader {
            number,
            clients: Vec::new(),
            delivered: 0,
            delays: Delays::new(),
        }
    }

    /// Takes what comes until it is over.
    pub fn run(mut self, began: Instant, progress: &Progress) -> io::Result<Reader> {
        let epoll = Epoll::new()?;
        for (token, client) in self.clients.iter().enumerate() {
            epoll.add(&client.stream, token, READABLE)?;
        }
        let mut events = vec![Event::NONE; 1024];
        let mut buffer = vec![0; 262_144];
        while !progress.is_over.load(Ordering::Relaxed) {
            let mut got = 0;
            for event in epoll.wait(&mut events, 20)? {
                let client = &mut self.clients[event.token()];
                let before = client.got;
                if !client.read(&mut buffer, began, &mut self.delays) {
                    epoll.remove(&client.stream)?;
                    client.is_closed = true;
                }
                got += client.got - before;
            }
            self.delivered += got;
            progress.delivered.fetch_add(got, Ordering::Relaxed);
            progress.slowest[self.number].store(self.slowest(), Ordering::Relaxed);
        }
        Ok(self)
    }

    /// How many lines the slowest client with the full feed got that is still there; the senders don't count.
    fn slowest(&self) -> u64 {
        let full = self
            .clients
            .iter()
            .filter(|client| client.own.is_none() && !client.is_first_only && !client.is_closed);
        full.map(|client| client.got).min().unwrap_or(u64::MAX)
    }

    /// What became of the lines, where each sender sent so many.
    pub fn tally(self, sent: &[u64]) -> Tally {
        Tally {
            delivered: self.delivered,
            lost: self.clients.iter().map(|client| client.lost(sent)).sum(),
            disordered: self.clients.iter().map(|client| client.disordered).sum(),
            closed: self
                .clients
                .iter()
                .filter(|client| client.is_closed)
                .count() as u64,
            delays: self.delays,
        }
    }
}
