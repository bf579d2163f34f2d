//! A bare broadcast server, to compare with: each line that a link sends goes to all other links, as it is.
//!
//! One thread, epoll, no parsing beyond line ends and the login, and one write a link for all lines of a turn.
//!
//! With the word `packets` it is a plain server: it reads each line as a packet, drops copies, and adds to its path. With
//! `read=N` it reads at most so many bytes at a time.

mod epoll;
mod packets;

use epoll::{Epoll, Event, READABLE, WRITABLE};
use packets::Packets;
use std::env;
use std::io::{self, ErrorKind, Read, Write};
use std::net::{TcpListener, TcpStream};
use std::ops::Range;
use std::os::fd::AsRawFd;

/// The token of the listener; those of links begin at 0.
const LISTENER: usize = usize::MAX;

/// How many bytes are read at a time where nothing is said of it.
const MOST_READ: usize = 65_536;

/// How many links may wait to be opened; the system may hold fewer.
const BACKLOG: i32 = 4096;

/// How many links are opened in a turn at most.
const MOST_OPENED: usize = 64;

/// How many bytes may wait for a link, which is dropped where there are more.
const MOST_PENDING: usize = 1 << 20;

extern "C" {
    fn listen(socket: i32, backlog: i32) -> i32;
}

struct Link {
    stream: TcpStream,
    is_named: bool,
    /// It sent a line in this turn.
    has_said: bool,
    /// The beginning of a line whose end hasn't come.
    line: Vec<u8>,
    pending: Vec<u8>,
}

/// A line of this turn's feed, and who sent it.
struct Said {
    link: usize,
    at: Range<usize>,
}

struct Server {
    epoll: Epoll,
    listener: TcpListener,
    links: Vec<Option<Link>>,
    free: Vec<usize>,
    feed: Vec<u8>,
    said: Vec<Said>,
    buffer: Vec<u8>,
    /// Lines are read as packets.
    packets: Option<Packets>,
}

impl Server {
    fn new(address: &str, most_read: usize, packets: Option<Packets>) -> io::Result<Server> {
        let listener = TcpListener::bind(address)?;
        listener.set_nonblocking(true)?;
        // SAFETY: the call takes no memory, and the descriptor is open.
        unsafe { listen(listener.as_raw_fd(), BACKLOG) };
        let epoll = Epoll::new()?;
        epoll.add(&listener, LISTENER, READABLE)?;
        Ok(Server {
            epoll,
            listener,
            links: Vec::new(),
            free: Vec::new(),
            feed: Vec::new(),
            said: Vec::new(),
            buffer: vec![0; most_read],
            packets,
        })
    }

    fn serve(&mut self) -> io::Result<()> {
        let mut events = [Event::NONE; 512];
        loop {
            let mut dropped = Vec::new();
            for event in self.epoll.wait(&mut events, -1)? {
                let token = event.token();
                if token == LISTENER {
                    self.open_links()?;
                } else if self.serve_link(token, event).is_err() {
                    dropped.push(token);
                }
            }
            self.broadcast(&mut dropped);
            for token in dropped {
                if self.links[token].take().is_some() {
                    self.free.push(token);
                }
            }
        }
    }

    fn open_links(&mut self) -> io::Result<()> {
        for _ in 0..MOST_OPENED {
            let Ok((stream, _)) = self.listener.accept() else {
                break;
            };
            stream.set_nonblocking(true)?;
            stream.set_nodelay(true)?;
            let token = self.free.pop().unwrap_or(self.links.len());
            self.epoll.add(&stream, token, READABLE)?;
            if token == self.links.len() {
                self.links.push(None);
            }
            let mut link = Link {
                stream,
                is_named: false,
                has_said: false,
                line: Vec::new(),
                pending: Vec::new(),
            };
            if offer(&self.epoll, token, &mut link, b"# bare\r\n").is_ok() {
                self.links[token] = Some(link);
            }
        }
        Ok(())
    }

    fn serve_link(&mut self, token: usize, event: &Event) -> io::Result<()> {
        let Some(link) = &mut self.links[token] else {
            return Ok(());
        };
        if event.is_writable() {
            write_pending(&self.epoll, token, link)?;
        }
        if !event.is_readable() {
            return Ok(());
        }
        let count = match link.stream.read(&mut self.buffer) {
            Ok(0) => return Err(ErrorKind::UnexpectedEof.into()),
            Err(error) if error.kind() == ErrorKind::WouldBlock => return Ok(()),
            answer => answer?,
        };
        for piece in self.buffer[..count].split_inclusive(|byte| *byte == b'\n') {
            link.line.extend_from_slice(piece);
            if !piece.ends_with(b"\n") {
                break;
            }
            if link.is_named {
                let start = self.feed.len();
                match &mut self.packets {
                    Some(packets) => packets.push(&mut self.feed, &link.line).unwrap_or(()),
                    None => self.feed.extend_from_slice(&link.line),
                }
                let at = start..self.feed.len();
                self.said.push(Said { link: token, at });
                link.has_said = true;
            } else {
                log_in(&self.epoll, token, link)?;
            }
            link.line.clear();
        }
        Ok(())
    }

    /// Sends the lines of this turn to all links but their own.
    fn broadcast(&mut self, dropped: &mut Vec<usize>) {
        if self.said.is_empty() {
            return;
        }
        let mut others = Vec::new();
        for (token, place) in self.links.iter_mut().enumerate() {
            let Some(link) = place.as_mut().filter(|link| link.is_named) else {
                continue;
            };
            let bytes = if link.has_said {
                link.has_said = false;
                others.clear();
                for said in self.said.iter().filter(|said| said.link != token) {
                    others.extend_from_slice(&self.feed[said.at.clone()]);
                }
                &others
            } else {
                &self.feed
            };
            if offer(&self.epoll, token, link, bytes).is_err() {
                dropped.push(token);
            }
        }
        self.feed.clear();
        self.said.clear();
    }
}

fn log_in(epoll: &Epoll, token: usize, link: &mut Link) -> io::Result<()> {
    let text = String::from_utf8_lossy(&link.line).into_owned();
    let mut words = text.split_ascii_whitespace();
    if let (Some("user"), Some(call)) = (words.next(), words.next()) {
        link.is_named = true;
        let reply = format!("# logresp {call} verified, server BARE\r\n");
        offer(epoll, token, link, reply.as_bytes())?;
    }
    Ok(())
}

/// Writes the bytes, or has them wait.
fn offer(epoll: &Epoll, token: usize, link: &mut Link, bytes: &[u8]) -> io::Result<()> {
    if bytes.is_empty() {
        return Ok(());
    }
    if !link.pending.is_empty() {
        link.pending.extend_from_slice(bytes);
        if link.pending.len() > MOST_PENDING {
            return Err(ErrorKind::TimedOut.into());
        }
        return Ok(());
    }
    let taken = write_some(&mut link.stream, bytes)?;
    if taken < bytes.len() {
        link.pending.extend_from_slice(&bytes[taken..]);
        epoll.modify(&link.stream, token, READABLE | WRITABLE)?;
    }
    Ok(())
}

fn write_pending(epoll: &Epoll, token: usize, link: &mut Link) -> io::Result<()> {
    let taken = write_some(&mut link.stream, &link.pending)?;
    link.pending.drain(..taken);
    if link.pending.is_empty() {
        epoll.modify(&link.stream, token, READABLE)?;
    }
    Ok(())
}

fn write_some(stream: &mut TcpStream, bytes: &[u8]) -> io::Result<usize> {
    match stream.write(bytes) {
        Err(error) if error.kind() == ErrorKind::WouldBlock => Ok(0),
        answer => answer,
    }
}

fn main() -> io::Result<()> {
    let mut words = env::args().skip(1);
    let address = words.next().unwrap_or("127.0.0.1:14580".to_owned());
    let (mut most_read, mut packets) = (MOST_READ, None);
    for word in words {
        match word.strip_prefix("read=").map(str::parse) {
            Some(Ok(count)) => most_read = count,
            None if word == "packets" => packets = Some(Packets::new()),
            _ => return Err(io::Error::other(format!("{word}: read=N or packets"))),
        }
    }
    Server::new(&address, most_read, packets)?.serve()
}
