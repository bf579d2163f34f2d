//! The words of the command line, `NAME=VALUE` each.

use std::str::FromStr;

/// What is to be done.
#[derive(Clone, Copy, PartialEq, Eq)]
pub enum Mode {
    /// Senders send, and clients take what comes.
    Feed,
    /// Clients log in, and nothing is sent.
    Idle,
}

#[derive(Clone)]
pub struct Options {
    pub mode: Mode,
    /// The address of the full feed.
    pub full: String,
    /// The address of a port with filters.
    pub igate: String,
    /// Clients with the full feed.
    pub clients: usize,
    /// Clients whose filter passes the first sender's lines alone.
    pub filtered: usize,
    /// Clients with the full feed that read nothing once they are logged in.
    pub stalled: usize,
    pub senders: usize,
    /// How many lines are sent in all.
    pub lines: u64,
    /// Lines a second in all; 0 for as fast as the slowest client takes them.
    pub rate: u64,
    /// Lines in one write.
    pub batch: u64,
    /// The bytes of a line with its CR LF.
    pub length: usize,
    /// How many lines are under way at most, where they are sent as fast as they go.
    pub window: u64,
    /// Threads that read.
    pub readers: usize,
    /// How long idle links are watched.
    pub seconds: u64,
    /// The server's process; 0 where its cost isn't asked.
    pub pid: u32,
}

fn number<T: FromStr>(name: &str, value: &str) -> Result<T, String> {
    value
        .parse()
        .map_err(|_| format!("{name}={value}: not a number in range"))
}

impl Options {
    pub fn read(mut words: impl Iterator<Item = String>) -> Result<Options, String> {
        let mode = match words.next().as_deref() {
            Some("feed") => Mode::Feed,
            Some("idle") => Mode::Idle,
            _ => return Err("the first word is feed or idle".to_owned()),
        };
        let mut options = Options {
            mode,
            full: "127.0.0.1:10152".to_owned(),
            igate: "127.0.0.1:14580".to_owned(),
            clients: 10,
            filtered: 0,
            stalled: 0,
            senders: 1,
            lines: 10_000,
            rate: 1000,
            batch: 1,
            length: 80,
            window: 2000,
            readers: 1,
            seconds: 5,
            pid: 0,
        };
        for word in words {
            let (name, value) = word
                .split_once('=')
                .ok_or(format!("{word}: not NAME=VALUE"))?;
            options.set(name, value)?;
        }
        options.checked()
    }

    fn set(&mut self, name: &str, value: &str) -> Result<(), String> {
        match name {
            "full" => self.full = value.to_owned(),
            "igate" => self.igate = value.to_owned(),
            "clients" => self.clients = number(name, value)?,
            "filtered" => self.filtered = number(name, value)?,
            "stalled" => self.stalled = number(name, value)?,
            "senders" => self.senders = number(name, value)?,
            "lines" => self.lines = number(name, value)?,
            "rate" => self.rate = number(name, value)?,
            "batch" => self.batch = number(name, value)?,
            "length" => self.length = number(name, value)?,
            "window" => self.window = number(name, value)?,
            "readers" => self.readers = number(name, value)?,
            "seconds" => self.seconds = number(name, value)?,
            "pid" => self.pid = number(name, value)?,
            _ => return Err(format!("{name}: no such option")),
        }
        Ok(())
    }

    fn checked(self) -> Result<Options, String> {
        if !(1..=20_000).contains(&self.clients) || self.filtered.max(self.stalled) > 20_000 {
            return Err("clients=1 to 20000, filtered and stalled=0 to 20000".to_owned());
        }
        if !(1..=1000).contains(&self.senders)
            || self.batch == 0
            || !(1..=64).contains(&self.readers)
        {
            return Err("senders=1 to 1000, batch=1 at least, readers=1 to 64".to_owned());
        }
        if !(50..=450).contains(&self.length) || self.lines >= 100_000_000 || self.seconds == 0 {
            return Err("length=50 to 450, lines under 100000000, seconds=1 at least".to_owned());
        }
        Ok(self)
    }
}
