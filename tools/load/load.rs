//! Loads a server of APRS-IS with clients and senders, and says what came through and what it cost.
//!
//! Each line says who sent it, its number among the sender's lines, and when it was sent. So the clients see what is lost
//! or out of order, and how long each line took.

mod clients;
mod delays;
mod epoll;
mod lines;
mod options;
mod process;
mod senders;

use clients::{open_all, Client, Port, Progress, Reader, Tally};
use options::{Mode, Options};
use process::Process;
use senders::send_all;
use std::env;
use std::io;
use std::net::TcpStream;
use std::process::ExitCode;
use std::sync::atomic::{AtomicBool, AtomicU64, Ordering};
use std::sync::Arc;
use std::thread;
use std::time::{Duration, Instant};

/// Where nothing has come for so long, nothing more will.
const QUIET: Duration = Duration::from_secs(20);

/// How many of the links the server has closed.
fn ended(clients: &mut [Client]) -> usize {
    clients
        .iter_mut()
        .map(|client| usize::from(client.has_ended()))
        .sum()
}

/// Clients log in and idle.
fn idle(options: &Options) -> io::Result<()> {
    let process = Process::of(options.pid);
    let before = process.memory();
    let began = Instant::now();
    let port = Port {
        address: &options.full,
        letter: 'I',
        filter: "",
        is_first_only: false,
    };
    let mut clients = open_all(&port, options.clients, 0)?;
    let took = began.elapsed().as_secs_f64();
    let count = clients.len() as f64;
    println!(
        "logged in   {count} links in {took:.2} s, {:.0} a second",
        count / took
    );
    thread::sleep(Duration::from_secs(1));
    let after = process.memory();
    let each = (after as f64 - before as f64) / count;
    println!("memory      {before} kB before, {after} kB after: {each:.2} kB a link");
    let cpu = process.cpu();
    thread::sleep(Duration::from_secs(options.seconds));
    let share = (process.cpu() - cpu) / options.seconds as f64 * 100.0;
    println!(
        "idle        {share:.2} % of a processor over {} s",
        options.seconds
    );
    println!("closed      {} links", ended(&mut clients));
    leave(options, clients)
}

/// All clients leave at once, and then one that stays sends a line to another.
fn leave(options: &Options, clients: Vec<Client>) -> io::Result<()> {
    let options = Options {
        clients: 1,
        filtered: 0,
        stalled: 0,
        senders: 1,
        readers: 1,
        lines: 1,
        ..options.clone()
    };
    let mut links = open_links(&options)?;
    drop(clients);
    let outcome = run_feed(&options, links.readers, &mut links.streams)?;
    let (delivered, took) = (outcome.tally.delivered, outcome.tally.delays.most());
    println!("left        {delivered} line sent right after all left took {took:.1} ms");
    Ok(())
}

/// All links of a run: shared among the readers, those that are sent on, and those that aren't read.
struct Links {
    readers: Vec<Reader>,
    streams: Vec<TcpStream>,
    stalled: Vec<Client>,
}

impl Links {
    fn count(&self) -> usize {
        let read: usize = self.readers.iter().map(|reader| reader.clients.len()).sum();
        read + self.stalled.len()
    }
}

fn open_links(options: &Options) -> io::Result<Links> {
    let full = Port {
        address: &options.full,
        letter: 'C',
        filter: "",
        is_first_only: false,
    };
    let senders = Port {
        letter: 'S',
        ..full
    };
    let filtered = Port {
        address: &options.igate,
        letter: 'F',
        filter: " filter b/S00000",
        is_first_only: true,
    };
    let count = options.senders;
    let mut sending = open_all(&senders, count, count)?;
    let mut streams = Vec::new();
    for (number, client) in sending.iter_mut().enumerate() {
        streams.push(client.as_sender(number)?);
    }
    let mut readers: Vec<Reader> = (0..options.readers).map(Reader::new).collect();
    let all = sending
        .into_iter()
        .chain(open_all(&full, options.clients, count)?)
        .chain(open_all(&filtered, options.filtered, count)?);
    for (place, client) in all.enumerate() {
        readers[place % options.readers].clients.push(client);
    }
    let stalled = open_all(
        &Port {
            letter: 'X',
            ..full
        },
        options.stalled,
        count,
    )?;
    Ok(Links {
        readers,
        streams,
        stalled,
    })
}

/// Waits until all has come that can be expected, or nothing more comes, and says when the last came.
fn await_end(progress: &Progress, expected: u64) -> Instant {
    let (mut last, mut moment) = (progress.delivered.load(Ordering::Relaxed), Instant::now());
    while last < expected && moment.elapsed() < QUIET {
        thread::sleep(Duration::from_micros(500));
        let delivered = progress.delivered.load(Ordering::Relaxed);
        if delivered > last {
            (last, moment) = (delivered, Instant::now());
        }
    }
    moment
}

/// How many deliveries so many lines of each sender make.
fn expected(options: &Options, sent: &[u64]) -> u64 {
    let total: u64 = sent.iter().sum();
    total * (options.clients + options.senders - 1) as u64 + sent[0] * options.filtered as u64
}

fn report(options: &Options, outcome: &Outcome) {
    let Outcome {
        seconds,
        cpu,
        tally,
    } = outcome;
    let (sent, delivered) = (options.lines as f64, tally.delivered as f64);
    println!(
        "sent        {sent} lines in {seconds:.3} s, {:.0} a second",
        sent / seconds
    );
    println!(
        "delivered   {delivered} lines, {:.0} a second",
        delivered / seconds
    );
    println!(
        "wrong       {} lost, {} out of order; {} links closed",
        tally.lost, tally.disordered, tally.closed
    );
    let delays = &tally.delays;
    println!(
        "took        p50 {:.3} ms, p99 {:.3} ms, at most {:.3} ms",
        delays.within(500),
        delays.within(990),
        delays.most()
    );
    println!(
        "processor   {cpu:.2} s, {:.4} us a delivered line",
        cpu * 1e6 / delivered
    );
}

/// What a run came to: how long it took, what it cost, and what became of the lines.
struct Outcome {
    seconds: f64,
    cpu: f64,
    tally: Tally,
}

/// Senders send, and clients take what comes.
fn run_feed(
    options: &Options,
    readers: Vec<Reader>,
    streams: &mut [TcpStream],
) -> io::Result<Outcome> {
    let process = Process::of(options.pid);
    let progress = Arc::new(Progress {
        is_over: AtomicBool::new(false),
        delivered: AtomicU64::new(0),
        slowest: (0..options.readers).map(|_| AtomicU64::new(0)).collect(),
    });
    let began = Instant::now();
    let threads: Vec<_> = readers
        .into_iter()
        .map(|reader| {
            let progress = progress.clone();
            thread::spawn(move || reader.run(began, &progress))
        })
        .collect();
    let cpu = process.cpu();
    let sent = send_all(options, streams, began, &progress)?;
    let last = await_end(&progress, expected(options, &sent));
    let cpu = process.cpu() - cpu;
    progress.is_over.store(true, Ordering::Relaxed);
    let mut tally = Tally::new();
    for thread in threads {
        let reader = thread.join().map_err(|_| io::ErrorKind::Other)??;
        tally.add(&reader.tally(&sent));
    }
    Ok(Outcome {
        seconds: (last - began).as_secs_f64(),
        cpu,
        tally,
    })
}

fn feed(options: &Options) -> io::Result<()> {
    let process = Process::of(options.pid);
    let before = process.memory();
    let began = Instant::now();
    let mut links = open_links(options)?;
    let count = links.count() as f64;
    let took = began.elapsed().as_secs_f64();
    println!("logged in   {count} links in {took:.3} s");
    let with_links = process.memory();
    let outcome = run_feed(options, links.readers, &mut links.streams)?;
    report(options, &outcome);
    let each = (with_links as f64 - before as f64) / count;
    println!(
        "memory      {before} kB before, {with_links} kB with the links ({each:.2} kB a link), {} kB at the end",
        process.memory()
    );
    if options.stalled > 0 {
        println!(
            "stalled     {} links, {} closed",
            options.stalled,
            ended(&mut links.stalled)
        );
    }
    Ok(())
}

fn run() -> Result<(), String> {
    let options = Options::read(env::args().skip(1))?;
    let done = match options.mode {
        Mode::Feed => feed(&options),
        Mode::Idle => idle(&options),
    };
    done.map_err(|error| error.to_string())
}

fn main() -> ExitCode {
    match run() {
        Ok(()) => ExitCode::SUCCESS,
        Err(fault) => {
            eprintln!("load: {fault}");
            ExitCode::FAILURE
        }
    }
}
