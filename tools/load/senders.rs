//! Senders, which take turns.

use crate::clients::Progress;
use crate::lines::{push_line, Mark};
use crate::options::Options;
use std::io::{self, ErrorKind, Write};
use std::net::TcpStream;
use std::sync::atomic::Ordering;
use std::thread;
use std::time::{Duration, Instant};

/// How long a sender waits before it tries again.
const PAUSE: Duration = Duration::from_micros(20);

/// Writes all, waiting for room.
fn write_whole(stream: &mut TcpStream, mut bytes: &[u8]) -> io::Result<()> {
    while !bytes.is_empty() {
        match stream.write(bytes) {
            Ok(count) => bytes = &bytes[count..],
            Err(error) if error.kind() == ErrorKind::WouldBlock => thread::sleep(PAUSE),
            Err(error) => return Err(error),
        }
    }
    Ok(())
}

fn slowest(progress: &Progress) -> u64 {
    let all = progress
        .slowest
        .iter()
        .map(|slowest| slowest.load(Ordering::Relaxed));
    all.min().unwrap_or(u64::MAX)
}

/// Waits until the next lines are due: by the clock, or until few enough are under way.
fn await_turn(options: &Options, began: Instant, first: Duration, sent: u64, progress: &Progress) {
    if options.rate > 0 {
        let due = first + Duration::from_secs_f64(sent as f64 / options.rate as f64);
        thread::sleep(due.saturating_sub(began.elapsed()));
        return;
    }
    while sent.saturating_sub(slowest(progress)) > options.window {
        thread::sleep(PAUSE);
    }
}

/// Sends all lines, and says how many each sender sent.
pub fn send_all(
    options: &Options,
    streams: &mut [TcpStream],
    began: Instant,
    progress: &Progress,
) -> io::Result<Vec<u64>> {
    let mut sent = vec![0; streams.len()];
    let mut text = Vec::new();
    let (first, mut total, mut sender) = (began.elapsed(), 0, 0);
    while total < options.lines {
        await_turn(options, began, first, total, progress);
        let count = options.batch.min(options.lines - total);
        let micros = began.elapsed().as_micros() as u64;
        text.clear();
        for number in sent[sender]..sent[sender] + count {
            let mark = Mark {
                sender,
                number,
                micros,
            };
            push_line(&mut text, &mark, options.length);
        }
        write_whole(&mut streams[sender], &text)?;
        sent[sender] += count;
        total += count;
        sender = (sender + 1) % streams.len();
    }
    Ok(sent)
}
