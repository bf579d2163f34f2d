//! Packets as a plain server might read them: their copies are dropped for good, and they know no filters, places or hearers.

use std::collections::HashSet;

/// The most elements that a path has.
const MOST_VIAS: usize = 32;

/// The most bytes of a line without its end.
const MOST_BYTES: usize = 510;

/// What is added to a path: 18 bytes, as the server adds them.
const ADDED: &[u8] = b",TCPIP*,qAC,T2TEST";

fn is_call(text: &[u8]) -> bool {
    (1..=9).contains(&text.len())
        && text
            .iter()
            .all(|byte| byte.is_ascii_alphanumeric() || *byte == b'-')
}

/// The call of an element of a path, used or not.
fn via_of(text: &[u8]) -> Option<&[u8]> {
    let call = text.strip_suffix(b"*").unwrap_or(text);
    is_call(call).then_some(call)
}

fn cut_at(byte: u8, text: &[u8]) -> Option<(&[u8], &[u8])> {
    let place = text.iter().position(|other| *other == byte)?;
    Some((&text[..place], &text[place + 1..]))
}

/// Whether the elements of a path are well formed, and none is a q construct.
fn is_new_path<'a>(path: impl Iterator<Item = &'a [u8]>) -> bool {
    let mut calls: [&[u8]; MOST_VIAS] = [&[]; MOST_VIAS];
    let mut count = 0;
    for text in path {
        let (Some(call), Some(place)) = (via_of(text), calls.get_mut(count)) else {
            return false;
        };
        *place = call;
        count += 1;
    }
    !calls[..count].iter().any(|call| call.starts_with(b"qA"))
}

/// The packets that were seen.
pub struct Packets {
    keys: HashSet<Vec<u8>>,
}

impl Packets {
    pub fn new() -> Packets {
        Packets {
            keys: HashSet::new(),
        }
    }

    /// Appends a packet with what is added to its path, unless it is malformed or a copy.
    pub fn push(&mut self, feed: &mut Vec<u8>, line: &[u8]) -> Option<()> {
        let text = line.strip_suffix(b"\r\n").unwrap_or(line);
        let (head, body) = cut_at(b':', text)?;
        let (source, path) = cut_at(b'>', head)?;
        let mut path = path.split(|byte| *byte == b',');
        let dest = path.next()?;
        if text.len() > MOST_BYTES || !is_call(source) || !is_call(dest) || !is_new_path(path) {
            return None;
        }
        let base = dest.split(|byte| *byte == b'-').next()?;
        let key = [source, b">", base, b":", body.trim_ascii_end()].concat();
        if self.keys.contains(&key) {
            return None;
        }
        for part in [head, ADDED, b":", body, b"\r\n"] {
            feed.extend_from_slice(part);
        }
        self.keys.insert(key);
        Some(())
    }
}
