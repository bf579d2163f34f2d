//! The lines that are sent, each with a mark at its end.

use std::ffi::c_void;
use std::io::Write;

extern "C" {
    fn memchr(bytes: *const c_void, byte: i32, count: usize) -> *const c_void;
}

/// Who sent a line, its number among the sender's lines, and when it was sent, in microseconds since the beginning.
pub struct Mark {
    pub sender: usize,
    pub number: u64,
    pub micros: u64,
}

/// The bytes of a mark: five digits, eight and ten, with blanks between.
const MARK: usize = 25;

/// Appends a line of so many bytes with its CR LF.
pub fn push_line(out: &mut Vec<u8>, mark: &Mark, length: usize) {
    let end = out.len() + length - MARK - 2;
    let _ = write!(out, "S{:05}>APRS:>", mark.sender);
    while out.len() < end {
        out.push(b'.');
    }
    let _ = write!(
        out,
        "{:05} {:08} {:010}\r\n",
        mark.sender, mark.number, mark.micros
    );
}

/// The bytes up to the first LF, which is among them, and those after it.
pub fn split_line(bytes: &[u8]) -> Option<(&[u8], &[u8])> {
    let start = bytes.as_ptr();
    // SAFETY: the call reads no more than the bytes that there are.
    let found = unsafe { memchr(start.cast(), i32::from(b'\n'), bytes.len()) };
    if found.is_null() {
        return None;
    }
    Some(bytes.split_at(found as usize - start as usize + 1))
}

fn number(digits: &[u8]) -> Option<u64> {
    digits.iter().try_fold(0, |value, digit| {
        digit
            .is_ascii_digit()
            .then(|| value * 10 + u64::from(digit - b'0'))
    })
}

/// The mark of a line with its end, where it has one.
pub fn mark_of(line: &[u8]) -> Option<Mark> {
    let text = line.strip_suffix(b"\r\n")?;
    if text.starts_with(b"#") {
        return None;
    }
    let mark = &text[text.len().checked_sub(MARK)?..];
    Some(Mark {
        sender: number(&mark[..5])? as usize,
        number: number(&mark[6..14])?,
        micros: number(&mark[15..])?,
    })
}
