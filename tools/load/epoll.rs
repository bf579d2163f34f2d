//! The system's epoll, by its functions in C.
// Each of the two programs uses a part.
#![allow(dead_code)]

use std::io;
use std::os::fd::{AsRawFd, FromRawFd, OwnedFd, RawFd};

/// There is something to read.
pub const READABLE: u32 = 1;
/// There is room to write.
pub const WRITABLE: u32 = 4;

const ADD: i32 = 1;
const REMOVE: i32 = 2;
const MODIFY: i32 = 3;
const CLOSE_ON_EXEC: i32 = 0o2_000_000;

/// What the system says of one source.
#[derive(Clone, Copy)]
#[repr(C)]
#[cfg_attr(target_arch = "x86_64", repr(packed))]
pub struct Event {
    flags: u32,
    token: u64,
}

impl Event {
    pub const NONE: Event = Event { flags: 0, token: 0 };

    pub fn token(&self) -> usize {
        self.token as usize
    }

    pub fn is_writable(&self) -> bool {
        self.flags & WRITABLE != 0
    }

    /// There are bytes, or the end, or an error that a read tells.
    pub fn is_readable(&self) -> bool {
        self.flags & !WRITABLE != 0
    }
}

extern "C" {
    fn epoll_create1(flags: i32) -> i32;
    fn epoll_ctl(epoll: i32, operation: i32, source: i32, event: *mut Event) -> i32;
    fn epoll_wait(epoll: i32, events: *mut Event, most: i32, milliseconds: i32) -> i32;
}

fn checked(answer: i32) -> io::Result<i32> {
    if answer < 0 {
        Err(io::Error::last_os_error())
    } else {
        Ok(answer)
    }
}

/// Sources that are watched, each until it is closed.
pub struct Epoll {
    epoll: OwnedFd,
}

impl Epoll {
    pub fn new() -> io::Result<Epoll> {
        // SAFETY: the call takes no memory of ours, and the descriptor that it makes is ours alone.
        let epoll = unsafe { OwnedFd::from_raw_fd(checked(epoll_create1(CLOSE_ON_EXEC))?) };
        Ok(Epoll { epoll })
    }

    pub fn add(&self, source: &impl AsRawFd, token: usize, flags: u32) -> io::Result<()> {
        self.control(ADD, source.as_raw_fd(), token, flags)
    }

    pub fn modify(&self, source: &impl AsRawFd, token: usize, flags: u32) -> io::Result<()> {
        self.control(MODIFY, source.as_raw_fd(), token, flags)
    }

    pub fn remove(&self, source: &impl AsRawFd) -> io::Result<()> {
        self.control(REMOVE, source.as_raw_fd(), 0, 0)
    }

    fn control(&self, operation: i32, source: RawFd, token: usize, flags: u32) -> io::Result<()> {
        let mut event = Event {
            flags,
            token: token as u64,
        };
        // SAFETY: the event lives through the call, which only reads it.
        checked(unsafe { epoll_ctl(self.epoll.as_raw_fd(), operation, source, &mut event) })?;
        Ok(())
    }

    /// Waits so long at most, and says what is ready.
    pub fn wait<'a>(&self, events: &'a mut [Event], milliseconds: i32) -> io::Result<&'a [Event]> {
        let most = events.len() as i32;
        // SAFETY: the events live through the call, which writes so many of them at most.
        let count = unsafe {
            epoll_wait(
                self.epoll.as_raw_fd(),
                events.as_mut_ptr(),
                most,
                milliseconds,
            )
        };
        match checked(count) {
            Ok(count) => Ok(&events[..count as usize]),
            Err(error) if error.kind() == io::ErrorKind::Interrupted => Ok(&[]),
            Err(error) => Err(error),
        }
    }
}
