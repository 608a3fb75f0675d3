//! The few functions of the C library that are needed here and that Rust's own does not lend: pages, processes, an alarm.

use std::ffi::c_void;
use std::io;

extern "C" {
    fn mmap(
        at: *mut c_void,
        length: usize,
        access: i32,
        flags: i32,
        file: i32,
        from: i64,
    ) -> *mut c_void;
    fn mprotect(at: *mut c_void, length: usize, access: i32) -> i32;
    fn fork() -> i32;
    fn waitpid(process: i32, status: *mut i32, options: i32) -> i32;
    fn alarm(seconds: u32) -> u32;
    fn _exit(status: i32) -> !;
}

const NO_ACCESS: i32 = 0;
const READ_AND_WRITE: i32 = 1 | 2;
const SHARED: i32 = 1;
const PRIVATE: i32 = 2;
const ANONYMOUS: i32 = 0x20;
const NO_HANG: i32 = 1;

/// A multiple of every size of page that Linux has on x86-64 and aarch64.
const PAGE: usize = 65_536;

fn pages(bytes: usize) -> usize {
    (bytes + PAGE - 1) / PAGE * PAGE
}

/// New pages, all zeros, that stay until the process ends.
fn map(bytes: usize, sharing: i32) -> io::Result<*mut u8> {
    // SAFETY: an anonymous mapping at a place of the system's choice touches no memory that is in use.
    let at = unsafe {
        mmap(
            std::ptr::null_mut(),
            pages(bytes),
            READ_AND_WRITE,
            sharing | ANONYMOUS,
            -1,
            0,
        )
    };
    if at as isize == -1 {
        return Err(io::Error::last_os_error());
    }
    Ok(at.cast())
}

/// Pages that this process and those that it forks have in common.
pub fn map_shared(bytes: usize) -> io::Result<*mut u8> {
    map(bytes, SHARED)
}

/// The end of this many bytes or more, with an unreadable page behind it.
pub fn map_before_guard(bytes: usize) -> io::Result<*mut u8> {
    let start = map(pages(bytes) + PAGE, PRIVATE)?;
    // SAFETY: the page lies in the mapping just made, which nobody else has seen.
    let end = unsafe { start.add(pages(bytes)) };
    if unsafe { mprotect(end.cast(), PAGE, NO_ACCESS) } != 0 {
        return Err(io::Error::last_os_error());
    }
    Ok(end)
}

/// How a process ended.
#[derive(Clone, Copy, Debug, PartialEq)]
pub enum End {
    Exit(u8),
    Signal(u8),
}

/// A process of its own, forked from this one.
pub struct Child(i32);

/// Runs `work` in a process of its own, which ends with its answer as exit status.
/// Only a process with one thread may call this.
pub fn start(work: impl FnOnce() -> u8) -> io::Result<Child> {
    // SAFETY: with a single thread no lock can be held by a thread that the child lacks.
    match unsafe { fork() } {
        -1 => Err(io::Error::last_os_error()),
        0 => {
            let status = std::panic::catch_unwind(std::panic::AssertUnwindSafe(work));
            // SAFETY: ends the child without running what is the parent's to run.
            unsafe { _exit(status.map_or(101, i32::from)) }
        }
        process => Ok(Child(process)),
    }
}

impl Child {
    fn ended(&self, options: i32) -> io::Result<Option<End>> {
        let mut status = 0;
        // SAFETY: the status is a local that outlives the call.
        match unsafe { waitpid(self.0, &mut status, options) } {
            -1 => Err(io::Error::last_os_error()),
            0 => Ok(None),
            _ if status & 0x7F == 0 => Ok(Some(End::Exit((status >> 8) as u8))),
            _ => Ok(Some(End::Signal((status & 0x7F) as u8))),
        }
    }

    /// How it ended, or none while it runs.
    pub fn look(&self) -> io::Result<Option<End>> {
        self.ended(NO_HANG)
    }

    /// Waits for its end.
    pub fn wait(self) -> io::Result<End> {
        Ok(self.ended(0)?.expect("waitpid without options waits"))
    }
}

/// The signal of `end_after`.
pub const ALARM: u8 = 14;

/// Takes `end_after` back.
pub const NEVER: u32 = 0;

/// Ends this process by a signal after so many seconds, unless it is asked again before.
pub fn end_after(seconds: u32) {
    // SAFETY: no handler is installed, so that the signal does nothing but end the process.
    unsafe { alarm(seconds) };
}
