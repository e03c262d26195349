//! Runs a program and measures its time and its memory.

use std::io;
use std::process::Command;
use std::time::{Duration, Instant};

pub struct Measured {
    /// From start to end by the clock.
    pub elapsed: Duration,
    /// What the program and the system used of a processor for it.
    pub processor: Duration,
    /// The largest resident size, in bytes. It is never less than that of the program that
    /// measures, which therefore has to stay small itself.
    pub resident: u64,
}

// The standard library gives no resource usage of a child, so the system is asked for it. The
// layout is that of Linux on machines of 64 bits.

#[repr(C)]
#[derive(Clone, Copy, Default)]
struct TimeValue {
    seconds: i64,
    microseconds: i64,
}

impl TimeValue {
    fn duration(self) -> Duration {
        Duration::from_secs(self.seconds as u64) + Duration::from_micros(self.microseconds as u64)
    }
}

#[repr(C)]
#[derive(Default)]
struct ResourceUsage {
    user: TimeValue,
    system: TimeValue,
    resident_kilobytes: i64,
    others: [i64; 13],
}

unsafe extern "C" {
    fn wait4(process: i32, status: *mut i32, options: i32, usage: *mut ResourceUsage) -> i32;
}

pub fn run(command: &mut Command) -> io::Result<Measured> {
    let start = Instant::now();
    let child = command.spawn()?;
    let process = child.id() as i32;
    let mut status = 0;
    let mut usage = ResourceUsage::default();
    // SAFETY: both pointers are to places of the types that the call writes, and the child was
    // not waited for yet, nor is it later.
    while unsafe { wait4(process, &mut status, 0, &mut usage) } != process {
        let error = io::Error::last_os_error();
        if error.kind() != io::ErrorKind::Interrupted {
            return Err(error);
        }
    }
    Ok(Measured {
        elapsed: start.elapsed(),
        processor: usage.user.duration() + usage.system.duration(),
        resident: usage.resident_kilobytes as u64 * 1024,
    })
}
