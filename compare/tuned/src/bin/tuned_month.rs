//! `tuned_month < BATCH`: what a month saved (C-16), by the tuned implementation. Its name is not `month`, since that of the
//! plain one is, and cargo puts both in one folder.

use std::fs::File;
use std::io;
use std::mem::ManuallyDrop;
use std::os::fd::FromRawFd;

/// A standard stream without the buffer of its own that Rust gives it. It is open, and never closed here.
fn bare(number: i32) -> ManuallyDrop<File> {
    ManuallyDrop::new(unsafe { File::from_raw_fd(number) })
}

fn main() -> io::Result<()> {
    tuned::month(&*bare(0), &*bare(1))
}
