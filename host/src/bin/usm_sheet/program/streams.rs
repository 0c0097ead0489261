//! Standard input and output as files. Rust's own take a stream that cannot be read for one that is at its end,
//! and one that cannot be written for one that takes everything; these tell of it.

use std::fs::File;
use std::io::{self, Read, Write};
use std::os::unix::io::{AsFd, OwnedFd};

/// What the system answers where a stream is closed, or open for the other direction only.
const BAD_DESCRIPTOR: i32 = 9;

/// One of the two, or why it could not be had.
pub struct Stream(io::Result<File>);

impl Stream {
    pub fn input() -> Stream {
        Stream::of(io::stdin().as_fd().try_clone_to_owned())
    }

    pub fn output() -> Stream {
        Stream::of(io::stdout().as_fd().try_clone_to_owned())
    }

    fn of(descriptor: io::Result<OwnedFd>) -> Stream {
        Stream(descriptor.map(File::from))
    }

    fn file(&mut self) -> io::Result<&mut File> {
        self.0.as_mut().map_err(|error| io::Error::new(error.kind(), error.to_string()))
    }
}

fn told(error: io::Error) -> io::Error {
    match error.raw_os_error() {
        Some(BAD_DESCRIPTOR) => io::Error::new(error.kind(), "the stream is closed"),
        _ => error,
    }
}

impl Read for Stream {
    fn read(&mut self, bytes: &mut [u8]) -> io::Result<usize> {
        self.file()?.read(bytes).map_err(told)
    }
}

impl Write for Stream {
    fn write(&mut self, bytes: &[u8]) -> io::Result<usize> {
        self.file()?.write(bytes).map_err(told)
    }

    fn flush(&mut self) -> io::Result<()> {
        self.file()?.flush().map_err(told)
    }
}
