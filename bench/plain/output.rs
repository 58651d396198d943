//! Where text goes: to the standard output, many lines at a time.

use crate::script::Fault;
use std::fs::File;
use std::io::{self, Write};
use std::mem::ManuallyDrop;
use std::os::unix::io::FromRawFd;

/// Text that is gathered, and written many lines at a time, past the buffer of the library.
pub struct Output {
    pub text: Vec<u8>,
    file: ManuallyDrop<File>,
}

/// How many bytes are written together, at least, but at the end.
const MUCH: usize = 65_536;

impl Output {
    pub fn new() -> Output {
        Output::of(Vec::with_capacity(2 * MUCH))
    }

    /// Text that was gathered already.
    pub fn of(text: Vec<u8>) -> Output {
        Output { text, file: ManuallyDrop::new(unsafe { File::from_raw_fd(1) }) }
    }

    pub fn flush(&mut self) -> Result<(), Fault> {
        let written = self.file.write_all(&self.text);
        self.text.clear();
        written.map_err(|_| Fault::Write)
    }

    /// Puts lines; many go out at once, and are not copied.
    pub fn put_lines(&mut self, lines: &[u8]) -> Result<(), Fault> {
        if lines.len() < MUCH {
            self.text.extend_from_slice(lines);
            return Ok(());
        }
        self.flush()?;
        self.file.write_all(lines).map_err(|_| Fault::Write)
    }

    pub fn flush_much(&mut self) -> Result<(), Fault> {
        if self.text.len() >= MUCH {
            self.flush()
        } else {
            Ok(())
        }
    }
}

/// Prints the text; whoever no longer reads it does not matter.
pub fn print_all(text: &str) {
    let _ = io::stdout().write_all(text.as_bytes()).and_then(|_| io::stdout().flush());
}
