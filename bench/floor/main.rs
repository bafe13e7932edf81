//! The least that any program does that answers lines one by one: it finds the end of each, and makes one write for it.

use std::fs::File;
use std::io::{self, Read, Write};
use std::os::fd::AsFd;

fn main() -> io::Result<()> {
    // Copies of the streams' descriptors: the standard library's own are buffered, and locked at each use.
    let mut input = File::from(io::stdin().as_fd().try_clone_to_owned()?);
    let mut out = File::from(io::stdout().as_fd().try_clone_to_owned()?);
    let mut room = vec![0; 1 << 16];
    loop {
        let count = input.read(&mut room)?;
        if count == 0 {
            return Ok(());
        }
        for byte in &room[..count] {
            if *byte == b'\n' {
                out.write_all(b"=\n\n")?;
            }
        }
    }
}
