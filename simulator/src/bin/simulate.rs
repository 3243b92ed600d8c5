//! The program `simulate`: an image on standard input, the registers on standard output.

use std::io::{Read, Write};

/// The bytes on standard input; a read that fails is its end.
fn input() -> Vec<u8> {
    // One byte more than the program takes tells that there are too many.
    let mut bytes = Vec::new();
    let mut taken = std::io::stdin().take(simulator::PROGRAM_BYTES as u64 + 1);
    let _ = taken.read_to_end(&mut bytes);
    bytes
}

fn main() -> std::io::Result<()> {
    std::io::stdout().write_all(simulator::program(&input()).as_bytes())
}
