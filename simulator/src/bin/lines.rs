//! The program `lines`: answers the requests on standard input. With the name of a folder it writes
//! the list of requests and their answers as the files `stdin` and `stdout` of that folder.

use simulator::lines::{answers, requests};
use std::io::{Read, Write};
use std::path::Path;

/// Writes the two files.
fn write(folder: &Path) -> std::io::Result<()> {
    let input = requests();
    std::fs::write(folder.join("stdin"), &input)?;
    std::fs::write(folder.join("stdout"), answers(&input))
}

fn main() -> std::io::Result<()> {
    if let Some(folder) = std::env::args().nth(1) {
        return write(Path::new(&folder));
    }
    let mut input = Vec::new();
    std::io::stdin().read_to_end(&mut input)?;
    std::io::stdout().write_all(&answers(&input))
}
