//! The program `test_cases`: writes the cases and what comes of them as the files `stdin` and `stdout`
//! of the folder that its argument names.

use std::path::Path;

fn main() -> std::io::Result<()> {
    let folder = std::env::args().nth(1).expect("the folder to write to");
    let input = simulator::test_cases::input();
    let output = simulator::test_cases::answers(input.as_bytes());
    std::fs::write(Path::new(&folder).join("stdin"), input)?;
    std::fs::write(Path::new(&folder).join("stdout"), output)
}
