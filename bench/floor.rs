//! The least that a program does that reads all of its input and writes a report: it reads the bytes to the end, looks at
//! each of them once, and writes the file that it is given. `bench/floor.py` compiles it where `rustc` is on the machine.

use std::io::{self, Read, Write};

fn main() -> io::Result<()> {
    let mut bytes = Vec::new();
    io::stdin().lock().read_to_end(&mut bytes)?;
    let lines = bytes.iter().filter(|byte| **byte == b'\n').count();
    let report = match std::env::args().nth(1) {
        Some(path) => std::fs::read(path)?,
        None => format!("{lines}\n").into_bytes(),
    };
    io::stdout().lock().write_all(&report)
}
