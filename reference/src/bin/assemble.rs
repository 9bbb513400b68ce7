//! Reads the text of a chart or a network on standard input and writes its file to standard output.

use std::io::{self, Read, Write};
use std::process::ExitCode;

use reference::forms::description::assemble;

fn main() -> io::Result<ExitCode> {
    let mut text = String::new();
    io::stdin().read_to_string(&mut text)?;
    match assemble(&text) {
        Ok(file) => io::stdout().write_all(&file).map(|()| ExitCode::SUCCESS),
        Err(mistake) => {
            eprintln!("{mistake}");
            Ok(ExitCode::FAILURE)
        }
    }
}
