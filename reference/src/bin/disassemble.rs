//! Reads the file of a chart or a network on standard input and writes its text to standard output.

use std::io::{self, Read};
use std::process::ExitCode;

use reference::forms::description::disassemble;

fn main() -> io::Result<ExitCode> {
    let mut file = Vec::new();
    io::stdin().read_to_end(&mut file)?;
    match disassemble(&file) {
        Some(text) => {
            print!("{text}");
            Ok(ExitCode::SUCCESS)
        }
        None => {
            eprintln!("the input reads neither as a chart nor as a network");
            Ok(ExitCode::FAILURE)
        }
    }
}
