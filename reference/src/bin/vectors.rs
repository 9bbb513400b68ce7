//! Writes the vector file for programs, its input and its output, into a folder, or compares what is
//! there.
//!
//! `vectors DIR` writes, `vectors --check DIR` compares and ends with status 1 on any difference.

use std::path::Path;
use std::process::ExitCode;
use std::{env, fs, io};

use reference::runs::vector_files::{vector_file, VectorFile};

fn main() -> ExitCode {
    let arguments: Vec<String> = env::args().skip(1).collect();
    let arguments: Vec<&str> = arguments.iter().map(String::as_str).collect();
    let result = match arguments[..] {
        ["--check", folder] => compare(Path::new(folder)),
        [folder] if folder != "--check" => write(Path::new(folder)).map(|()| true),
        _ => {
            eprintln!("usage: vectors DIR | vectors --check DIR");
            return ExitCode::from(2);
        }
    };
    match result {
        Ok(true) => ExitCode::SUCCESS,
        Ok(false) => ExitCode::FAILURE,
        Err(error) => {
            eprintln!("{error}");
            ExitCode::from(2)
        }
    }
}

/// The names and contents of the two files.
fn contents(file: &VectorFile) -> [(&'static str, Vec<u8>); 2] {
    [("requests.stdin", file.input()), ("requests.stdout", file.output().into_bytes())]
}

fn write(folder: &Path) -> io::Result<()> {
    fs::create_dir_all(folder)?;
    let file = vector_file();
    for (name, bytes) in contents(&file) {
        fs::write(folder.join(name), bytes)?;
    }
    for part in &file.parts {
        println!("{}: {} requests, {} bytes", part.name, part.requests, part.input.len());
    }
    Ok(())
}

/// Whether both files are there and as they would be written.
fn compare(folder: &Path) -> io::Result<bool> {
    let mut all_equal = true;
    for (name, bytes) in contents(&vector_file()) {
        let equal = fs::read(folder.join(name)).is_ok_and(|found| found == bytes);
        if !equal {
            println!("{name} differs");
            all_equal = false;
        }
    }
    Ok(all_equal)
}
