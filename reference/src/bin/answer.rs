//! Answers requests, one to a line, from standard input. README.md describes the form.

use std::io::{self, BufRead, BufWriter, Write};

use reference::forms::text::answer_line;

fn main() -> io::Result<()> {
    let mut output = BufWriter::new(io::stdout().lock());
    for line in io::stdin().lock().lines() {
        writeln!(output, "{}", answer_line(&line?))?;
    }
    output.flush()
}
