//! The desk on standard input and output: one question a line, one line of answer each (see desk.rs).

use second::desk::Desk;
use std::io::{self, BufRead, Write};

fn main() -> io::Result<()> {
    let mut input = io::stdin().lock();
    let mut output = io::BufWriter::with_capacity(1 << 16, io::stdout().lock());
    let mut desk = Desk::new();
    let mut line = Vec::new();
    let mut answer = Vec::new();
    loop {
        line.clear();
        if input.read_until(b'\n', &mut line)? == 0 {
            return output.flush();
        }
        answer.clear();
        desk.answer(&line, &mut answer);
        output.write_all(&answer)?;
    }
}
