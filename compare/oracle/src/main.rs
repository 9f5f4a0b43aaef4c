//! Lines of document 01's frames on standard input, the unchanged engine's answers on standard output, one line each.

use oracle::Oracle;
use std::io::{BufRead, Write};

fn main() {
    let oracle = Oracle::new();
    let mut input = std::io::stdin().lock();
    let mut output = std::io::BufWriter::new(std::io::stdout().lock());
    let mut line = Vec::new();
    loop {
        line.clear();
        if input.read_until(b'\n', &mut line).unwrap() == 0 {
            break;
        }
        if line.last() == Some(&b'\n') {
            line.pop();
        }
        output.write_all(&oracle.line(&line)).unwrap();
        output.write_all(b"\n").unwrap();
    }
    output.flush().unwrap();
}
