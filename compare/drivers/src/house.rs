//! The house program at the other end of a pipe.

use std::io::{BufRead, BufReader, Write};
use std::process::{Child, ChildStdout, Command, Stdio};
use std::sync::mpsc::{channel, Sender};
use std::thread::JoinHandle;

pub struct House {
    child: Child,
    lines: Option<Sender<Vec<u8>>>,
    writer: JoinHandle<std::io::Result<()>>,
    answers: BufReader<ChildStdout>,
}

impl House {
    pub fn start(program: &str) -> Self {
        let mut child = Command::new(program)
            .stdin(Stdio::piped())
            .stdout(Stdio::piped())
            .spawn()
            .unwrap_or_else(|e| panic!("{program}: {e}; 'rt check house' builds it"));
        let mut input = child.stdin.take().unwrap();
        let answers = BufReader::with_capacity(1 << 16, child.stdout.take().unwrap());
        let (lines, stretches) = channel::<Vec<u8>>();
        let writer = std::thread::spawn(move || stretches.iter().try_for_each(|stretch| input.write_all(&stretch)));
        House { child, lines: Some(lines), writer, answers }
    }

    /// A stretch of whole lines is sent; the answers are read apart, so that neither end waits for the other.
    pub fn send(&self, stretch: Vec<u8>) {
        self.lines.as_ref().unwrap().send(stretch).expect("house has stopped reading");
    }

    /// The next answer line, without its line feed.
    pub fn answer(&mut self, line: &mut Vec<u8>) {
        line.clear();
        self.answers.read_until(b'\n', line).expect("house's answers");
        assert_eq!(line.pop(), Some(b'\n'), "house ended before the answer to a line");
    }

    /// No more lines: house ends well and has nothing left to say.
    pub fn finish(mut self) {
        self.lines = None;
        self.writer.join().unwrap().expect("house's input");
        let mut rest = Vec::new();
        self.answers.read_until(b'\n', &mut rest).unwrap();
        assert!(rest.is_empty(), "house answered more lines than it was sent");
        assert!(self.child.wait().unwrap().success(), "house ended badly");
    }
}
