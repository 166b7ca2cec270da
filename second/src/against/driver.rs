//! Renders no section: the driver of the built library as a process that is asked.

use std::io::{self, BufReader, Write};
use std::process::{Child, ChildStdin, ChildStdout, Command, Stdio};

use super::wire::{encode, read_reply, Call, Lent, Reply};

pub struct Driver {
    words: Vec<String>,
    process: Process,
    /// The book as the driver's last reply left it.
    book: Vec<u32>,
}

struct Process {
    child: Child,
    input: ChildStdin,
    output: BufReader<ChildStdout>,
}

fn start(words: &[String]) -> io::Result<Process> {
    let (program, arguments) = words.split_first().ok_or(io::ErrorKind::NotFound)?;
    let mut child = Command::new(program)
        .args(arguments)
        .stdin(Stdio::piped())
        .stdout(Stdio::piped())
        .spawn()?;
    let input = child.stdin.take().expect("a piped input");
    let output = BufReader::new(child.stdout.take().expect("a piped output"));
    Ok(Process {
        child,
        input,
        output,
    })
}

impl Driver {
    pub fn start(words: &[String]) -> io::Result<Driver> {
        Ok(Driver {
            words: words.to_vec(),
            process: start(words)?,
            book: Vec::new(),
        })
    }

    /// A driver that ended is told as an error, and another takes its place.
    pub fn ask(&mut self, call: &Call, lent: &Lent) -> io::Result<Result<Reply, String>> {
        let book_kept = lent.book_more == 0 && self.book == lent.book;
        let request = encode(call, lent, book_kept);
        match self.exchange(&request) {
            Ok(reply) => {
                self.note_book(lent, &reply);
                Ok(Ok(reply))
            }
            Err(_) => Ok(Err(self.restart()?)),
        }
    }

    fn exchange(&mut self, request: &[u8]) -> io::Result<Reply> {
        self.process.input.write_all(request)?;
        self.process.input.flush()?;
        read_reply(&mut self.process.output)
    }

    fn note_book(&mut self, lent: &Lent, reply: &Reply) {
        if self.book != lent.book {
            self.book = lent.book.to_vec();
        }
        apply(&mut self.book, &reply.changes);
    }

    fn restart(&mut self) -> io::Result<String> {
        let fresh = start(&self.words)?;
        let mut ended = std::mem::replace(&mut self.process, fresh);
        drop(ended.input);
        self.book.clear();
        Ok(format!("the driver ended: {}", ended.child.wait()?))
    }

    pub fn end(self) -> io::Result<()> {
        let Process {
            mut child, input, ..
        } = self.process;
        drop(input);
        child.wait().map(|_| ())
    }
}

pub fn apply(book: &mut [u32], changes: &[(u32, u32)]) {
    for &(place, word) in changes {
        book[place as usize] = word;
    }
}
