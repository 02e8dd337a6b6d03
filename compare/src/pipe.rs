//! The library at work: a program that is linked with it, asked through pipes. A batch is its
//! length in bytes (4, little-endian) and its requests; so is what comes back.

use std::io::{self, Read, Write};
use std::process::{Child, ChildStdin, ChildStdout, Command, Stdio};

pub struct Pipe {
    child: Child,
    to: ChildStdin,
    from: ChildStdout,
}

impl Pipe {
    /// Starts the program: the words of a command.
    pub fn start(command: &[String]) -> io::Result<Pipe> {
        let mut child = Command::new(&command[0])
            .args(&command[1..])
            .stdin(Stdio::piped())
            .stdout(Stdio::piped())
            .spawn()?;
        Ok(Pipe {
            to: child.stdin.take().unwrap(),
            from: child.stdout.take().unwrap(),
            child,
        })
    }

    /// Sends a batch. The other side reads all of it before it writes.
    pub fn ask(&mut self, batch: &[u8]) -> io::Result<()> {
        self.to.write_all(&(batch.len() as u32).to_le_bytes())?;
        self.to.write_all(batch)?;
        self.to.flush()
    }

    /// What it said to the batch that was sent.
    pub fn hear(&mut self) -> io::Result<Vec<u8>> {
        let mut length = [0; 4];
        self.from.read_exact(&mut length)?;
        let mut bytes = vec![0; u32::from_le_bytes(length) as usize];
        self.from.read_exact(&mut bytes)?;
        Ok(bytes)
    }

    /// Ends the program and waits for it.
    pub fn end(mut self) {
        drop(self.to);
        let _ = self.child.wait();
    }
}
