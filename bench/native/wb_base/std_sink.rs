// By hand: standard output over std::io.
use super::{Failed, Sink};
use std::io::Write;

pub struct StdSink<W: Write> {
    out: W,
}

impl<W: Write> StdSink<W> {
    pub fn new(out: W) -> Self {
        StdSink { out }
    }
}

impl<W: Write> Sink for StdSink<W> {
    fn put(&mut self, piece: &[u8]) -> Result<usize, Failed> {
        let count = self.out.write(piece)?;
        self.out.flush()?;
        if count > 0 || piece.is_empty() { Ok(count) } else { Err(Failed) }
    }
}
