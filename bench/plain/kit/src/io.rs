//! Readers and writers.

use crate::alloc::Global;
pub use std::io::*;

/// A writer that gathers what is written.
pub struct BufWriter<W: Write>(std::io::BufWriter<W>);

impl<W: Write> BufWriter<W> {
    pub fn new(_: Global, inner: W) -> Result<BufWriter<W>> {
        Ok(BufWriter(std::io::BufWriter::new(inner)))
    }
}

impl<W: Write> Write for BufWriter<W> {
    fn write(&mut self, bytes: &[u8]) -> Result<usize> {
        self.0.write(bytes)
    }

    fn flush(&mut self) -> Result<()> {
        self.0.flush()
    }
}
