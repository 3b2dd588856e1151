/// A writer that takes and tells at most `taking` bytes at a time, or fails. It counts its flushes.
#[derive(Debug)]
struct Writer {
    taking: Option<usize>,
    flushes: bool,
    taken: Vec<u8>,
    flushed: u32,
}

fn writer(taking: Option<usize>, flushes: bool) -> Writer {
    Writer { taking, flushes, taken: Vec::new(), flushed: 0 }
}

impl std::io::Write for Writer {
    fn write(&mut self, bytes: &[u8]) -> std::io::Result<usize> {
        let count = self.taking.ok_or(std::io::ErrorKind::Other)?.min(bytes.len());
        self.taken.extend(&bytes[..count]);
        Ok(count)
    }

    fn flush(&mut self) -> std::io::Result<()> {
        self.flushed += 1;
        if self.flushes { Ok(()) } else { Err(std::io::ErrorKind::Other.into()) }
    }
}

fn has_failed(out: &Console<Writer>) -> bool {
    format!("{out:?}").contains("failed: true")
}

fn has_finished(out: &Console<Writer>) -> bool {
    format!("{out:?}").contains("finished: true")
}
