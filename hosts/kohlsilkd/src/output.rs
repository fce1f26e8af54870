//! Lines to standard output and standard error that hold nothing up: a thread for each writes them, and what nobody reads is counted.
use std::fs::File;
use std::io::{self, Write};
use std::os::fd::AsFd;
use std::sync::atomic::{AtomicU64, Ordering::Relaxed};
use std::sync::mpsc::{sync_channel, SyncSender};
use std::sync::{Arc, OnceLock};
use std::thread;
use std::time::{Duration, Instant};

/// The lines that wait for a slow reader, at most.
const WAITING: usize = 4096;

/// How long the end waits for them.
const PATIENCE: Duration = Duration::from_millis(400);

static SAID: OnceLock<Writer> = OnceLock::new();
static REPORTED: OnceLock<Writer> = OnceLock::new();

struct Writer {
    lines: SyncSender<String>,
    /// Lines handed over, those of them that were written, and those that were not taken since too many waited.
    taken: AtomicU64,
    written: Arc<AtomicU64>,
    lost: AtomicU64,
}

impl Writer {
    fn open(mut file: File) -> Writer {
        let (lines, waiting) = sync_channel::<String>(WAITING);
        let written = Arc::new(AtomicU64::new(0));
        let count = written.clone();
        // That nobody reads them any more is no reason to stop serving: an error is passed over.
        thread::spawn(move || {
            for line in waiting {
                let _ = file.write_all(line.as_bytes());
                count.fetch_add(1, Relaxed);
            }
        });
        Writer { lines, taken: AtomicU64::new(0), written, lost: AtomicU64::new(0) }
    }

    fn line(&self, line: String) {
        // Counted before it is handed over: the thread may have written it by then.
        self.taken.fetch_add(1, Relaxed);
        if self.lines.try_send(line).is_err() {
            self.taken.fetch_sub(1, Relaxed);
            self.lost.fetch_add(1, Relaxed);
        }
    }

    fn unwritten(&self) -> u64 {
        self.taken.load(Relaxed) - self.written.load(Relaxed)
    }

    /// Waits for the lines, not for long, and says how many were not printed.
    fn finish(&self) -> u64 {
        let end = Instant::now() + PATIENCE;
        while self.unwritten() > 0 && Instant::now() < end {
            thread::sleep(Duration::from_millis(1));
        }
        self.lost.load(Relaxed) + self.unwritten()
    }
}

/// Lines are written by threads from here on. The signals that the program waits for are to be blocked before, or a thread would get them.
pub fn begin() -> io::Result<()> {
    SAID.get_or_init({
        let file = File::from(io::stdout().as_fd().try_clone_to_owned()?);
        || Writer::open(file)
    });
    REPORTED.get_or_init({
        let file = File::from(io::stderr().as_fd().try_clone_to_owned()?);
        || Writer::open(file)
    });
    Ok(())
}

/// A line to standard output.
pub fn say_line(line: String) {
    match SAID.get() {
        Some(writer) => writer.line(line),
        None => drop(io::stdout().write_all(line.as_bytes())),
    }
}

/// A line to standard error.
pub fn report_line(line: String) {
    match REPORTED.get() {
        Some(writer) => writer.line(line),
        None => drop(io::stderr().write_all(line.as_bytes())),
    }
}

/// Lines of standard output that were not taken so far, since too many waited.
pub fn lost() -> u64 {
    SAID.get().map_or(0, |writer| writer.lost.load(Relaxed))
}

/// Waits until the lines are written, not for long, and says what nobody has read.
pub fn end() {
    if let Some(lost @ 1..) = SAID.get().map(Writer::finish) {
        report_line(format!("kohlsilkd: {lost} lines could not be printed, since nobody read standard output\n"));
    }
    REPORTED.get().map(Writer::finish);
}

#[cfg(test)]
mod tests {
    use super::*;
    use std::os::fd::OwnedFd;
    use std::os::unix::net::UnixStream;

    /// Nobody reads: each line is waiting or lost, and none holds up who says it.
    #[test]
    fn a_reader_that_stops_holds_nothing_up() {
        let (end, _never_read) = UnixStream::pair().unwrap();
        let writer = Writer::open(File::from(OwnedFd::from(end)));
        let begin = Instant::now();
        let count = 10 * WAITING as u64;
        for _ in 0..count {
            writer.line("line of a hundred bytes\n".repeat(5));
        }
        assert!(begin.elapsed() < Duration::from_secs(5));
        let lost = writer.finish();
        assert!(lost > count / 2 && lost < count, "{lost}");
        assert_eq!(lost + writer.written.load(Relaxed), count);
    }
}
