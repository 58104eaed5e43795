//! Where a run's record goes.

use std::fmt;
use std::io::{self, Write};
use std::sync::mpsc::{Receiver, SyncSender, TrySendError, channel, sync_channel};
use std::thread;
use std::time::Duration;

/// How many calls' lines wait to be written at most.
const MOST_WAITING: usize = 1 << 14;

/// A sink for the lines of a record, which never ends a run, and never makes it wait: a thread of its own
/// writes them. Where the writer fails (a full disk, a pipe that nobody reads) or is so slow that 16,384
/// calls' lines wait, the rest of the record is lost, and [`Record::lost`] says so. What was written
/// before is then a front of the record, in whole calls but for the last one.
///
/// ```
/// use fulltimehen::Record;
/// use std::time::Duration;
///
/// let path = std::env::temp_dir().join(format!("record-{}", std::process::id()));
/// let mut record = Record::to(std::fs::File::create(&path)?)?;
/// record.put("start 0\n");
/// record.finish(Duration::from_secs(1))?;
/// assert_eq!(std::fs::read_to_string(&path)?, "start 0\n");
/// std::fs::remove_file(&path)?;
/// # Ok::<(), Box<dyn std::error::Error>>(())
/// ```
#[derive(Debug)]
pub struct Record {
    lines: Option<SyncSender<String>>,
    ended: Receiver<io::Result<()>>,
    lost: Option<RecordError>,
}

/// Why the rest of a record was lost.
///
/// ```
/// use fulltimehen::{Record, RecordError};
/// use std::fs::File;
/// use std::time::Duration;
///
/// // A disk that is full.
/// let mut record = Record::to(File::options().write(true).open("/dev/full")?)?;
/// assert!(record.lost().is_none());
/// record.put("start 0\n");
/// let error = record.finish(Duration::from_secs(10)).unwrap_err();
/// assert!(matches!(error, RecordError::Writer(_)));
/// # Ok::<(), std::io::Error>(())
/// ```
#[derive(Debug)]
#[non_exhaustive]
pub enum RecordError {
    /// The writer failed.
    Writer(io::Error),
    /// The writer was too slow.
    Slow,
    /// Memory lacked for lines.
    NoMemory,
}

impl fmt::Display for RecordError {
    fn fmt(&self, f: &mut fmt::Formatter<'_>) -> fmt::Result {
        f.write_str(match self {
            RecordError::Writer(_) => "the record couldn't be written",
            RecordError::Slow => "the record was written too slowly",
            RecordError::NoMemory => "memory lacked for the record",
        })
    }
}

impl std::error::Error for RecordError {
    fn source(&self) -> Option<&(dyn std::error::Error + 'static)> {
        match self {
            RecordError::Writer(error) => Some(error),
            _ => None,
        }
    }
}

/// Writes what comes until nothing more does, and all at once what has come.
fn write_all(mut writer: impl Write, lines: &Receiver<String>) -> io::Result<()> {
    while let Ok(first) = lines.recv() {
        writer.write_all(first.as_bytes())?;
        while let Ok(more) = lines.try_recv() {
            writer.write_all(more.as_bytes())?;
        }
        writer.flush()?;
    }
    Ok(())
}

impl Record {
    /// A sink that writes to this writer. Lines of several calls may come together; each time when no more
    /// wait the writer is flushed.
    ///
    /// # Errors
    ///
    /// What the system says where no thread can be made.
    pub fn to(writer: impl Write + Send + 'static) -> io::Result<Record> {
        let (lines, came) = sync_channel(MOST_WAITING);
        let (end, ended) = channel();
        thread::Builder::new().name("record".to_owned()).spawn(move || {
            let written = write_all(writer, &came);
            // Nobody waits for it where the sink was dropped.
            let _ = end.send(written);
        })?;
        Ok(Record { lines: Some(lines), ended, lost: None })
    }

    /// The lines that a call added to the record, each with its line feed.
    pub fn put(&mut self, lines: &str) {
        let Some(sender) = &self.lines else {
            return;
        };
        let mut text = String::new();
        if text.try_reserve_exact(lines.len()).is_err() {
            self.lose(RecordError::NoMemory);
            return;
        }
        text.push_str(lines);
        match sender.try_send(text) {
            Ok(()) => {}
            Err(TrySendError::Full(_)) => self.lose(RecordError::Slow),
            Err(TrySendError::Disconnected(_)) => {
                let error = match self.ended.recv() {
                    Ok(Err(error)) => error,
                    _ => io::Error::other("the writer ended"),
                };
                self.lose(RecordError::Writer(error));
            }
        }
    }

    fn lose(&mut self, why: RecordError) {
        self.lines = None;
        self.lost = Some(why);
    }

    /// Why the rest of the record was lost, if it was, as far as that is known.
    #[must_use]
    pub fn lost(&self) -> Option<&RecordError> {
        self.lost.as_ref()
    }

    /// Waits until all is written, so long at most.
    ///
    /// # Errors
    ///
    /// Why the rest of the record was lost, if it was: [`RecordError::Slow`] also where it isn't written in
    /// time.
    pub fn finish(mut self, patience: Duration) -> Result<(), RecordError> {
        self.lines = None;
        if let Some(why) = self.lost.take() {
            return Err(why);
        }
        match self.ended.recv_timeout(patience) {
            Ok(written) => written.map_err(RecordError::Writer),
            Err(_) => Err(RecordError::Slow),
        }
    }
}
