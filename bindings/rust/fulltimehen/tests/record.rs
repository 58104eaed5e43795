//! A record that can't be written ends no run and makes none wait.

use fulltimehen::{Record, RecordError};
use std::fs::File;
use std::io::{self, Read, Write};
use std::os::unix::net::UnixStream;
use std::time::{Duration, Instant};

const SOON: Duration = Duration::from_millis(200);
const LONG: Duration = Duration::from_secs(90);

#[test]
fn all_lines_are_written_in_order() {
    let (mut read, write) = UnixStream::pair().expect("a pair");
    let mut record = Record::to(write).expect("a thread");
    let lines = ["start 0\n", "got moment 1\nphase Running 1\n", "stop 0\n"];
    lines.iter().for_each(|lines| record.put(lines));
    assert!(record.lost().is_none());
    record.finish(LONG).expect("all is written");
    let mut text = String::new();
    read.read_to_string(&mut text).expect("text");
    assert_eq!(text, lines.concat());
}

/// As a closed standard error, or one whose reader is gone.
#[test]
fn a_reader_that_is_gone_costs_the_record() {
    let (read, write) = UnixStream::pair().expect("a pair");
    drop(read);
    let mut record = Record::to(write).expect("a thread");
    let then = Instant::now();
    while record.lost().is_none() && then.elapsed() < LONG {
        record.put("got moment 1\n");
        // The thread that writes gets its turn, so that the room for lines isn't what lacks.
        std::thread::sleep(Duration::from_millis(5));
    }
    assert!(matches!(record.lost(), Some(RecordError::Writer(_))), "{:?}", record.lost());
    record.put("got moment 2\n");
    assert!(record.finish(SOON).is_err());
}

#[test]
fn a_full_disk_costs_the_record() {
    let full = File::options().write(true).open("/dev/full").expect("Linux has it");
    let mut record = Record::to(full).expect("a thread");
    record.put("start 0\n");
    let error = record.finish(LONG).expect_err("nothing is written");
    let RecordError::Writer(error) = error else { panic!("{error}") };
    assert_eq!(error.kind(), io::ErrorKind::StorageFull);
}

/// A pipe that nobody reads makes nobody wait: neither while the run goes on nor at its end.
#[test]
fn a_reader_that_never_reads_costs_the_record() {
    let (_read, write) = UnixStream::pair().expect("a pair");
    let mut record = Record::to(write).expect("a thread");
    let line = format!("got received {} -\n", "00".repeat(500));
    let then = Instant::now();
    for _ in 0..20_000 {
        record.put(&line);
    }
    assert!(matches!(record.lost(), Some(RecordError::Slow)), "{:?}", record.lost());
    assert!(matches!(record.finish(SOON), Err(RecordError::Slow)));
    assert!(then.elapsed() < LONG);
}

#[test]
fn a_writer_that_panics_costs_the_record() {
    struct Panics;
    impl Write for Panics {
        fn write(&mut self, _bytes: &[u8]) -> io::Result<usize> {
            panic!("a writer that panics")
        }
        fn flush(&mut self) -> io::Result<()> {
            Ok(())
        }
    }
    let mut record = Record::to(Panics).expect("a thread");
    record.put("start 0\n");
    assert!(record.finish(LONG).is_err());
}
