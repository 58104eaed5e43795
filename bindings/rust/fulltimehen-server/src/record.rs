//! The record of a run, in a file or where the program wants it.

use crate::log::say;
use crate::pid_file::with_ending;
use fulltimehen::{Plan, Record};
use std::fmt;
use std::fs::{self, File};
use std::io::{self, Write};
use std::panic::{AssertUnwindSafe, catch_unwind};
use std::path::Path;
use std::process;

type Begin = Box<dyn FnMut(&str) -> Box<dyn Write + Send> + Send>;

/// Where the program wants its records.
pub(crate) struct Sink(Begin);

impl fmt::Debug for Sink {
    fn fmt(&self, f: &mut fmt::Formatter<'_>) -> fmt::Result {
        f.debug_struct("Sink").finish_non_exhaustive()
    }
}

impl Sink {
    pub(crate) fn new<W: Write + Send + 'static>(
        mut begin: impl FnMut(&str) -> W + Send + 'static,
    ) -> Sink {
        Sink(Box::new(move |plan| Box::new(begin(plan))))
    }

    /// Begins the record of a run with this plan. Where the program's call panics there is none.
    pub(crate) fn begin(&mut self, plan: &Plan) -> Option<Record> {
        let writer = catch_unwind(AssertUnwindSafe(|| (self.0)(&plan.script())));
        let panicked = |_| io::Error::other("the call that makes its writer panicked");
        said(writer.map_err(panicked).and_then(Record::to))
    }
}

/// The record, or the reason why there is none is said.
fn said(record: io::Result<Record>) -> Option<Record> {
    record.inspect_err(|error| say!(warn, "there is no record: {error}")).ok()
}

/// Begins the record, with the plan beside it, in `PATH.svc`, as a script without events. No record is
/// written over: where one stands at the path, this one gets the process's number behind its name, and
/// where that one stands, too, `.again`.
pub(crate) fn begin(path: &Path, plan: &Plan) -> Option<Record> {
    let numbered = with_ending(path, &format!(".{}", process::id()));
    let again = with_ending(&numbered, ".again");
    let open = |path: &&Path| File::create_new(path).map(|file| (path.to_path_buf(), file));
    let paths = [path, &numbered, &again];
    let opened = open(&paths[0]).or_else(|_| open(&paths[1])).or_else(|_| open(&paths[2]));
    let (path, file) = match opened {
        Ok(opened) => opened,
        Err(error) => {
            say!(warn, "there is no record: {}: {error}", path.display());
            return None;
        }
    };
    if let Err(error) = fs::write(with_ending(&path, ".svc"), plan.script()) {
        say!(warn, "the plan of the record wasn't written: {error}");
    }
    said(Record::to(file))
}
