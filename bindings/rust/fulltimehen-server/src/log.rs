//! What a server has to say: through `tracing`, and on standard error where no subscriber listens.
//!
//! Standard error is written by a thread of its own, so that a reader that doesn't read, or is gone,
//! never holds a server up. What doesn't fit into its queue is left out.

use std::io::{self, Write};
use std::sync::OnceLock;
use std::sync::mpsc::{self, RecvTimeoutError, SyncSender};
use std::thread;
use std::time::Duration;

/// How many lines wait for standard error at most.
const QUEUE: usize = 256;
/// How long the last lines are waited for.
const PATIENCE: Duration = Duration::from_millis(200);

enum Line {
    Text(String),
    /// All before it is written.
    Mark(SyncSender<()>),
}

fn queue() -> Option<&'static SyncSender<Line>> {
    static QUEUE_OF_LINES: OnceLock<Option<SyncSender<Line>>> = OnceLock::new();
    let begin = || {
        let (to, from) = mpsc::sync_channel(QUEUE);
        let write = move || {
            for line in from {
                match line {
                    // Where nobody reads any more, there is nobody to tell.
                    Line::Text(text) => _ = writeln!(io::stderr(), "{text}"),
                    Line::Mark(done) => _ = done.try_send(()),
                }
            }
        };
        thread::Builder::new().name("stderr".to_owned()).spawn(write).ok().map(|_| to)
    };
    QUEUE_OF_LINES.get_or_init(begin).as_ref()
}

/// Puts a line on standard error, where no subscriber of `tracing` has it.
pub(crate) fn line(text: String) {
    if !tracing::dispatcher::has_been_set()
        && let Some(queue) = queue()
    {
        _ = queue.try_send(Line::Text(text));
    }
}

/// Waits until the lines so far are written, for a short while.
pub(crate) fn flush() {
    let (done, is_done) = mpsc::sync_channel(1);
    if let Some(queue) = queue()
        && queue.try_send(Line::Mark(done)).is_ok()
        && let Err(RecvTimeoutError::Timeout) = is_done.recv_timeout(PATIENCE)
    {
        // Standard error takes nothing: the lines are left out.
    }
}

/// Says something that an operator wants to know.
macro_rules! say {
    ($level:ident, $($text:tt)+) => {{
        let text = format!($($text)+);
        tracing::$level!("{text}");
        $crate::log::line(format!("{}: {text}", stringify!($level)));
    }};
}
pub(crate) use say;
