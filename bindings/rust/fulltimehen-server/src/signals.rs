//! The operator's signals.

use crate::sys::Disposition;
use fulltimehen::Signal;
use std::io;
use std::sync::{Mutex, PoisonError};
use tokio::signal::unix::{self, SignalKind, signal};
use tokio::sync::mpsc;

/// Where they come from.
pub(crate) enum Signals {
    /// The process.
    Process([unix::Signal; 3], Taken),
    /// A channel.
    Channel(mpsc::Receiver<Signal>),
}

impl Signals {
    pub(crate) fn of_process() -> io::Result<Signals> {
        let taken = Taken::take()?;
        let signals = watch()?;
        taken.keep_handlers()?;
        Ok(Signals::Process(signals, taken))
    }

    pub(crate) async fn next(&mut self) -> Signal {
        match self {
            Signals::Process(signals, _) => next(signals).await,
            Signals::Channel(signals) => match signals.recv().await {
                Some(signal) => signal,
                None => std::future::pending().await,
            },
        }
    }
}

const KINDS: [fn() -> SignalKind; 3] =
    [SignalKind::interrupt, SignalKind::terminate, SignalKind::quit];

fn watch() -> io::Result<[unix::Signal; 3]> {
    let [interrupt, terminate, quit] = KINDS;
    Ok([signal(interrupt())?, signal(terminate())?, signal(quit())?])
}

async fn next([interrupt, terminate, quit]: &mut [unix::Signal; 3]) -> Signal {
    tokio::select! {
        Some(()) = interrupt.recv() => Signal::Fast,
        Some(()) = terminate.recv() => Signal::Terminate,
        Some(()) = quit.recv() => Signal::Upgrade,
    }
}

/// What the process does at each of the signals.
type Dispositions = [Disposition; 3];

fn dispositions() -> io::Result<Dispositions> {
    let [interrupt, terminate, quit] = KINDS.map(|kind| Disposition::of(kind().as_raw_value()));
    Ok([interrupt?, terminate?, quit?])
}

fn set(dispositions: &Dispositions) -> io::Result<()> {
    dispositions.iter().try_for_each(Disposition::set)
}

/// The servers of the process that take its signals, and what was there before the first of them.
struct Takers {
    count: usize,
    before: Option<Dispositions>,
    /// `tokio`'s handlers, which it sets once in a process: for the next server these are put there again.
    handlers: Option<Dispositions>,
}

static TAKERS: Mutex<Takers> = Mutex::new(Takers { count: 0, before: None, handlers: None });

/// As long as one of these lives the process's signals are its servers'. Then they do what they did before.
pub(crate) struct Taken(());

impl Taken {
    fn take() -> io::Result<Taken> {
        let mut takers = TAKERS.lock().unwrap_or_else(PoisonError::into_inner);
        if takers.count == 0 {
            takers.before = Some(dispositions()?);
            takers.handlers.as_ref().map_or(Ok(()), set)?;
        }
        takers.count += 1;
        Ok(Taken(()))
    }

    /// `tokio` has set its handlers. They write to a pipe, which may be full, and not all versions keep `errno` then.
    fn keep_handlers(&self) -> io::Result<()> {
        let mut takers = TAKERS.lock().unwrap_or_else(PoisonError::into_inner);
        if takers.handlers.is_none() {
            let keeping = dispositions()?.map(Disposition::keeping_errno);
            set(&keeping)?;
            takers.handlers = Some(keeping);
        }
        Ok(())
    }
}

impl Drop for Taken {
    fn drop(&mut self) {
        let mut takers = TAKERS.lock().unwrap_or_else(PoisonError::into_inner);
        takers.count -= 1;
        if takers.count == 0 {
            // What is put there was there before, so the system doesn't refuse it.
            _ = takers.before.take().as_ref().map(set);
        }
    }
}

#[cfg(test)]
mod tests {
    use super::*;

    #[tokio::test]
    async fn the_handlers_of_a_run_leave_errno_as_it_was() {
        for _ in 0..2 {
            let signals = Signals::of_process().unwrap();
            assert!(dispositions().unwrap().iter().all(Disposition::keeps_errno));
            drop(signals);
            assert!(!dispositions().unwrap().iter().any(Disposition::keeps_errno));
        }
    }
}
