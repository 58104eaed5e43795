//! Accept loops. They run beside the handlers, and serve what comes by the core's word; or they give the driver what came at once, which
//! is woken once for many.

use crate::driver::{Input, Inputs};
use crate::limits::{Room, Seat};
use crate::listener::{Accepted, Listener};
use crate::machine::Direct;
use fulltimehen::Peer;
use std::io;
use std::sync::Arc;
use std::time::Duration;
use tokio::io::unix::AsyncFd;
use tokio::runtime::Handle;
use tokio::sync::oneshot;
use tokio::task::{JoinHandle, yield_now};
use tokio::time::sleep;

/// How many connections a loop accepts before the others get their turn.
const BURST: usize = 32;
/// How long a loop rests where the core doesn't say so.
const REST: Duration = Duration::from_millis(200);

/// An endpoint of a service.
#[derive(Clone, Copy, Debug, PartialEq, Eq, Hash, PartialOrd, Ord)]
pub(crate) struct Place {
    pub(crate) service: u32,
    pub(crate) endpoint: u32,
}

/// A listening socket of the poller of the handlers.
pub(crate) type Polled = Arc<AsyncFd<Listener>>;

/// A listening socket, for accept loops on this runtime.
pub(crate) fn polled(listener: Listener, on: &Handle) -> io::Result<Polled> {
    let _within = on.enter();
    AsyncFd::new(listener).map(Arc::new)
}

/// A connection that was accepted.
pub(crate) struct Arrival {
    pub(crate) stream: Accepted,
    pub(crate) peer: Peer,
    pub(crate) seat: Seat,
}

/// An accept loop of an endpoint, by its number.
pub(crate) struct Loop {
    pub(crate) place: Place,
    pub(crate) number: u64,
    pub(crate) inputs: Inputs,
    pub(crate) room: Room,
    /// Where it serves its connections itself.
    pub(crate) direct: Option<Direct>,
}

impl Drop for Loop {
    fn drop(&mut self) {
        self.inputs.give(Input::LoopEnded { place: self.place, number: self.number });
    }
}

/// Why a loop stops accepting for now.
enum Pause {
    /// Nobody waits.
    Empty,
    /// It is the others' turn.
    Turn,
    /// There is no room for another connection.
    Full,
    Failed(io::Error),
}

/// The failure is of one connection, and says nothing of the next one.
fn is_of_one(error: &io::Error) -> bool {
    // EINTR, EPROTO, ECONNABORTED
    matches!(error.raw_os_error(), Some(4 | 71 | 103))
}

impl Loop {
    /// Begins it. It ends where it is aborted, and says so once all that it has accepted was given.
    pub(crate) fn begin(self, listener: Polled, on: &Handle) -> JoinHandle<()> {
        on.spawn(async move {
            let mut left = BURST;
            while let Ok(pause) = self.accept_some(&listener, &mut left).await {
                match pause {
                    Pause::Empty => {}
                    Pause::Turn => {
                        yield_now().await;
                        left = BURST;
                    }
                    Pause::Full => drop(self.room.enter().await),
                    Pause::Failed(error) => self.rest(error).await,
                }
            }
        })
    }

    /// Accepts those that wait, once there are some, and as many as are left of its turn.
    async fn accept_some(
        &self,
        listener: &AsyncFd<Listener>,
        left: &mut usize,
    ) -> io::Result<Pause> {
        let mut guard = listener.readable().await?;
        // Another program that has the socket may have it block again.
        _ = listener.get_ref().unblock_if_shared();
        let (mut came, mut pause) = (Vec::new(), Pause::Turn);
        while *left > 0 {
            let Some(seat) = self.room.try_enter() else {
                pause = Pause::Full;
                break;
            };
            match guard.try_io(|listener| listener.get_ref().accept()) {
                Err(_) => {
                    pause = Pause::Empty;
                    break;
                }
                Ok(Ok((stream, peer))) => {
                    *left -= 1;
                    came.extend(self.arrived(Arrival { stream, peer, seat }));
                }
                Ok(Err(error)) => {
                    pause = Pause::Failed(error);
                    break;
                }
            }
        }
        if !came.is_empty() {
            self.inputs.give(Input::Arrived { place: self.place, came });
        }
        Ok(pause)
    }

    /// Serves a connection, or answers it for the driver.
    fn arrived(&self, arrival: Arrival) -> Option<Arrival> {
        match &self.direct {
            Some(direct) => direct.take(self.place, arrival),
            None => Some(arrival),
        }
    }

    /// Rests where the core says so, or where other connections would fail, too.
    async fn rest(&self, error: io::Error) {
        let is_of_one = is_of_one(&error);
        let (answer, rests) = oneshot::channel();
        self.inputs.give(Input::AcceptFailed { place: self.place, error, answer });
        let rest = rests.await.unwrap_or(None);
        if let Some(rest) = rest.or((!is_of_one).then_some(REST)) {
            sleep(rest).await;
        }
    }
}
