//! Both parts of an upgrade, as far as the driver has a part in them.

use super::{Driver, Input, Wanted};
use crate::handover::{self, PrivateSocket};
use crate::log::say;
use crate::pid_file::PathLock;
use crate::process::Process;
use crate::succession::{Held, Shared, Starter};
use crate::takeover::{self, Ended};
use fulltimehen::{Event, FdId, Signal};
use nix::time::{ClockId, clock_gettime};
use std::io;
use std::path::{Path, PathBuf};
use std::rc::Rc;
use std::sync::Arc;
use std::sync::atomic::Ordering;
use tokio::net::UnixStream;
use tokio::task::spawn_local;

/// The time that a service manager wants with `RELOADING=1`.
fn monotonic_us() -> i64 {
    let now = clock_gettime(ClockId::CLOCK_MONOTONIC);
    now.map_or(0, |now| now.tv_sec() * 1_000_000 + now.tv_nsec() / 1_000)
}

impl Driver {
    pub(super) fn take_of_handover(&mut self, input: Input) {
        match input {
            Input::Successor(stream, process) => self.found(stream, process),
            Input::Sent(Ok(())) => self.events.push_back(Event::Sent),
            Input::Sent(Err(error)) => {
                say!(warn, "the sockets weren't handed over: {error}");
                self.events.push_back(Event::SendFailed);
            }
            Input::Succeeded => {
                say!(info, "another program serves");
                self.frozen = false;
                self.drop_handed_if_over();
                if std::mem::take(&mut self.offers_nothing) {
                    self.events.push_back(Event::Signal { kind: Signal::Upgrade });
                }
            }
            // As long as this program accepts connections, it goes on with it.
            Input::Reclaimed => self.frozen = !self.loops.is_empty(),
            Input::Message { bytes, sockets } => {
                let fds = sockets.into_iter().map(|(word, listener)| self.keep(word, listener));
                match fds.collect::<io::Result<Vec<FdId>>>() {
                    Ok(fds) => self.events.push_back(Event::Received { bytes, fds }),
                    Err(error) => {
                        self.transfer = Some(error.to_string());
                        self.events.push_back(Event::ReceiveFailed);
                    }
                }
            }
            Input::NoSender => self.events.push_back(Event::NoSender),
            Input::PredecessorEnded(Ended::Stopped) => self.stopped = true,
            Input::PredecessorEnded(ended) => {
                say!(warn, "the program that served is gone: this one serves");
                self.predecessor_ended = Some(ended);
                self.events.push_back(Event::ReceiveFailed);
            }
            _ => {}
        }
    }

    /// Nothing of the older program's sockets is needed any more, where the service is over.
    fn drop_handed_if_over(&mut self) {
        if self.setup.shared.is_over.get() {
            self.handed.clear();
        }
    }

    /// No next program is wanted, and those that wait are told.
    pub(super) fn stop_service(&mut self) {
        self.setup.shared.is_over.set(true);
        self.setup.shared.tell_stop();
        self.setup.shared.end_children();
        self.setup.shared.stop_copies();
        self.handed.clear();
        self.abort_tasks();
    }

    pub(super) fn abort_tasks(&mut self) {
        self.tasks.drain(..).for_each(|task| task.abort());
    }

    /// The operator wants another program to serve.
    pub(super) fn upgrade(&mut self) {
        let shared = Rc::clone(&self.setup.shared);
        let (Some(paths), Some(_)) = (shared.paths.clone(), &shared.succession) else {
            self.wanted = Wanted::Handover;
            shared.notify("STOPPING=1");
            return self.events.push_back(Event::Signal { kind: Signal::Upgrade });
        };
        if !self.claimed {
            let text = "doesn't have all of its addresses, or its pid file, yet";
            return say!(warn, "SIGQUIT: this program {text}");
        }
        if self.sockets.len() > crate::fds::MOST_FDS {
            return say!(
                error,
                "SIGQUIT: over {} addresses can't be handed over",
                crate::fds::MOST_FDS
            );
        }
        self.wanted = Wanted::Upgrade;
        shared.put_again(&paths);
        let task = async move {
            let (stream, process) = shared.seek(&paths, &mut Starter::new()).await;
            shared.inputs.give(Input::Successor(stream, process));
        };
        self.tasks.push(spawn_local(task));
        self.setup.shared.notify(&format!("RELOADING=1\nMONOTONIC_USEC={}", monotonic_us()));
    }

    /// A program listens for the message.
    fn found(&mut self, stream: UnixStream, process: Option<Process>) {
        if self.wanted != Wanted::Upgrade {
            return;
        }
        self.wanted = Wanted::Handover;
        self.handed = self.held();
        if !self.handed.is_empty() {
            self.successor = Some((Rc::new(stream), process));
            return self.events.push_back(Event::Signal { kind: Signal::Upgrade });
        }
        // The core offers nothing where nothing is open, and drains at once. The next program waits for a message
        // all the same, and this one goes on until that one does.
        self.offers_nothing = true;
        let message = handover::encode(&[]);
        let sent = message.clone();
        spawn_local(async move {
            let frame = handover::Frame::ToItsEnd;
            if let Err(error) = handover::send(&stream, &sent, &[], frame).await {
                say!(warn, "the next program wasn't told: {error}");
            }
        });
        self.see_to_succession(message, process);
    }

    /// Another program serves: it had the sockets from before this one went on. This one drains, as after a handover.
    pub(super) fn overtaken(&mut self) {
        if !matches!(self.wanted, Wanted::Nothing | Wanted::Upgrade) {
            return;
        }
        self.abort_tasks();
        self.wanted = Wanted::Handover;
        self.finished.is_awaited.store(true, Ordering::SeqCst);
        self.handed = self.held();
        self.see_to_succession(Shared::message(&self.handed), None);
        self.events.push_back(Event::Signal { kind: Signal::Terminate });
    }

    pub(super) fn held(&self) -> Vec<Held> {
        let held = self.sockets.values().map(|socket| Held {
            word: socket.word.clone(),
            listener: Arc::clone(&socket.listener),
        });
        held.collect()
    }

    /// From now on somebody serves, whatever happens to the next program.
    pub(super) fn see_to_succession(&mut self, message: Vec<u8>, to: Option<Process>) {
        let shared = Rc::clone(&self.setup.shared);
        if shared.succession.is_some() {
            let duty = shared.see_to_it(message, self.handed.clone(), to);
            self.tasks.push(spawn_local(duty));
        }
    }

    /// Connects to the next program, or has done so already.
    pub(super) fn connect(&mut self) {
        if self.successor.is_some() {
            return self.events.push_back(Event::Connected);
        }
        let path = Path::new(&self.setup.plan.settings().upgrade_sock);
        let event = match handover::connect(path, &self.setup.shared.spare) {
            Ok((stream, process)) => {
                self.successor = Some((Rc::new(stream), process));
                Event::Connected
            }
            Err(error) => match error.kind() {
                io::ErrorKind::NotFound
                | io::ErrorKind::ConnectionRefused
                | io::ErrorKind::PermissionDenied => Event::NoSuccessor,
                io::ErrorKind::WouldBlock => Event::Connecting,
                _ if handover::is_exhausted(&error) => Event::Connecting,
                _ => {
                    say!(warn, "{}: {error}", path.display());
                    Event::ConnectFailed
                }
            },
        };
        self.events.push_back(event);
    }

    /// Sends the message to the next program.
    pub(super) fn send(&mut self, bytes: Vec<u8>, fds: &[FdId]) {
        self.message.clone_from(&bytes);
        let Some((stream, process)) = self.successor.take() else {
            return self.events.push_back(Event::SendFailed);
        };
        self.sent_to = process;
        let sockets = fds.iter().filter_map(|fd| self.sockets.get(fd));
        let listeners: Vec<_> = sockets.map(|socket| Arc::clone(&socket.listener)).collect();
        let inputs = self.inputs.clone();
        spawn_local(async move {
            let fds: Vec<_> = listeners.iter().map(|it| it.get_ref().share()).collect();
            let sent = handover::send(&stream, &bytes, &fds, handover::Frame::ToItsEnd).await;
            inputs.give(Input::Sent(sent));
        });
    }

    /// The offer is over: as long as no other program serves, this one does.
    pub(super) fn offered(&mut self) {
        if self.setup.shared.succession.is_some() && self.wanted == Wanted::Handover {
            self.frozen = true;
            self.see_to_succession(self.message.clone(), self.sent_to.clone());
        }
    }

    /// Makes the socket at which the message is waited for.
    pub(super) fn open_receiver(&mut self) {
        let path = PathBuf::from(&self.setup.plan.settings().upgrade_sock);
        let open = || {
            let lock = PathLock::take(&path)?;
            if handover::connect(&path, &self.setup.shared.spare).is_ok() {
                let text = "another program waits to take over already";
                return Err(io::Error::new(io::ErrorKind::AddrInUse, text));
            }
            let opened = PrivateSocket::open(&path);
            drop(lock);
            opened
        };
        match open() {
            Ok(receiver) => self.receiver = Some(Rc::new(receiver)),
            Err(error) => self.transfer = Some(format!("{}: {error}", path.display())),
        }
    }

    pub(super) fn try_receive(&mut self) {
        let Some(receiver) = &self.receiver else {
            return self.events.push_back(Event::ReceiveFailed);
        };
        let receiving = takeover::try_once(
            Rc::clone(receiver),
            self.setup.link.clone(),
            Rc::clone(&self.setup.shared),
            Rc::clone(&self.setup.addresses),
        );
        let inputs = self.inputs.clone();
        self.tasks.push(spawn_local(async move { inputs.give(receiving.await) }));
    }
}
