//! What the core tells is carried out.

use super::{Driver, Input, Socket, Wanted};
use crate::accept::{self, Arrival, Loop, Place, Polled};
use crate::connection::{Common, Connection, Guard, Served};
use crate::limits::Seat;
use crate::listener::{Address, Listener};
use crate::log::say;
use crate::machine::{Direct, Known, lock};
use crate::pid_file::FileId;
use crate::service::{Handler, Kind, Task};
use crate::succession::Held;
use fulltimehen::{Action, Event, FdId, Phase, Setting};
use std::collections::HashSet;
use std::fs;
use std::io;
use std::path::PathBuf;
use std::rc::Rc;
use std::sync::Arc;
use std::sync::atomic::{AtomicBool, Ordering};
use std::thread;
use std::time::Duration;
use tokio::sync::oneshot;
use tokio::task::JoinHandle;
use tokio::time::timeout;

/// How long an accept loop that is to end is waited for.
const LOOPS_END: Duration = Duration::from_millis(100);
/// How long a handshake may take.
const HANDSHAKE: Duration = Duration::from_secs(60);

/// Tells that the work of a background service has ended, however that came.
struct EndOfWork {
    service: u32,
    inputs: super::Inputs,
}

impl Drop for EndOfWork {
    fn drop(&mut self) {
        let panicked = thread::panicking();
        self.inputs.give(Input::Ended { service: self.service, panicked });
    }
}

/// Answers a handshake: that it failed, where nothing else is said.
struct Answered {
    connection: u64,
    inputs: Option<super::Inputs>,
}

impl Answered {
    fn give(&mut self, answer: Event) {
        if let Some(inputs) = self.inputs.take() {
            inputs.give(Input::Shaken(self.connection, answer));
        }
    }
}

impl Drop for Answered {
    fn drop(&mut self) {
        self.give(Event::HandshakeFailed { connection: self.connection });
    }
}

impl Driver {
    pub(super) fn carry_out(&mut self, action: Action) {
        match action {
            Action::Start { service } => self.start(service),
            Action::Fail { service } => self.give_up(service),
            Action::Bind { service, endpoint } => self.bind(Place { service, endpoint }),
            Action::Adopt { service, endpoint, fd } => self.adopt(Place { service, endpoint }, fd),
            Action::Close { fd } => self.close(fd),
            Action::Broadcast => self.broadcast(),
            Action::Settings { connection, settings } => {
                let answer = self.set(connection, &settings);
                self.events.push_back(answer);
            }
            Action::Handshake { connection } => self.shake(connection),
            Action::Serve { connection } => self.serve(connection),
            Action::Refuse { connection }
            | Action::Drop { connection }
            | Action::Cut { connection } => self.drop_connection(connection),
            Action::Phase { phase, .. } => self.publish(phase),
            Action::Connect => self.connect(),
            Action::Send { bytes, fds } => self.send(bytes, &fds),
            Action::OpenReceiver => self.open_receiver(),
            Action::TryReceive => self.try_receive(),
            // A judgement is the core's own, a rest is told to its loop, workers end with their runtime, and
            // no server forks.
            _ => {}
        }
    }

    fn start(&mut self, service: u32) {
        self.progress[service as usize].started = true;
        let Kind::Background { work, says_ready } = &self.setup.services[service as usize].kind
        else {
            return;
        };
        let (work, inputs) = (Arc::clone(work), self.inputs.clone());
        let says_ready = *says_ready;
        let was_said = AtomicBool::new(!says_ready);
        let ready = move || {
            if !was_said.swap(true, Ordering::SeqCst) {
                inputs.give(Input::Ready(service));
            }
        };
        let shutdown = self.finished.shutdown().clone();
        let task = Task::new(self.name(service), shutdown, Arc::new(ready));
        let end = EndOfWork { service, inputs: self.inputs.clone() };
        let work = self.setup.handlers.spawn(async move {
            let _end = end;
            work(task).await;
        });
        self.progress[service as usize].work = Some(work);
    }

    fn give_up(&mut self, service: u32) {
        self.progress[service as usize].failed = true;
        self.progress[service as usize].held.clear();
        self.end_loops(|place| place.service == service);
        say!(error, "{}: it is given up, without its addresses", self.name(service));
    }

    /// A listening socket of the poller, with a number.
    pub(super) fn keep(&mut self, word: String, listener: Listener) -> io::Result<FdId> {
        let file = listener.file();
        let listener = accept::polled(listener, &self.setup.handlers)?;
        Ok(self.keep_polled(word, listener, file))
    }

    fn keep_polled(
        &mut self,
        word: String,
        listener: Polled,
        file: Option<(PathBuf, FileId)>,
    ) -> FdId {
        let fd = FdId(self.numbers.take());
        self.sockets.insert(fd, Socket { word, listener, file });
        fd
    }

    fn bind(&mut self, place: Place) {
        let Place { service, endpoint } = place;
        let answer = match self.socket_for(place) {
            Ok(fd) => {
                self.hold(place, fd);
                Event::Bound { service, endpoint, fd }
            }
            Err(error) => {
                let (word, address) = &self.setup.addresses[&place];
                let text = format!("{} can't listen at {word}: {error}", self.name(service));
                let is_in_use = error.kind() == io::ErrorKind::AddrInUse;
                if self.refusals.get(&place) != Some(&text) {
                    // A path is given up at once.
                    let again = match address {
                        Address::Tcp(_) if is_in_use => "; it is tried again each second",
                        _ => "",
                    };
                    say!(error, "{text}{again}");
                    self.refusals.insert(place, text);
                }
                match is_in_use {
                    true => Event::AddrInUse { service, endpoint },
                    false => Event::BindFailed { service, endpoint },
                }
            }
        };
        self.events.push_back(answer);
    }

    /// A socket for the endpoint: one that is there already, or a new one.
    fn socket_for(&mut self, place: Place) -> io::Result<FdId> {
        let addresses = Rc::clone(&self.setup.addresses);
        let (word, address) = &addresses[&place];
        let is_it = |held: &Held| held.listener.get_ref().is_at(address);
        if let Some(at) = self.setup.pool.iter().position(is_it) {
            let held = self.setup.pool.swap_remove(at);
            held.listener.get_ref().prepare(self.setup.keep_alive)?;
            let file = held.listener.get_ref().file();
            return Ok(self.keep_polled(word.clone(), held.listener, file));
        }
        let listener = Listener::bind(address)?;
        listener.prepare(self.setup.keep_alive)?;
        self.keep(word.clone(), listener)
    }

    fn adopt(&mut self, place: Place, fd: FdId) {
        let Place { service, endpoint } = place;
        let address = &self.setup.addresses[&place].1;
        let adopted = match self.sockets.get(&fd) {
            Some(socket) if !socket.listener.get_ref().is_at(address) => {
                Err(io::Error::other("the socket listens at another address"))
            }
            Some(socket) => socket.listener.get_ref().prepare(self.setup.keep_alive),
            None => Err(io::ErrorKind::NotFound.into()),
        };
        let answer = match adopted {
            Ok(()) => {
                self.hold(place, fd);
                Event::Adopted { service, endpoint }
            }
            Err(error) => {
                let text = format!("{} can't take its socket over: {error}", self.name(service));
                say!(error, "{text}");
                self.refusals.insert(place, text);
                Event::AdoptFailed { service, endpoint }
            }
        };
        self.events.push_back(answer);
    }

    /// The endpoint has its socket.
    fn hold(&mut self, place: Place, fd: FdId) {
        self.refusals.remove(&place);
        self.loops.insert(place, (fd, Vec::new()));
    }

    /// The core knows that the endpoint has its socket. Where all of its service have one, they accept.
    pub(super) fn begin_loops(&mut self, Place { service, endpoint }: Place) {
        let progress = &mut self.progress[service as usize];
        if progress.failed {
            return;
        }
        progress.held.insert(endpoint);
        if progress.held.len() < self.setup.services[service as usize].endpoints().len() {
            return;
        }
        let direct = self.direct(service);
        let room = self.room.of(self.setup.services[service as usize].descriptors());
        for (place, (fd, loops)) in self.loops.iter_mut().filter(|(it, _)| it.service == service) {
            if let (true, Some(socket)) = (loops.is_empty(), self.sockets.get(fd)) {
                let begin = |number| {
                    let (inputs, room) = (self.inputs.clone(), room.clone());
                    let accepting =
                        Loop { place: *place, number, inputs, room, direct: direct.clone() };
                    accepting.begin(Arc::clone(&socket.listener), &self.setup.handlers)
                };
                *loops = (0..self.setup.tasks).map(begin).collect();
            }
        }
    }

    fn end_loops(&mut self, of: impl Fn(&Place) -> bool) {
        self.loops.retain(|place, (_, loops)| {
            let ends = of(place);
            if ends {
                loops.iter().for_each(JoinHandle::abort);
            }
            !ends
        });
    }

    /// Ends all loops, and waits for that, but for a handler that has their thread.
    pub(super) async fn end_all_loops(&mut self) {
        let mut loops = std::mem::take(&mut self.loops);
        loops.append(&mut self.ending);
        let loops: Vec<_> = loops.into_values().flat_map(|(_, loops)| loops).collect();
        loops.iter().for_each(JoinHandle::abort);
        for ending in loops {
            _ = timeout(LOOPS_END, ending).await;
        }
    }

    fn close(&mut self, fd: FdId) {
        let places: HashSet<Place> =
            self.loops.iter().filter(|(_, (of, _))| *of == fd).map(|(place, _)| *place).collect();
        self.end_loops(|place| places.contains(place));
        self.ending.retain(|_, (of, _)| *of != fd);
        let Some(socket) = self.sockets.remove(&fd) else {
            return;
        };
        // Where the service ends, the path of its socket does, too.
        if let Some((path, id)) = socket.file
            && self.wanted == Wanted::Stop
            && FileId::at(&path) == Some(id)
        {
            _ = fs::remove_file(path);
        }
    }

    /// No more connections are accepted but those that wait already, where nobody else would have them.
    fn broadcast(&mut self) {
        _ = self.shutdown.send(true);
        for (place, (fd, tasks)) in std::mem::take(&mut self.loops) {
            tasks.iter().for_each(JoinHandle::abort);
            match tasks.is_empty() {
                true => self.accept_rest(place, fd),
                false => _ = self.ending.insert(place, (fd, tasks)),
            }
        }
    }

    /// A loop has ended, and all that it accepted has come.
    pub(super) fn loop_ended(&mut self, place: Place, number: u64) {
        // Where it was closed meanwhile, the core has no loop any more.
        let Some((fd, tasks)) = self.ending.get_mut(&place) else {
            return;
        };
        let fd = *fd;
        tasks.pop();
        if tasks.is_empty() {
            self.ending.remove(&place);
            self.accept_rest(place, fd);
        }
        let Place { service, endpoint } = place;
        self.events.push_back(Event::LoopEnded { service, endpoint, number });
    }

    /// Where the service ends, those that wait at a socket come in: nobody else would have them.
    fn accept_rest(&mut self, place: Place, fd: FdId) {
        let (Wanted::Stop, Some(socket)) = (self.wanted, self.sockets.get(&fd)) else {
            return;
        };
        let listener = Arc::clone(&socket.listener);
        _ = listener.get_ref().unblock_if_shared();
        let room = self.room.of(self.setup.services[place.service as usize].descriptors());
        let mut came = Vec::new();
        while let Some(seat) = room.try_enter()
            && let Ok((stream, peer)) = listener.get_ref().accept()
        {
            came.push(Arrival { stream, peer, seat });
        }
        self.take(Input::Arrived { place, came });
    }

    /// Applies the settings of a connection, and answers the event that says how that went.
    fn set(&self, connection: u64, settings: &[Setting]) -> Event {
        match lock(&self.machine).connections.get(&connection) {
            Some(Known::Waiting { stream, peer, .. }) if stream.set(settings, *peer) => {
                Event::SettingsApplied { connection }
            }
            _ => Event::SettingsFailed { connection },
        }
    }

    fn guard(&self, connection: u64, service: u32, seat: Seat) -> Arc<Guard> {
        let common = self.finished.clone();
        Arc::new(Guard { number: connection, service, common, _seat: seat })
    }

    /// What the service of a connection does with one.
    fn handler(&self, connection: u64) -> Option<(u32, &Handler)> {
        let service = match lock(&self.machine).connections.get(&connection) {
            Some(Known::Waiting { service, .. }) => *service,
            _ => return None,
        };
        match &self.setup.services[service as usize].kind {
            Kind::Listening { handler, .. } => Some((service, handler)),
            Kind::Background { .. } => None,
        }
    }

    /// What the loops of a service serve its connections by, where nothing comes before that.
    fn direct(&self, service: u32) -> Option<Direct> {
        match &self.setup.services[service as usize].kind {
            Kind::Listening { handler: Handler::Plain(handle), filters, .. }
                if filters.is_empty() =>
            {
                Some(Direct {
                    machine: Arc::clone(&self.machine),
                    handle: Arc::clone(handle),
                    handlers: self.setup.handlers.clone(),
                    finished: Arc::clone(&self.finished),
                    inputs: self.inputs.clone(),
                    beat: self.beat.clone(),
                    has_spares: self.setup.shared.spare.borrow().is_whole(),
                })
            }
            _ => None,
        }
    }

    fn shake(&mut self, connection: u64) {
        let Some((service, Handler::Shaking(shake))) = self.handler(connection) else {
            return self.events.push_back(Event::HandshakeDone { connection });
        };
        let shake = Arc::clone(shake);
        let waiting = lock(&self.machine).connections.remove(&connection);
        let Some(Known::Waiting { stream, peer, seat, .. }) = waiting else {
            return;
        };
        let guard = self.guard(connection, service, seat);
        let (go, goes) = oneshot::channel();
        let mut answer = Answered { connection, inputs: Some(self.inputs.clone()) };
        let task = self.setup.handlers.spawn(async move {
            let served = Served { stream, peer, guard: Arc::clone(&guard) };
            let Ok(made) = Connection::new(served) else {
                return;
            };
            match timeout(HANDSHAKE, shake(made)).await {
                Ok(Ok(work)) => {
                    answer.give(Event::HandshakeDone { connection });
                    if goes.await.is_ok() {
                        work.await;
                    }
                }
                Ok(Err(error)) => tracing::debug!("a handshake: {error}"),
                Err(_) => tracing::debug!("a handshake took too long"),
            }
            drop(guard);
        });
        let known = Known::Shaking { task, go };
        lock(&self.machine).connections.insert(connection, known);
    }

    fn serve(&mut self, connection: u64) {
        let handler = self.handler(connection).map(|(service, handler)| (service, handler.clone()));
        let known = lock(&self.machine).connections.remove(&connection);
        let known = match (known, handler) {
            (
                Some(Known::Waiting { stream, peer, seat, .. }),
                Some((service, Handler::Plain(handle))),
            ) => {
                let guard = self.guard(connection, service, seat);
                self.beat.go_on(&self.setup.handlers);
                Known::Live(handle(Served { stream, peer, guard }, &self.setup.handlers))
            }
            // Where its task is gone, it says so itself.
            (Some(Known::Shaking { task, go }), _) => {
                _ = go.send(());
                Known::Live(task)
            }
            _ => return self.events.push_back(Event::Finished { connection }),
        };
        lock(&self.machine).connections.insert(connection, known);
    }

    fn drop_connection(&self, connection: u64) {
        let known = lock(&self.machine).connections.remove(&connection);
        if let Some(Known::Live(task) | Known::Shaking { task, .. }) = known {
            task.abort();
        }
    }

    /// What the outside wants to know of a phase.
    fn publish(&mut self, phase: Phase) {
        // Nobody may be watching.
        _ = self.setup.phases.send(phase);
        tracing::info!("{phase}");
        match phase {
            Phase::BootstrapComplete => self.receiver = None,
            Phase::Running => self.running = true,
            Phase::GracefulUpgradeCloseTimeout => self.offered(),
            Phase::ShutdownGracePeriod => self.drains = true,
            _ => {}
        }
        if !matches!(self.wanted, Wanted::Handover) && phase != Phase::Running {
            self.setup.shared.notify(&format!("STATUS={phase}"));
        }
    }
}
