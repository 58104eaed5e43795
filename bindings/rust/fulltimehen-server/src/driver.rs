//! The driver: what happens becomes events, and what the core tells is carried out. A connection before which nobody is asked has its
//! steps in its accept loop (`machine.rs`).

mod handing;
mod told;

use crate::accept::{Arrival, Place, Polled};
use crate::beat::Beat;
use crate::connection::{Common, Shutdown};
use crate::error::{Outcome, ServerError};
use crate::handover::PrivateSocket;
use crate::limits::Room;
use crate::listener::{KeepAlive, Listener};
use crate::log::say;
use crate::machine::{Known, Machine, SharedMachine, lock};
use crate::pid_file::FileId;
use crate::process::Process;
use crate::service::Service;
use crate::signals::Signals;
use crate::succession::{Held, Shared};
use crate::takeover::{Addresses, Ended};
use fulltimehen::{
    Action, Core, CoreError, End, Event, FdId, Numbers, OnStray, Phase, Plan, Record, RunningCore,
    Signal, Verdict,
};
use std::collections::{BTreeMap, HashSet, VecDeque};
use std::io;
use std::mem;
use std::panic::{AssertUnwindSafe, catch_unwind};
use std::path::PathBuf;
use std::process;
use std::rc::Rc;
use std::sync::atomic::{AtomicBool, Ordering};
use std::sync::{Arc, Mutex, PoisonError};
use std::time::Duration;
use tokio::net::UnixStream;
use tokio::runtime::Handle;
use tokio::sync::{broadcast, mpsc, oneshot, watch};
use tokio::task::{JoinHandle, spawn_local};
use tokio::time::{Instant, sleep, sleep_until};

/// How many connections may be done with before the core hears of it at once.
const MANY_FINISHED: usize = 128;
/// How long an accept loop rests where the core says so.
const REST: Duration = Duration::from_secs(1);
/// How long a program that serves on waits until it tries again to say so.
const AGAIN: Duration = Duration::from_secs(1);

/// What happens outside of the core.
pub(crate) enum Input {
    Arrived {
        place: Place,
        came: Vec<Arrival>,
    },
    LoopEnded {
        place: Place,
        number: u64,
    },
    AcceptFailed {
        place: Place,
        error: io::Error,
        answer: oneshot::Sender<Option<Duration>>,
    },
    /// A handshake is done, or failed: this is its answer.
    Shaken(u64, Event),
    /// Connections are done with.
    Finished,
    /// What the step of a connection told that isn't about it.
    Told(Vec<Action>),
    /// The core refused an event of a connection.
    Refused(Event, CoreError),
    Ready(u32),
    Ended {
        service: u32,
        panicked: bool,
    },
    /// A program listens for the message.
    Successor(UnixStream, Option<Process>),
    /// The message was sent, or wasn't.
    Sent(io::Result<()>),
    /// It is time to try again to say that this program serves.
    ClaimAgain,
    /// Another program serves, though this one went on.
    Overtaken,
    /// Another program serves.
    Succeeded,
    /// That program is gone.
    Reclaimed,
    Message {
        bytes: Vec<u8>,
        sockets: Vec<(String, Listener)>,
    },
    NoSender,
    PredecessorEnded(Ended),
}

/// Where inputs are given.
#[derive(Clone)]
pub(crate) struct Inputs(mpsc::UnboundedSender<Input>);

impl Inputs {
    pub(crate) fn channel() -> (Inputs, mpsc::UnboundedReceiver<Input>) {
        let (to, from) = mpsc::unbounded_channel();
        (Inputs(to), from)
    }

    pub(crate) fn give(&self, input: Input) {
        // Where the run is over, nothing matters any more.
        _ = self.0.send(input);
    }
}

/// The connections that are done with. The core hears of them when it looks, and it is woken for them only
/// where they are many or it waits for them: so a connection costs no wakeup of its own.
pub(crate) struct FinishedList {
    numbers: Mutex<Vec<u64>>,
    /// The core waits for them.
    is_awaited: AtomicBool,
    inputs: Inputs,
    shutdown: Shutdown,
    names: Vec<String>,
}

impl FinishedList {
    /// Swaps the numbers for an empty list.
    pub(crate) fn swap(&self, empty: &mut Vec<u64>) {
        std::mem::swap(&mut *self.numbers.lock().unwrap_or_else(PoisonError::into_inner), empty);
    }
}

impl Common for FinishedList {
    fn shutdown(&self) -> &Shutdown {
        &self.shutdown
    }

    fn service_name(&self, service: u32) -> &str {
        &self.names[service as usize]
    }

    fn finished(&self, connection: u64) {
        let count = {
            let mut numbers = self.numbers.lock().unwrap_or_else(PoisonError::into_inner);
            numbers.push(connection);
            numbers.len()
        };
        if count == MANY_FINISHED || self.is_awaited.load(Ordering::SeqCst) {
            self.inputs.give(Input::Finished);
        }
    }
}

/// A listening socket, by the number that the core has for it.
struct Socket {
    word: String,
    listener: Polled,
    /// The file of a Unix socket.
    file: Option<(PathBuf, FileId)>,
}

/// How far a service is.
#[derive(Default)]
struct Progress {
    started: bool,
    failed: bool,
    ended: bool,
    /// Its endpoints that are held.
    held: HashSet<u32>,
    work: Option<JoinHandle<()>>,
}

/// What a run is made of.
pub(crate) struct Setup {
    pub(crate) services: Rc<[Service]>,
    pub(crate) addresses: Rc<Addresses>,
    pub(crate) plan: Plan,
    pub(crate) tasks: u64,
    pub(crate) handlers: Handle,
    pub(crate) keep_alive: Option<KeepAlive>,
    pub(crate) phases: broadcast::Sender<Phase>,
    pub(crate) on_stray: OnStray,
    pub(crate) shared: Rc<Shared>,
    /// The link to the program that serves, where this one takes over.
    pub(crate) link: Option<Rc<UnixStream>>,
    /// Listening sockets that no bind took yet.
    pub(crate) pool: Vec<Held>,
    /// The run takes over from a program that serves, or served.
    pub(crate) takes_over: bool,
    /// Nobody else served at its begin: the run goes on also where its pid file can't be made.
    pub(crate) serves_on: bool,
}

/// How a run of a core ended.
pub(crate) enum Drive {
    Done(Outcome),
    /// Nobody serves: a new run is to be begun, over these sockets.
    Anew(Vec<Held>),
    /// The same, where the program that served has died before it handed over.
    Instead(Vec<Held>),
}

/// What the operator wants.
#[derive(Clone, Copy, PartialEq, Eq)]
enum Wanted {
    Nothing,
    /// Another program is to serve, and one is sought.
    Upgrade,
    /// It was offered the sockets.
    Handover,
    /// The service is to end.
    Stop,
}

pub(crate) struct Driver {
    setup: Setup,
    machine: SharedMachine,
    inputs: Inputs,
    events: VecDeque<Event>,
    /// Room for what a step tells.
    actions: Vec<Action>,
    began: Instant,
    moment: u64,
    /// The core isn't told the time, so that it goes on serving.
    frozen: bool,
    numbers: Numbers,
    sockets: BTreeMap<FdId, Socket>,
    loops: BTreeMap<Place, (FdId, Vec<JoinHandle<()>>)>,
    /// Those that were told to end, and haven't ended.
    ending: BTreeMap<Place, (FdId, Vec<JoinHandle<()>>)>,
    room: Room,
    finished: Arc<FinishedList>,
    /// Room for what is taken out of that list.
    done_with: Vec<u64>,
    beat: Beat,
    progress: Vec<Progress>,
    shutdown: watch::Sender<bool>,
    running: bool,
    claimed: bool,
    /// It serves though that couldn't be said, which was logged, and is tried again later.
    goes_on: bool,
    claims_later: bool,
    drains: bool,
    wanted: Wanted,
    receiver: Option<Rc<PrivateSocket>>,
    /// The program that listens for the message.
    successor: Option<(Rc<UnixStream>, Option<Process>)>,
    /// The message, and who got it.
    message: Vec<u8>,
    sent_to: Option<Process>,
    /// Nothing is open, and another program is told to go on: the core hears of the signal once it does.
    offers_nothing: bool,
    /// What is handed over, for the programs after the first one.
    handed: Vec<Held>,
    tasks: Vec<JoinHandle<()>>,
    /// Why each endpoint without an address has none.
    refusals: BTreeMap<Place, String>,
    predecessor_ended: Option<Ended>,
    transfer: Option<String>,
    error: Option<ServerError>,
    stopped: bool,
}

impl Driver {
    pub(crate) fn new(setup: Setup, record: Option<Record>) -> Result<Driver, ServerError> {
        let core = Core::new(&setup.plan)?;
        let core = core.begin().map_err(|refused| ServerError::Core(refused.error))?;
        let (shutdown, told_shutdown) = Shutdown::channel();
        let inputs = setup.shared.inputs.clone();
        let finished = Arc::new(FinishedList {
            numbers: Mutex::new(Vec::new()),
            is_awaited: AtomicBool::new(false),
            inputs: inputs.clone(),
            shutdown: told_shutdown,
            names: setup.services.iter().map(|service| service.name.clone()).collect(),
        });
        Ok(Driver {
            machine: Machine::shared(core, record),
            inputs,
            events: VecDeque::new(),
            actions: Vec::new(),
            began: Instant::now(),
            moment: 0,
            frozen: false,
            numbers: Numbers::new(),
            sockets: BTreeMap::new(),
            loops: BTreeMap::new(),
            ending: BTreeMap::new(),
            room: Room::within_limit(setup.addresses.len()),
            finished,
            done_with: Vec::new(),
            beat: Beat::default(),
            progress: setup.services.iter().map(|_| Progress::default()).collect(),
            shutdown,
            running: false,
            claimed: false,
            goes_on: false,
            claims_later: false,
            drains: false,
            wanted: Wanted::Nothing,
            receiver: None,
            successor: None,
            message: Vec::new(),
            sent_to: None,
            offers_nothing: false,
            handed: Vec::new(),
            tasks: Vec::new(),
            refusals: BTreeMap::new(),
            predecessor_ended: None,
            transfer: None,
            error: None,
            stopped: false,
            setup,
        })
    }

    /// The run, to its end.
    pub(crate) async fn run(
        mut self,
        inputs: &mut mpsc::UnboundedReceiver<Input>,
        signals: &mut Signals,
    ) -> Result<Drive, ServerError> {
        self.carry_out_last();
        let watchdog = self.setup.shared.manager.watchdog();
        let mut next_sign = watchdog.map(|every| Instant::now() + every);
        loop {
            self.settle();
            if !self.is_on() || self.stopped {
                break;
            }
            let due = [self.due(), next_sign].into_iter().flatten().min();
            let wait = async {
                match due {
                    Some(due) => sleep_until(due).await,
                    None => std::future::pending().await,
                }
            };
            tokio::select! {
                biased;
                kind = signals.next() => self.signal(kind),
                Some(input) = inputs.recv() => {
                    self.take(input);
                    for _ in 0..256 {
                        let Ok(input) = inputs.try_recv() else { break };
                        // Connections that came one after the other go to the core together.
                        if !matches!(input, Input::Arrived { .. }) {
                            self.settle();
                        }
                        self.take(input);
                        if !self.is_on() {
                            break;
                        }
                    }
                }
                () = wait => {
                    if let (Some(sign), Some(every)) = (next_sign, watchdog)
                        && sign <= Instant::now()
                    {
                        // Once another program serves, its own signs count.
                        if !self.setup.shared.is_succeeded.get() {
                            self.setup.shared.notify("WATCHDOG=1");
                        }
                        next_sign = Some(Instant::now() + every);
                    }
                    self.tell_time();
                }
            }
        }
        self.end_all_loops().await;
        self.finish()
    }

    fn now(&self) -> u64 {
        u64::try_from(self.began.elapsed().as_millis()).unwrap_or(u64::MAX)
    }

    /// The core's run goes on.
    fn is_on(&self) -> bool {
        lock(&self.machine).is_on()
    }

    fn next_due(&self) -> Option<u64> {
        let mut machine = lock(&self.machine);
        machine.core.as_mut().and_then(RunningCore::next_due)
    }

    /// When the core wants to be told the time.
    fn due(&self) -> Option<Instant> {
        let due = self.next_due().filter(|_| !self.frozen)?;
        Some(self.began + Duration::from_millis(due))
    }

    fn tell_time(&mut self) {
        let due = self.next_due().is_some_and(|due| due <= self.now());
        if due && !self.frozen {
            self.moment = self.now();
            self.step(Event::Moment { ms: self.moment });
        }
    }

    /// The core takes what is owed and what came, until nothing is left.
    fn settle(&mut self) {
        loop {
            let mut done_with = std::mem::take(&mut self.done_with);
            self.finished.swap(&mut done_with);
            let over = done_with.drain(..).filter(|it| lock(&self.machine).is_over(*it));
            self.events.extend(over.map(|connection| Event::Finished { connection }));
            self.done_with = done_with;
            while let Some(event) = self.events.pop_front() {
                self.give(event);
                if !self.is_on() {
                    return;
                }
            }
            if !self.is_on() {
                return;
            }
            self.claim();
            self.end_early();
            if self.events.is_empty() {
                return;
            }
        }
    }

    /// Gives the core an event, after the time where the core counts from that.
    fn give(&mut self, event: Event) {
        let is_counted = !matches!(
            event,
            Event::Arrived { .. }
                | Event::SettingsApplied { .. }
                | Event::SettingsFailed { .. }
                | Event::HandshakeDone { .. }
                | Event::HandshakeFailed { .. }
                | Event::Finished { .. }
        );
        if is_counted && !self.frozen && self.now() > self.moment {
            self.moment = self.now();
            self.step(Event::Moment { ms: self.moment });
        }
        let held = match event {
            Event::Bound { service, endpoint, .. } | Event::Adopted { service, endpoint } => {
                Some(Place { service, endpoint })
            }
            _ => None,
        };
        self.step(event);
        if let Some(place) = held {
            self.begin_loops(place);
        }
    }

    fn step(&mut self, event: Event) {
        if !self.is_on() {
            // The time before an event may have ended the run; what comes after that matters to nobody.
            return;
        }
        let own_word = match &event {
            Event::Arrived { service, peer, .. } => {
                let service = &self.setup.services[*service as usize];
                service.is_filtered().then(|| {
                    let asked = AssertUnwindSafe(|| service.lets_in(peer));
                    Verdict::from(catch_unwind(asked).unwrap_or(false))
                })
            }
            _ => None,
        };
        let mut actions = std::mem::take(&mut self.actions);
        let told = lock(&self.machine).step(&event, own_word, &mut actions);
        actions.drain(..).for_each(|action| self.carry_out(action));
        self.actions = actions;
        if let Err(error) = told {
            self.refused(&event, error);
        }
    }

    /// What the first step told.
    fn carry_out_last(&mut self) {
        let mut actions = Vec::new();
        let told = lock(&self.machine).begin(&mut actions);
        actions.into_iter().for_each(|action| self.carry_out(action));
        if let Err(error) = told {
            self.fail(ServerError::Core(error));
        }
    }

    /// An event was refused: the run goes on, unless it was to end then or memory lacks.
    fn refused(&mut self, event: &Event, error: CoreError) {
        let is_stray = matches!(error, CoreError::Stray(_) | CoreError::NoEvent(_));
        say!(error, "the core refused an event: {error}");
        let left: Vec<Action> = match &mut lock(&self.machine).core {
            Some(core) => core.left_by(event).collect(),
            None => Vec::new(),
        };
        left.into_iter().for_each(|action| self.carry_out(action));
        if !is_stray || self.setup.on_stray == OnStray::End {
            self.fail(ServerError::Core(error));
        }
    }

    /// The run ends by an error.
    fn fail(&mut self, error: ServerError) {
        self.error.get_or_insert(error);
        self.stopped = true;
    }

    // ---- what happens

    fn take(&mut self, input: Input) {
        match input {
            Input::Arrived { place, came } => {
                came.into_iter().for_each(|arrival| self.arrived(place, arrival));
            }
            Input::LoopEnded { place, number } => self.loop_ended(place, number),
            Input::AcceptFailed { place, error, answer } => {
                self.accept_failed(place, &error, answer)
            }
            Input::Shaken(connection, answer) => {
                let machine = lock(&self.machine);
                let known = machine.connections.get(&connection);
                if matches!(known, Some(Known::Shaking { .. } | Known::Over)) {
                    self.events.push_back(answer);
                }
            }
            Input::Finished => {}
            Input::ClaimAgain => self.claims_later = false,
            Input::Overtaken => self.overtaken(),
            Input::Told(actions) => actions.into_iter().for_each(|action| self.carry_out(action)),
            Input::Refused(event, error) => self.refused(&event, error),
            Input::Ready(service) => {
                if !self.progress[service as usize].ended {
                    self.events.push_back(Event::Ready { service });
                }
            }
            Input::Ended { service, panicked } => self.ended(service, panicked),
            input => self.take_of_handover(input),
        }
    }

    fn arrived(&mut self, place: Place, arrival: Arrival) {
        let Arrival { stream, peer, seat } = arrival;
        if !self.setup.shared.spare.borrow_mut().fill() {
            // What a handover needs comes before a connection.
            drop(stream);
            self.setup.shared.spare.borrow_mut().fill();
            return;
        }
        let mut machine = lock(&self.machine);
        let connection = machine.numbers.take();
        let Place { service, endpoint } = place;
        let known = Known::Waiting { stream, peer, service, seat };
        machine.connections.insert(connection, known);
        self.events.push_back(Event::Arrived { service, endpoint, connection, peer });
    }

    fn accept_failed(
        &mut self,
        place: Place,
        error: &io::Error,
        answer: oneshot::Sender<Option<Duration>>,
    ) {
        let number = error.raw_os_error().and_then(|number| u32::try_from(number).ok());
        tracing::warn!("{}: a connection wasn't accepted: {error}", self.name(place.service));
        let Place { service, endpoint } = place;
        let event = Event::AcceptFailed { service, endpoint, error: number.unwrap_or(0) };
        let mut actions = Vec::new();
        let told = lock(&self.machine).step(&event, None, &mut actions);
        if let Err(error) = told {
            self.refused(&event, error);
        }
        // They are few; a rest is among them where the core wants one.
        let is_told = actions.iter().any(|action| matches!(action, Action::Rest { .. }));
        _ = answer.send(is_told.then_some(REST));
    }

    fn ended(&mut self, service: u32, panicked: bool) {
        let progress = &mut self.progress[service as usize];
        if std::mem::replace(&mut progress.ended, true) {
            return;
        }
        if panicked {
            say!(error, "{}: its work panicked, and has ended", self.name(service));
        }
        self.events.push_back(Event::WorkEnded { service });
    }

    fn name(&self, service: u32) -> &str {
        self.finished.service_name(service)
    }

    fn signal(&mut self, kind: Signal) {
        if !self.running {
            if kind == Signal::Upgrade {
                return say!(warn, "SIGQUIT: this program doesn't serve yet");
            }
            self.stopped = true;
            return self.stop_service();
        }
        self.finished.is_awaited.store(true, Ordering::SeqCst);
        match (kind, self.wanted) {
            (Signal::Upgrade, Wanted::Nothing) => self.upgrade(),
            (Signal::Upgrade, _) | (Signal::Terminate, Wanted::Stop) => {}
            (Signal::Terminate, Wanted::Handover) => {
                // The service ends: this program by its drain, the one that serves by its own.
                self.setup.shared.end_other();
                self.wanted = Wanted::Stop;
                self.stop_service();
                self.frozen = false;
                if std::mem::take(&mut self.offers_nothing) {
                    self.events.push_back(Event::Signal { kind });
                }
            }
            (Signal::Fast, Wanted::Handover) if self.setup.shared.is_followed() => {
                self.setup.shared.is_succeeded.set(true);
                self.frozen = false;
                self.events.push_back(Event::Signal { kind });
            }
            (kind, _) => {
                self.abort_tasks();
                self.wanted = Wanted::Stop;
                self.frozen = false;
                self.stop_service();
                self.setup.shared.notify("STOPPING=1");
                self.events.push_back(Event::Signal { kind });
            }
        }
    }

    /// Once all addresses are held, the outside is told that this program serves.
    fn claim(&mut self) {
        let is_settled = |(service, progress): (&Service, &Progress)| {
            let all = service.endpoints().len();
            progress.failed || (progress.started && progress.held.len() == all)
        };
        let mut services = self.setup.services.iter().zip(&self.progress);
        if self.claimed || self.claims_later || !self.running || self.wanted != Wanted::Nothing {
            return;
        }
        if !services.all(is_settled) {
            return;
        }
        self.claimed = true;
        let lacking = self.lacking();
        if !lacking.is_empty() {
            let text: Vec<&str> = self.refusals.values().map(String::as_str).collect();
            if self.all_failed() {
                return self.fail(ServerError::Bind(text.join("; ")));
            }
            if self.is_predecessor_there() {
                return self.fail(ServerError::Lacking(text.join("; ")));
            }
        }
        self.drop_pool();
        *self.setup.shared.held.borrow_mut() = self.held();
        if let Err(error) = self.setup.shared.claim(self.setup.takes_over, None) {
            return self.claim_failed(error);
        }
        if self.setup.serves_on {
            self.tasks.push(spawn_local(Rc::clone(&self.setup.shared).watch()));
        }
        self.setup.link = None;
        let listeners = self.sockets.values().map(|socket| socket.listener.get_ref());
        if let Err(error) = self.setup.shared.manager.store(listeners) {
            say!(warn, "the service manager didn't take the sockets: {error}");
        }
        let own = process::id();
        self.setup.shared.notify(&format!("READY=1\nMAINPID={own}\nSTATUS=Running{lacking}"));
        tracing::info!("serving");
    }

    /// The outside can't be told that this program serves.
    fn claim_failed(&mut self, error: ServerError) {
        if !self.setup.serves_on {
            return self.fail(error);
        }
        if matches!(error, ServerError::AlreadyRunning { .. }) {
            return self.overtaken();
        }
        (self.claimed, self.claims_later) = (false, true);
        if !std::mem::replace(&mut self.goes_on, true) {
            say!(warn, "{error}; this program serves all the same, and tries again each second");
        }
        let inputs = self.inputs.clone();
        spawn_local(async move {
            sleep(AGAIN).await;
            inputs.give(Input::ClaimAgain);
        });
    }

    /// What nobody took goes. Where it is at an address that no service has, that is said.
    fn drop_pool(&mut self) {
        for Held { word, listener } in self.setup.pool.drain(..) {
            let address = listener.get_ref().address();
            let is_it = |socket: &Socket| socket.listener.get_ref().address() == address;
            if !self.sockets.values().any(is_it) {
                let name = if word.is_empty() || word == address {
                    String::new()
                } else {
                    format!(" ({word})")
                };
                say!(
                    warn,
                    "no service listens at {address}{name}: the socket that is there is closed"
                );
            }
        }
    }

    /// The services that were given up, as a status has them.
    fn lacking(&self) -> String {
        let services = self.setup.services.iter().zip(&self.progress);
        let names =
            services.filter(|(_, progress)| progress.failed).map(|(it, _)| it.name.as_str());
        let names: Vec<&str> = names.collect();
        if names.is_empty() { String::new() } else { format!(", without {}", names.join(", ")) }
    }

    /// The program that this one takes over from lives, and serves on where this one ends.
    fn is_predecessor_there(&self) -> bool {
        let answer = self.setup.link.as_ref().map(|link| link.try_read(&mut [0]));
        answer.is_some_and(|it| it.is_err_and(|error| error.kind() == io::ErrorKind::WouldBlock))
    }

    fn all_failed(&self) -> bool {
        let services = self.setup.services.iter().zip(&self.progress);
        let mut listening = services.filter(|(service, _)| !service.endpoints().is_empty());
        listening.clone().next().is_some() && listening.all(|(_, progress)| progress.failed)
    }

    /// A drain in which nothing is left is over.
    fn end_early(&mut self) {
        let is_done = self.drains
            && lock(&self.machine).connections.is_empty()
            && self.ending.is_empty()
            && self.progress.iter().zip(self.setup.services.iter()).all(|(progress, service)| {
                !progress.started || progress.ended || !service.endpoints().is_empty()
            });
        if is_done {
            self.drains = false;
            self.events.push_back(Event::Signal { kind: Signal::Fast });
        }
    }

    /// The run is over: what it has goes, and it is said how it ended.
    fn finish(mut self) -> Result<Drive, ServerError> {
        self.abort_tasks();
        let (core, mut record, connections) = {
            let mut machine = lock(&self.machine);
            (machine.core.take(), machine.record.take(), mem::take(&mut machine.connections))
        };
        for known in connections.into_values() {
            if let Known::Live(task) | Known::Shaking { task, .. } = known {
                task.abort();
            }
        }
        for work in self.progress.iter_mut().filter_map(|progress| progress.work.take()) {
            work.abort();
        }
        let end = core.as_ref().map_or(Some(End::Served), RunningCore::end);
        let drive = self.outcome(end);
        if let Some(mut record) = record.take() {
            if end != Some(End::Served)
                && let Some(mut closed) = core.and_then(|core| core.close(None).ok())
                && let Ok(told) = closed.last_told()
            {
                record.put(told.record());
            }
            if let Err(error) = record.finish(Duration::from_secs(2)) {
                say!(warn, "the record isn't whole: {error}");
            }
        }
        drive
    }

    fn outcome(&mut self, end: Option<End>) -> Result<Drive, ServerError> {
        if let Some(error) = self.error.take() {
            return Err(error);
        }
        let Some(end) = end.filter(|_| !self.stopped) else {
            return Ok(Drive::Done(Outcome::Stopped));
        };
        let shared = &self.setup.shared;
        match end {
            End::Served => {
                let is_left = self.wanted == Wanted::Handover
                    && shared.succession.is_some()
                    && !shared.is_over.get()
                    && !shared.is_followed();
                match is_left {
                    true => Ok(Drive::Anew(std::mem::take(&mut self.handed))),
                    false => Ok(Drive::Done(Outcome::Served)),
                }
            }
            End::Tested => Ok(Drive::Done(Outcome::Tested)),
            End::Transfer if self.predecessor_ended == Some(Ended::Died) => {
                Ok(Drive::Instead(std::mem::take(&mut self.setup.pool)))
            }
            End::NoSender => Err(ServerError::NoPredecessor),
            End::BadMessage => Err(ServerError::BadMessage),
            end => {
                let why = self.transfer.take();
                Err(ServerError::Transfer(why.unwrap_or_else(|| end.to_string())))
            }
        }
    }
}
