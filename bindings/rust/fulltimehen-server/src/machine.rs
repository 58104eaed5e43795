//! The core, and the connections that it knows: what the driver and the accept loops have in common. So a connection is served by the
//! loop that accepted it, where nothing is to be asked before, and waits for no other thread.

use crate::accept::{Arrival, Place};
use crate::beat::Beat;
use crate::connection::{Common, Guard, Served};
use crate::driver::{FinishedList, Input, Inputs};
use crate::limits::Seat;
use crate::listener::Accepted;
use crate::service::Plain;
use fulltimehen::{Action, CoreError, Event, Numbers, Peer, Record, RunningCore, Told, Verdict};
use std::collections::HashMap;
use std::hash::{BuildHasherDefault, Hasher};
use std::mem;
use std::sync::atomic::{AtomicBool, Ordering};
use std::sync::{Arc, Mutex, MutexGuard, PoisonError};
use tokio::runtime::Handle;
use tokio::sync::oneshot;
use tokio::task::JoinHandle;

/// Hashes a connection's number by itself: numbers ascend, and the server gives them.
#[derive(Default)]
pub(crate) struct NumberHasher(u64);

impl Hasher for NumberHasher {
    fn finish(&self) -> u64 {
        self.0
    }

    fn write(&mut self, _: &[u8]) {
        unreachable!("a number is written")
    }

    fn write_u64(&mut self, number: u64) {
        // The table looks at the highest bits, too.
        self.0 = number.wrapping_mul(0x9e37_79b9_7f4a_7c15);
    }
}

/// A connection that the core knows.
pub(crate) enum Known {
    /// It was accepted.
    Waiting {
        stream: Accepted,
        peer: Peer,
        service: u32,
        seat: Seat,
    },
    /// It shakes hands, and waits then for the core's word.
    Shaking {
        task: JoinHandle<()>,
        go: oneshot::Sender<()>,
    },
    Live(JoinHandle<()>),
    /// Its handler is gone already.
    Over,
}

/// The core with its connections.
pub(crate) struct Machine {
    /// None once the run is over.
    pub(crate) core: Option<RunningCore>,
    pub(crate) record: Option<Record>,
    pub(crate) connections: HashMap<u64, Known, BuildHasherDefault<NumberHasher>>,
    pub(crate) numbers: Numbers,
    /// Room for what a step tells an accept loop, and for the connections that are done with.
    actions: Vec<Action>,
    done_with: Vec<u64>,
}

/// One thread at a time has it.
pub(crate) type SharedMachine = Arc<Mutex<Machine>>;

pub(crate) fn lock(machine: &SharedMachine) -> MutexGuard<'_, Machine> {
    machine.lock().unwrap_or_else(PoisonError::into_inner)
}

fn note(told: Told<'_>, record: &mut Option<Record>, actions: &mut Vec<Action>) {
    if let Some(record) = record {
        record.put(told.record());
    }
    actions.extend(told.actions());
}

impl Machine {
    pub(crate) fn shared(core: RunningCore, record: Option<Record>) -> SharedMachine {
        Arc::new(Mutex::new(Machine {
            core: Some(core),
            record,
            connections: HashMap::default(),
            numbers: Numbers::new(),
            actions: Vec::new(),
            done_with: Vec::new(),
        }))
    }

    /// The run goes on.
    pub(crate) fn is_on(&self) -> bool {
        self.core.as_ref().is_some_and(|core| core.end().is_none())
    }

    /// What the first step told. It comes behind the actions that are there, and into the record.
    pub(crate) fn begin(&mut self, actions: &mut Vec<Action>) -> Result<(), CoreError> {
        if let Some(core) = &mut self.core {
            note(core.last_told()?, &mut self.record, actions);
        }
        Ok(())
    }

    /// The step of an event, with the caller's word on a peer, if there is one. What it tells comes behind the actions
    /// that are there, and into the record. Once the run is over nothing is told.
    pub(crate) fn step(
        &mut self,
        event: &Event,
        word: Option<Verdict>,
        actions: &mut Vec<Action>,
    ) -> Result<(), CoreError> {
        let Some(core) = &mut self.core else {
            return Ok(());
        };
        let told = match word {
            Some(word) => core.step_judged(event, word),
            None => core.step(event),
        };
        note(told?, &mut self.record, actions);
        Ok(())
    }

    /// A connection's handler is gone. It answers whether the core is to hear of that now.
    pub(crate) fn is_over(&mut self, connection: u64) -> bool {
        match self.connections.get_mut(&connection) {
            Some(Known::Live(_)) => self.connections.remove(&connection).is_some(),
            Some(known @ Known::Shaking { .. }) => {
                *known = Known::Over;
                false
            }
            _ => false,
        }
    }
}

/// What an accept loop has to serve its connections itself: nobody is asked whether they come in, and no handshake is due.
#[derive(Clone)]
pub(crate) struct Direct {
    pub(crate) machine: SharedMachine,
    pub(crate) handle: Plain,
    pub(crate) handlers: Handle,
    pub(crate) finished: Arc<FinishedList>,
    pub(crate) inputs: Inputs,
    pub(crate) beat: Beat,
    /// The descriptors that a handover needs are held.
    pub(crate) has_spares: Arc<AtomicBool>,
}

/// A connection on its way into the core.
struct Coming {
    connection: u64,
    service: u32,
    peer: Peer,
    /// None once it is served or let go.
    stream: Option<(Accepted, Seat)>,
}

impl Direct {
    /// Gives the core a connection, and serves it where the core says so. It comes back where the driver is to see to it.
    pub(crate) fn take(&self, place: Place, arrival: Arrival) -> Option<Arrival> {
        let mut machine = lock(&self.machine);
        if !machine.is_on() || !self.has_spares.load(Ordering::SeqCst) {
            return Some(arrival);
        }
        let (Place { service, endpoint }, Arrival { stream, peer, seat }) = (place, arrival);
        let connection = machine.numbers.take();
        let mut coming = Coming { connection, service, peer, stream: Some((stream, seat)) };
        let mut next = Some(Event::Arrived { service, endpoint, connection, peer });
        let mut actions = mem::take(&mut machine.actions);
        let mut others = Vec::new();
        self.tell_finished(&mut machine, &mut others);
        while let Some(event) = next.take() {
            if let Err(error) = machine.step(&event, None, &mut actions) {
                self.inputs.give(Input::Refused(event, error));
                break;
            }
            for action in actions.drain(..) {
                match self.carry_out(action, &mut coming, &mut machine) {
                    Ok(answer) => next = answer.or(next),
                    Err(action) => others.push(action),
                }
            }
        }
        machine.actions = actions;
        // Where the run is over by now, the driver is to see it.
        if !others.is_empty() || !machine.is_on() {
            self.inputs.give(Input::Told(others));
        }
        None
    }

    /// Tells the core of the connections that are done with, before the next one comes.
    fn tell_finished(&self, machine: &mut Machine, actions: &mut Vec<Action>) {
        let mut done_with = mem::take(&mut machine.done_with);
        self.finished.swap(&mut done_with);
        for connection in done_with.drain(..) {
            let event = Event::Finished { connection };
            if machine.is_over(connection)
                && let Err(error) = machine.step(&event, None, actions)
            {
                self.inputs.give(Input::Refused(event, error));
            }
        }
        machine.done_with = done_with;
    }

    /// Carries out what is told of the connection, and answers the event that answers it. An action that isn't about it comes back.
    fn carry_out(
        &self,
        action: Action,
        coming: &mut Coming,
        machine: &mut Machine,
    ) -> Result<Option<Event>, Action> {
        let own = coming.connection;
        match action {
            Action::Settings { connection, settings } if connection == own => {
                let set = |(stream, _): &(Accepted, Seat)| stream.set(&settings, coming.peer);
                Ok(Some(match coming.stream.as_ref().is_some_and(set) {
                    true => Event::SettingsApplied { connection },
                    false => Event::SettingsFailed { connection },
                }))
            }
            Action::Handshake { connection } if connection == own => {
                Ok(Some(Event::HandshakeDone { connection }))
            }
            Action::Serve { connection } if connection == own => {
                if let Some((stream, seat)) = coming.stream.take() {
                    let common: Arc<dyn Common> = self.finished.clone();
                    let guard = Guard { number: own, service: coming.service, common, _seat: seat };
                    let served = Served { stream, peer: coming.peer, guard: Arc::new(guard) };
                    self.beat.go_on(&self.handlers);
                    let task = (self.handle)(served, &self.handlers);
                    machine.connections.insert(own, Known::Live(task));
                }
                Ok(None)
            }
            Action::Refuse { connection } | Action::Drop { connection } if connection == own => {
                coming.stream = None;
                Ok(None)
            }
            // A judgement is the core's own.
            Action::Judged { .. } => Ok(None),
            action => Err(action),
        }
    }
}
