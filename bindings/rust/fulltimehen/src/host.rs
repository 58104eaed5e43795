//! The outside of a run, and the run.

use crate::action::Action;
use crate::core::{Core, CoreError, End, Refused, RunningCore, Told};
use crate::event::{Event, Verdict};
use crate::line::Line;
use crate::messages::{Shown, fits_where};
use crate::record::Record;
use std::fmt::{self, Write};
use std::io;
use std::sync::{Mutex, PoisonError};
use std::thread::sleep;
use std::time::Duration;

/// What a host answers where it is asked for the next event.
#[derive(Debug)]
#[non_exhaustive]
pub enum Next {
    /// This event came.
    Event(Event),
    /// Nothing comes any more.
    Nothing,
    /// The host failed.
    Failed(io::Error),
}

/// What a run does after an event that doesn't fit.
#[derive(Clone, Copy, Debug, PartialEq, Eq)]
#[non_exhaustive]
pub enum OnStray {
    /// It goes on as if the event hadn't come. What the event brought is told to be let go.
    Drop,
    /// It ends by [`RunError::Stray`].
    End,
}

/// What a core runs over: it gives events and is told actions.
///
/// ```
/// use fulltimehen::{Action, Core, Event, Host, Next, OnStray, Plan, RunError, Signal, Stray, run};
///
/// /// A host in which these events happen, one after the other.
/// struct Script(Vec<Event>);
///
/// impl Host for Script {
///     fn next(&mut self) -> Next {
///         self.0.pop().map_or(Next::Nothing, Next::Event)
///     }
///     fn tell(&mut self, action: Action) {
///         println!("{action}");
///     }
///     fn on_stray(&mut self, stray: &Stray) -> OnStray {
///         eprintln!("{stray}");
///         OnStray::End
///     }
/// }
///
/// let signal = || Event::Signal { kind: Signal::Fast };
/// let outcome = run(Core::new(&Plan::new())?, &mut Script(vec![signal()]))?;
/// assert_eq!(outcome.to_string(), "served");
///
/// let unasked = Event::BindFailed { service: 0, endpoint: 0 };
/// let error = run(Core::new(&Plan::new())?, &mut Script(vec![signal(), unasked])).unwrap_err();
/// assert!(matches!(&error, RunError::Stray(stray) if stray.number == 1));
/// assert_eq!(error.status().as_deref(), Some("stray 1"));
/// # Ok::<(), Box<dyn std::error::Error>>(())
/// ```
pub trait Host {
    /// The next event. It may block as long as nothing happens, but has to come back with a moment for
    /// each time at which something falls due: at the one that [`Host::due`] was told last.
    fn next(&mut self) -> Next;

    /// Is told an action. It can't fail: what goes wrong becomes the event that says so.
    fn tell(&mut self, action: Action);

    /// Is told, before each call of `next`, at which moment, in milliseconds, the core wants a
    /// [`Event::Moment`] if nothing else comes before; none where only another event matters. By itself it
    /// does nothing, which is right for a host that gives a moment every 100 ms.
    fn due(&mut self, moment: Option<u64>) {
        let _ = moment;
    }

    /// What the filter with this number says of the peer of the event, which is an [`Event::Arrived`]. It is asked
    /// for each peer of a service that blocks addresses, with what the plan says of that one, and says the same
    /// by itself.
    fn judge(&mut self, filter: u32, event: &Event, planned: Verdict) -> Verdict {
        let _ = (filter, event);
        planned
    }

    /// The lines that a call added to the record, before its actions are told. By itself it drops them.
    fn record(&mut self, lines: &str) {
        let _ = lines;
    }

    /// What is to be done after an event of this host that doesn't fit, which left the core as it was. By
    /// itself it says so on standard error, by a thread of its own, and drops the event: neither a wrong
    /// event nor a standard error that is closed, or that nobody reads, ends a server or makes it wait.
    fn on_stray(&mut self, stray: &Stray) -> OnStray {
        say(stray);
        OnStray::Drop
    }
}

/// Says it on standard error, if that takes it.
fn say(what: &impl fmt::Display) {
    static SAID: Mutex<Option<Record>> = Mutex::new(None);
    let mut said = SAID.lock().unwrap_or_else(PoisonError::into_inner);
    if said.is_none() {
        *said = Record::to(io::stderr()).ok();
    }
    let mut line = Line::default();
    // What memory lacks for isn't said.
    if let (Some(said), Ok(())) = (said.as_mut(), writeln!(line, "fulltimehen: {what}")) {
        said.put(line.as_str());
    }
}

/// What leads to a host is one.
macro_rules! host_by {
    ($($way:ty),*) => {$(
        impl<H: Host + ?Sized> Host for $way {
            fn next(&mut self) -> Next {
                (**self).next()
            }
            fn tell(&mut self, action: Action) {
                (**self).tell(action);
            }
            fn due(&mut self, moment: Option<u64>) {
                (**self).due(moment);
            }
            fn judge(&mut self, filter: u32, event: &Event, planned: Verdict) -> Verdict {
                (**self).judge(filter, event, planned)
            }
            fn record(&mut self, lines: &str) {
                (**self).record(lines);
            }
            fn on_stray(&mut self, stray: &Stray) -> OnStray {
                (**self).on_stray(stray)
            }
        }
    )*};
}
host_by!(&mut H, Box<H>);

/// An event that doesn't fit: nothing that was told asks for it, or it is none that the core knows.
#[derive(Clone, Debug, PartialEq, Eq)]
#[non_exhaustive]
pub struct Stray {
    /// Which of the host's events it is, from 1.
    pub number: u64,
    /// The event.
    pub event: Event,
    /// It is an event of the core's: not a message of more than 32 descriptors.
    pub is_known: bool,
}

impl fmt::Display for Stray {
    fn fmt(&self, f: &mut fmt::Formatter<'_>) -> fmt::Result {
        let Stray { number, event, is_known } = self;
        let shown = Shown(event);
        if *is_known {
            let place = fits_where(event);
            write!(f, "{shown}, event {number}, doesn't fit there; it fits where {place}")
        } else {
            write!(f, "{shown}, event {number}, is none: a message brings at most 32 descriptors")
        }
    }
}

impl std::error::Error for Stray {}

/// How a run ended well.
#[derive(Clone, Copy, Debug, PartialEq, Eq)]
#[non_exhaustive]
pub enum Outcome {
    /// It went through its shutdown.
    Served,
    /// It tested that it can start.
    Tested,
    /// This process is the parent of the server's, and ends with this status: 0 where the child is ready
    /// or isn't waited for, 1 where it isn't ready.
    Parent(u8),
}

/// Why a run didn't end well.
#[derive(Debug)]
#[non_exhaustive]
pub enum RunError {
    /// An event didn't fit, and the host wanted the run to end by that.
    Stray(Stray),
    /// The host failed.
    Fault(io::Error),
    /// Nothing came any more before the shutdown.
    OutOfEvents,
    /// The sockets of an older server couldn't be taken over: `Transfer`, `NoSender` or `BadMessage`.
    Bootstrap(End),
    /// A step was refused for want of memory, also after a second of tries.
    Core(CoreError),
}

impl RunError {
    /// The status, as the status line of `svc run` has it behind `status `, where it has one.
    #[must_use]
    pub fn status(&self) -> Option<String> {
        match self {
            RunError::Stray(stray) => Some(format!("stray {}", stray.number)),
            RunError::Fault(_) => Some("host fault".to_owned()),
            RunError::OutOfEvents => Some("out of events".to_owned()),
            RunError::Bootstrap(end) => Some(end.to_string()),
            RunError::Core(_) => None,
        }
    }
}

/// As the status line of `svc run` has it.
impl fmt::Display for Outcome {
    fn fmt(&self, f: &mut fmt::Formatter<'_>) -> fmt::Result {
        match self {
            Outcome::Served => f.write_str("served"),
            Outcome::Tested => f.write_str("tested"),
            Outcome::Parent(status) => write!(f, "parent {status}"),
        }
    }
}

impl fmt::Display for RunError {
    fn fmt(&self, f: &mut fmt::Formatter<'_>) -> fmt::Result {
        match self {
            RunError::Stray(stray) => stray.fmt(f),
            RunError::Fault(_) => f.write_str("the host failed"),
            RunError::OutOfEvents => f.write_str("nothing came any more before the shutdown"),
            RunError::Bootstrap(End::Transfer) => {
                f.write_str("a try to receive the sockets of an older server failed")
            }
            RunError::Bootstrap(End::NoSender) => {
                f.write_str("no older server sent its sockets, after all tries")
            }
            RunError::Bootstrap(_) => f.write_str("what the older server sent is no message"),
            RunError::Core(_) => f.write_str("the core refused a call"),
        }
    }
}

impl std::error::Error for RunError {
    fn source(&self) -> Option<&(dyn std::error::Error + 'static)> {
        match self {
            RunError::Fault(error) => Some(error),
            RunError::Core(error) => Some(error),
            _ => None,
        }
    }
}

/// How long a run waits for memory before it tries again, and how often it tries to take an event.
const PAUSE: Duration = Duration::from_millis(10);
const TRIES: u32 = 100;

/// Passes on what a call told. As long as memory lacks for the list of an action the run waits.
fn pass_on(told: Told<'_>, host: &mut (impl Host + ?Sized)) {
    host.record(told.record());
    let mut passed = 0;
    while let Err(CoreError::NoMemory) = told.try_actions().skip(passed).try_for_each(|action| {
        host.tell(action?);
        passed += 1;
        Ok(())
    }) {
        sleep(PAUSE);
    }
}

/// Passes on what the last call told. As long as memory lacks for it the run waits: an action that isn't
/// told may be a descriptor that stays open.
fn tell_last(core: &mut RunningCore, host: &mut (impl Host + ?Sized)) {
    loop {
        if let Ok(told) = core.last_told() {
            return pass_on(told, host);
        }
        sleep(PAUSE);
    }
}

/// Closes all, with what the event brought that isn't the core's. As long as memory lacks the run waits.
fn close(mut core: RunningCore, mut event: Option<&Event>, host: &mut (impl Host + ?Sized)) {
    let mut core = loop {
        core = match core.close(event) {
            Ok(closed) => break closed,
            Err(Refused { mut core, error: CoreError::NoEvent(brought) }) => {
                let_go(&mut core, &brought, host);
                event = None;
                core
            }
            Err(Refused { core, .. }) => {
                sleep(PAUSE);
                core
            }
        };
    };
    loop {
        if let Ok(told) = core.last_told() {
            return pass_on(told, host);
        }
        sleep(PAUSE);
    }
}

/// Tells what is to be let go of an event that the core doesn't take.
fn let_go(core: &mut RunningCore, event: &Event, host: &mut (impl Host + ?Sized)) {
    core.left_by(event).for_each(|action| host.tell(action));
}

/// Gives the run up: what is open is told to be closed, with what the event brought.
fn give_up(
    core: RunningCore,
    event: Option<&Event>,
    host: &mut (impl Host + ?Sized),
    why: RunError,
) -> RunError {
    close(core, event, host);
    why
}

/// Runs a core over a host, from its first step to its end.
///
/// An event that doesn't fit is dropped, or ends the run, as [`Host::on_stray`] says. A host that fails and
/// one that has no events left end it; then, too, the host is told to close each descriptor that an event
/// brought.
///
/// # Errors
///
/// Why the run ended otherwise than by its shutdown.
///
/// ```
/// use fulltimehen::{Action, Core, Event, FdId, Host, Next, Outcome, Plan, Service, Signal};
///
/// /// A bind succeeds at once, and then the operator stops the server.
/// #[derive(Default)]
/// struct Script { answers: Vec<Event>, closed: Vec<FdId>, record: String }
///
/// impl Host for Script {
///     fn next(&mut self) -> Next {
///         Next::Event(self.answers.pop().unwrap_or(Event::Signal { kind: Signal::Fast }))
///     }
///     fn tell(&mut self, action: Action) {
///         match action {
///             Action::Bind { service, endpoint } => {
///                 self.answers.push(Event::Bound { service, endpoint, fd: FdId(7) });
///             }
///             Action::Close { fd } => self.closed.push(fd),
///             _ => {}
///         }
///     }
///     fn record(&mut self, lines: &str) { self.record += lines; }
/// }
///
/// let plan = Plan::new().service(Service::plain("web").tcp("127.0.0.1:80"));
/// let mut host = Script::default();
/// let outcome = fulltimehen::run(Core::new(&plan)?, &mut host)?;
/// assert_eq!(outcome, Outcome::Served);
/// assert_eq!(host.closed, [FdId(7)]);
/// assert!(host.record.ends_with("phase Terminated 0\n"));
/// # Ok::<(), Box<dyn std::error::Error>>(())
/// ```
pub fn run(core: Core, host: &mut (impl Host + ?Sized)) -> Result<Outcome, RunError> {
    let mut core = core.begin().map_err(|refused| RunError::Core(refused.error))?;
    tell_last(&mut core, host);
    let mut came = 0;
    while core.end().is_none() {
        host.due(core.next_due());
        let event = match host.next() {
            Next::Event(event) => event,
            Next::Nothing => return Err(give_up(core, None, host, RunError::OutOfEvents)),
            Next::Failed(error) => return Err(give_up(core, None, host, RunError::Fault(error))),
        };
        came += 1;
        core = match take(&mut core, &event, host) {
            Ok(()) => core,
            Err(error) => refused(core, event, came, error, host)?,
        };
    }
    finish(core, host)
}

/// The step of an event, with its actions told. Where memory lacks it is tried again.
fn take(
    core: &mut RunningCore,
    event: &Event,
    host: &mut (impl Host + ?Sized),
) -> Result<(), CoreError> {
    for _ in 0..TRIES {
        match try_to_take(core, event, host) {
            Err(CoreError::NoMemory) => sleep(PAUSE),
            taken => return taken,
        }
    }
    Err(CoreError::NoMemory)
}

fn try_to_take(
    core: &mut RunningCore,
    event: &Event,
    host: &mut (impl Host + ?Sized),
) -> Result<(), CoreError> {
    let mut verdict = Verdict::Accept;
    if matches!(event, Event::Arrived { .. }) {
        let checked = core.check(event)?;
        if let Some(filter) = checked.filter {
            verdict = host.judge(filter, event, checked.verdict);
        }
    }
    match core.step_judged(event, verdict) {
        Ok(_) | Err(CoreError::Untold) => {
            tell_last(core, host);
            Ok(())
        }
        Err(error) => Err(error),
    }
}

/// What becomes of the run after the step of an event was refused.
fn refused(
    mut core: RunningCore,
    event: Event,
    number: u64,
    error: CoreError,
    host: &mut (impl Host + ?Sized),
) -> Result<RunningCore, RunError> {
    let is_known = match error {
        CoreError::Stray(_) => true,
        CoreError::NoEvent(_) => false,
        error => return Err(give_up(core, Some(&event), host, RunError::Core(error))),
    };
    let stray = Stray { number, event, is_known };
    match host.on_stray(&stray) {
        OnStray::Drop => {
            let_go(&mut core, &stray.event, host);
            Ok(core)
        }
        OnStray::End => {
            close(core, Some(&stray.event), host);
            Err(RunError::Stray(stray))
        }
    }
}

fn finish(core: RunningCore, host: &mut (impl Host + ?Sized)) -> Result<Outcome, RunError> {
    let outcome = match core.end() {
        None | Some(End::Served) => return Ok(Outcome::Served),
        Some(End::Tested) => Outcome::Tested,
        Some(End::Parent(status)) => Outcome::Parent(status),
        Some(end) => return Err(give_up(core, None, host, RunError::Bootstrap(end))),
    };
    close(core, None, host);
    Ok(outcome)
}
