//! The core: the proved machine, in the three states of its life.

use crate::action::Action;
use crate::book::{Book, Lines};
use crate::event::{Event, Peer, Verdict};
use crate::line::Line;
use crate::messages::{Shown, fits_where};
use crate::numbers::FdId;
use crate::plan::{Plan, PlanError};
use crate::sys::Session;
use crate::words::LineError;
use std::fmt::{self, Write};
use std::net::SocketAddr;
use std::slice;
use std::str;

/// The lifecycle of one server, before its run: [`Core::begin`] gives the running core, and [`RunningCore::close`] the
/// closed one. In each of these states it may go to another thread, and one at a time uses it.
pub struct Core {
    session: Session,
    judges: bool,
}

/// The lifecycle of a server that runs: it takes events and tells actions.
///
/// ```
/// use fulltimehen::{Core, CoreError, Event, Plan, Refused, RunningCore, Signal, Told};
///
/// let begun: Result<RunningCore, Refused<Core>> = Core::new(&Plan::new())?.begin();
/// let mut core = begun.map_err(CoreError::from)?;
/// // Nothing waits for the time.
/// assert_eq!(core.next_due(), None);
/// let told: Told<'_> = core.step(&Event::Signal { kind: Signal::Terminate })?;
/// assert!(told.record().contains("phase GracefulTerminate 0\n"));
/// // And now the grace period runs.
/// assert!(core.next_due().is_some());
/// # Ok::<(), Box<dyn std::error::Error>>(())
/// ```
pub struct RunningCore {
    session: Session,
    record: RecordBuffer,
    line: Line,
    end: Option<End>,
    /// The plan blocks some address, so that its word on a peer has to be asked.
    judges: bool,
    book: Book,
}

/// The lifecycle of a server whose descriptors and connections were all told to be let go.
pub struct ClosedCore {
    session: Session,
    record: RecordBuffer,
    end: Option<End>,
}

/// How a run has ended.
#[derive(Clone, Copy, Debug, PartialEq, Eq)]
#[non_exhaustive]
pub enum End {
    /// It went through its shutdown.
    Served,
    /// It tested that it can start.
    Tested,
    /// This process is the parent of the server's, and ends with this status: 0 where the child is ready
    /// or isn't waited for, 1 where it isn't ready.
    Parent(u8),
    /// A try to receive the older server's sockets failed.
    Transfer,
    /// No older server sent its sockets, after all tries.
    NoSender,
    /// What the older server sent is no message.
    BadMessage,
}

/// What the number says that a call answered: how the run has ended, if it has. The number of a refusal is the error.
fn taken(number: u32) -> Result<Option<End>, u32> {
    Ok(Some(match number {
        0 => return Ok(None),
        1 => End::Served,
        2 => End::Tested,
        3 => End::Parent(0),
        4 => End::Parent(1),
        5 => End::Transfer,
        6 => End::NoSender,
        7 => End::BadMessage,
        refusal => return Err(refusal),
    }))
}

/// As the status line of `svc run` has it.
impl fmt::Display for End {
    fn fmt(&self, f: &mut fmt::Formatter<'_>) -> fmt::Result {
        match self {
            End::Served => f.write_str("served"),
            End::Tested => f.write_str("tested"),
            End::Parent(status) => write!(f, "parent {status}"),
            End::Transfer => f.write_str("transfer"),
            End::NoSender => f.write_str("no sender"),
            End::BadMessage => f.write_str("bad message"),
        }
    }
}

/// Why a call of a core was refused. But for `Untold` the core is as it was.
#[derive(Clone, Debug, PartialEq, Eq)]
#[non_exhaustive]
pub enum CoreError {
    /// Out of memory.
    NoMemory,
    /// The event is none that the core knows: a message of more than 32 descriptors.
    NoEvent(Event),
    /// The event doesn't fit: nothing that was told asks for it.
    Stray(Event),
    /// The call was taken, and there was no memory for the lines of what it told. [`RunningCore::last_told`] and
    /// [`ClosedCore::last_told`] give them once there is.
    Untold,
    /// What the call before told wasn't given yet for want of memory, so that its actions would be lost:
    /// [`RunningCore::last_told`] gives it once there is some, and then this call may come again.
    Behind,
}

impl fmt::Display for CoreError {
    fn fmt(&self, f: &mut fmt::Formatter<'_>) -> fmt::Result {
        match self {
            CoreError::NoMemory => f.write_str("out of memory"),
            CoreError::NoEvent(event) => {
                write!(f, "{} is no event: a message brings at most 32 descriptors", Shown(event))
            }
            CoreError::Stray(event) => {
                write!(f, "{} doesn't fit; it fits where {}", Shown(event), fits_where(event))
            }
            CoreError::Untold => f.write_str("out of memory for what the call told"),
            CoreError::Behind => f.write_str("what the call before told wasn't given yet"),
        }
    }
}

impl std::error::Error for CoreError {}

/// A call that takes a core by value was refused, and the core comes back as it was. Since threads don't use a
/// core at once, neither do they this; `map_err(CoreError::from)` makes it an error that all may.
///
/// ```
/// use fulltimehen::{Core, CoreError, Plan};
///
/// fn begin(plan: &Plan) -> Result<(), Box<dyn std::error::Error + Send + Sync>> {
///     let mut core = Core::new(plan)?.begin().map_err(CoreError::from)?;
///     assert!(core.last_told()?.record().ends_with("phase Running 0\n"));
///     Ok(())
/// }
/// begin(&Plan::new()).expect("there is memory");
/// ```
#[derive(Debug)]
pub struct Refused<C> {
    /// The core.
    pub core: C,
    /// Why the call was refused.
    pub error: CoreError,
}

impl<C> From<Refused<C>> for CoreError {
    fn from(refused: Refused<C>) -> CoreError {
        refused.error
    }
}

impl<C> fmt::Display for Refused<C> {
    fn fmt(&self, f: &mut fmt::Formatter<'_>) -> fmt::Result {
        self.error.fmt(f)
    }
}

impl<C: fmt::Debug> std::error::Error for Refused<C> {}

/// What a core answers of an event that fits: whether it is to be judged, and the plan's word.
///
/// ```
/// use fulltimehen::{Checked, Core, Event, FdId, Peer, Plan, Service, Verdict};
///
/// let web = Service::plain("web").tcp("127.0.0.1:80").block("10.0.0.1".parse()?);
/// let mut core = Core::new(&Plan::new().service(web))?.begin()?;
/// core.step(&Event::Bound { service: 0, endpoint: 0, fd: FdId(3) })?;
/// let peer: Peer = "10.0.0.1:5000".parse()?;
/// let event = Event::Arrived { service: 0, endpoint: 0, connection: 1, peer };
/// let Checked { filter, verdict, .. } = core.check(&event)?;
/// assert_eq!((filter, verdict), (Some(0), Verdict::Refuse));
/// // It comes in all the same, by the caller's own word.
/// let told = core.step_judged(&event, Verdict::Accept)?;
/// assert!(told.record().contains("judged 1 yes"));
/// # Ok::<(), Box<dyn std::error::Error>>(())
/// ```
#[derive(Clone, Copy, Debug, PartialEq, Eq)]
#[non_exhaustive]
pub struct Checked {
    /// The number of the filter that judges the peer. Services that block addresses have one each, numbered in
    /// their order. None where no peer is judged.
    pub filter: Option<u32>,
    /// What the plan's blocked addresses say of the peer: that one which is blocked is refused. Where no peer is
    /// judged, it is accepted.
    pub verdict: Verdict,
}

/// What a call told, and how far the run is.
#[derive(Clone, Copy, Debug)]
pub struct Told<'a> {
    end: Option<End>,
    record: &'a str,
}

impl<'a> Told<'a> {
    /// How the run has ended, if it has.
    #[must_use]
    pub fn end(&self) -> Option<End> {
        self.end
    }

    /// The lines that the call added to the record: the event behind `got`, and each action.
    #[must_use]
    pub fn record(&self) -> &'a str {
        self.record
    }

    /// The actions that were told, in order.
    ///
    /// # Panics
    ///
    /// Where memory lacks for the list of an action, of `Settings` or of `Send`: [`Told::try_actions`] says that. And where a
    /// line is no action, which the library never tells.
    pub fn actions(&self) -> impl Iterator<Item = Action> + use<'a> {
        self.try_actions().map(|action| action.expect("there is memory for its list"))
    }

    /// The actions that were told, in order, with [`CoreError::NoMemory`] in place of one for whose list memory
    /// lacks. They may be asked for again.
    ///
    /// # Panics
    ///
    /// Where a line is no action, which the library never tells.
    ///
    /// ```
    /// use fulltimehen::{Action, Core, Plan, Service};
    ///
    /// let mut core = Core::new(&Plan::new().service(Service::plain("web")))?.begin()?;
    /// assert_eq!(core.last_told()?.try_actions().next(), Some(Ok(Action::Start { service: 0 })));
    /// # Ok::<(), Box<dyn std::error::Error>>(())
    /// ```
    pub fn try_actions(&self) -> impl Iterator<Item = Result<Action, CoreError>> + use<'a> {
        let told = Lines(self.record).filter(|line| !line.starts_with("got "));
        told.map(|line| {
            line.parse().map_err(|error: LineError| {
                assert!(error.is_no_memory(), "the library tells actions: {line}");
                CoreError::NoMemory
            })
        })
    }
}

/// The line of an event, in place of what was there.
fn set(line: &mut Line, event: &Event) -> Result<(), CoreError> {
    line.clear();
    let written = match event {
        // Each connection has these, so they are put together without the formatter.
        Event::Arrived {
            service,
            endpoint,
            connection,
            peer: Peer::Inet(SocketAddr::V4(peer)),
        } => line
            .put("arrived", &[u64::from(*service), u64::from(*endpoint), *connection])
            .and_then(|()| line.put_address(*peer)),
        Event::SettingsApplied { connection } => {
            line.put("set", &[*connection]).and_then(|()| line.write_str(" ok"))
        }
        Event::HandshakeDone { connection } => {
            line.put("shaken", &[*connection]).and_then(|()| line.write_str(" ok"))
        }
        Event::Finished { connection } => line.put("finished", &[*connection]),
        event => write!(line, "{event}"),
    };
    written.map_err(|_| CoreError::NoMemory)
}

/// The lines of a session's last call.
#[derive(Debug)]
struct RecordBuffer {
    bytes: Vec<u8>,
    length: usize,
    /// The last call was taken, and its lines weren't read.
    is_behind: bool,
}

impl RecordBuffer {
    const fn new() -> RecordBuffer {
        RecordBuffer { bytes: Vec::new(), length: 0, is_behind: true }
    }

    fn grow(&mut self, length: usize) -> Result<(), CoreError> {
        let more = length.saturating_sub(self.bytes.len());
        self.bytes.try_reserve(more).map_err(|_| CoreError::Untold)?;
        self.bytes.resize(length, 0);
        Ok(())
    }

    /// Reads the lines of the session's last call, unless that is done. The buffer grows until they fit.
    fn read(&mut self, session: &mut Session) -> Result<(), CoreError> {
        while self.is_behind {
            let (number, length) = session.told(&mut self.bytes);
            let length = usize::try_from(length).map_err(|_| CoreError::Untold)?;
            match number {
                0 => {
                    self.length = length;
                    self.is_behind = false;
                }
                22 => self.grow(length.checked_next_power_of_two().unwrap_or(length).max(1024))?,
                _ => return Err(CoreError::Untold),
            }
        }
        Ok(())
    }

    fn lines(&self) -> &str {
        str::from_utf8(&self.bytes[..self.length]).expect("a record is UTF-8")
    }
}

impl Core {
    /// A core that has told nothing yet.
    ///
    /// # Errors
    ///
    /// Whatever of the plan is refused, with its place and cause; [`PlanError::NoMemory`] where memory lacks.
    pub fn new(plan: &Plan) -> Result<Core, PlanError> {
        plan.check()?;
        let session = plan.session()?;
        Ok(Core { session, judges: plan.judges() })
    }

    /// The first step. What it told is [`RunningCore::last_told`].
    ///
    /// # Errors
    ///
    /// [`CoreError::NoMemory`], with the core as it was.
    pub fn begin(mut self) -> Result<RunningCore, Refused<Core>> {
        let Ok(end) = taken(self.session.begin()) else {
            return Err(Refused { core: self, error: CoreError::NoMemory });
        };
        let Core { session, judges } = self;
        let mut core = RunningCore {
            session,
            record: RecordBuffer::new(),
            line: Line::default(),
            end,
            judges,
            book: Book::default(),
        };
        // Where memory lacks for what it told, the core is behind, and `last_told` tries again.
        let _ = core.last_told();
        Ok(core)
    }
}

impl RunningCore {
    /// Looks whether the event fits now, and what the plan says of its peer. It changes nothing.
    ///
    /// # Errors
    ///
    /// [`CoreError::Stray`] and [`CoreError::NoEvent`] where it doesn't, and [`CoreError::NoMemory`].
    pub fn check(&mut self, event: &Event) -> Result<Checked, CoreError> {
        set(&mut self.line, event)?;
        let (number, filter, is_accepted) = self.session.fits(self.line.as_bytes());
        let filter = match number {
            0 => None,
            1 => Some(filter),
            _ => return Err(refusal(number, event)),
        };
        Ok(Checked { filter, verdict: is_accepted.into() })
    }

    /// The step of an event. Of an arrival's peer the plan's blocked addresses decide.
    ///
    /// # Errors
    ///
    /// [`CoreError::Stray`] and [`CoreError::NoEvent`] where the event doesn't fit, [`CoreError::NoMemory`],
    /// and [`CoreError::Behind`] after a call that was `Untold`: then nothing has changed.
    /// [`CoreError::Untold`] where the event was taken and memory lacks for what it told.
    pub fn step(&mut self, event: &Event) -> Result<Told<'_>, CoreError> {
        let verdict = match event {
            Event::Arrived { peer: Peer::Inet(_), .. } if self.judges => self.check(event)?.verdict,
            _ => Verdict::Accept,
        };
        self.step_judged(event, verdict)
    }

    /// The step of an event, with the caller's word on an arrival's peer in place of the plan's:
    /// [`RunningCore::check`] tells what the plan says. Where no peer is judged, the word doesn't matter.
    ///
    /// # Errors
    ///
    /// As for [`RunningCore::step`].
    pub fn step_judged(&mut self, event: &Event, verdict: Verdict) -> Result<Told<'_>, CoreError> {
        self.not_behind()?;
        set(&mut self.line, event)?;
        let number = self.session.step(self.line.as_bytes(), verdict == Verdict::Accept);
        self.end = taken(number).map_err(|number| refusal(number, event))?;
        self.record.is_behind = true;
        self.last_told()
    }

    fn not_behind(&self) -> Result<(), CoreError> {
        if self.record.is_behind { Err(CoreError::Behind) } else { Ok(()) }
    }

    /// How the run has ended, if it has.
    #[must_use]
    pub fn end(&self) -> Option<End> {
        self.end
    }

    /// The least moment, in milliseconds, at which an [`Event::Moment`] tells something or ends the run, if
    /// no other event comes before; each earlier one tells nothing. None while only another event can. A
    /// host that waits for events waits no longer than until then. Since the core knows the time by its
    /// moments alone, and each wait counts from the last one, a host gives one also right before an event
    /// that may begin or end a wait: a signal, or an answer.
    ///
    /// It costs a few steps, but while an address in use rests, when each service is looked at.
    #[must_use]
    pub fn next_due(&mut self) -> Option<u64> {
        if self.end.is_none() { self.session.next_due() } else { None }
    }

    /// What the last call that was taken told, once more.
    ///
    /// # Errors
    ///
    /// [`CoreError::Untold`] where memory lacks for it.
    pub fn last_told(&mut self) -> Result<Told<'_>, CoreError> {
        let is_behind = self.record.is_behind;
        if is_behind {
            self.book.reserve().map_err(|_| CoreError::Untold)?;
            self.record.read(&mut self.session)?;
        }
        let record = self.record.lines();
        if is_behind {
            self.book.enter(record);
        }
        Ok(Told { end: self.end, record })
    }

    /// What is to be let go of an event that was refused and that isn't given again: `Close` of each
    /// descriptor that it brought and `Refuse` of the connection that came by it, but of none whose number
    /// the core has already. These actions aren't in the record, since the event isn't.
    ///
    /// ```
    /// use fulltimehen::{Action, Core, Event, FdId, Plan};
    ///
    /// let mut core = Core::new(&Plan::new())?.begin()?;
    /// let unasked = Event::Bound { service: 0, endpoint: 0, fd: FdId(3) };
    /// assert!(core.step(&unasked).is_err());
    /// assert!(core.left_by(&unasked).eq([Action::Close { fd: FdId(3) }]));
    /// # Ok::<(), Box<dyn std::error::Error>>(())
    /// ```
    pub fn left_by<'a>(&'a mut self, event: &'a Event) -> impl Iterator<Item = Action> + use<'a> {
        let connection = match event {
            Event::Arrived { connection, .. } => Some(*connection).filter(|it| !self.has(*it)),
            _ => None,
        };
        let fds: &[FdId] = match event {
            Event::Bound { fd, .. } => slice::from_ref(fd),
            Event::Received { fds, .. } => fds,
            _ => &[],
        };
        let book = &self.book;
        let is_left =
            move |(at, fd): &(usize, &FdId)| !book.is_open(**fd) && !fds[..*at].contains(fd);
        let closes = fds.iter().enumerate().filter(is_left);
        let closes = closes.map(|(_, fd)| Action::Close { fd: *fd });
        closes.chain(connection.map(|connection| Action::Refuse { connection }))
    }

    /// The core has a live connection with this number, or can't say for want of memory.
    fn has(&mut self, connection: u64) -> bool {
        let events = [
            Event::SettingsFailed { connection },
            Event::HandshakeFailed { connection },
            Event::Finished { connection },
        ];
        events.iter().any(|event| !matches!(self.check(event), Err(CoreError::Stray(_))))
    }

    /// Cuts each live connection and closes each open descriptor, and with them what the event brought
    /// that was left unfinished. It is for a run that is given up, or that has ended otherwise than
    /// `Served`. What it told is [`ClosedCore::last_told`].
    ///
    /// ```
    /// use fulltimehen::{ClosedCore, Core, CoreError, Event, FdId, Plan, Service};
    ///
    /// let web = Service::plain("web").tcp("127.0.0.1:80");
    /// let mut core = Core::new(&Plan::new().service(web))?.begin()?;
    /// core.step(&Event::Bound { service: 0, endpoint: 0, fd: FdId(3) })?;
    /// let mut closed: ClosedCore = core.close(None).map_err(CoreError::from)?;
    /// assert_eq!(closed.last_told()?.record(), "close 3\n");
    /// # Ok::<(), Box<dyn std::error::Error>>(())
    /// ```
    ///
    /// # Errors
    ///
    /// [`CoreError::NoMemory`], [`CoreError::NoEvent`], and [`CoreError::Behind`] after a call that was
    /// `Untold`; each with the core as it was.
    #[expect(clippy::result_large_err, reason = "a box wants memory, which may be what lacks")]
    pub fn close(mut self, unfinished: Option<&Event>) -> Result<ClosedCore, Refused<RunningCore>> {
        match self.try_close(unfinished) {
            Ok(()) => {
                let RunningCore { session, mut record, end, .. } = self;
                record.is_behind = true;
                let mut core = ClosedCore { session, record, end };
                // As at the beginning.
                let _ = core.last_told();
                Ok(core)
            }
            Err(error) => Err(Refused { core: self, error }),
        }
    }

    fn try_close(&mut self, unfinished: Option<&Event>) -> Result<(), CoreError> {
        self.not_behind()?;
        match unfinished {
            Some(event) => set(&mut self.line, event)?,
            None => self.line.clear(),
        }
        match (self.session.close(self.line.as_bytes()), unfinished) {
            (0, _) => Ok(()),
            (number, Some(event)) => Err(refusal(number, event)),
            (_, None) => Err(CoreError::NoMemory),
        }
    }
}

impl ClosedCore {
    /// How the run had ended, if it had.
    #[must_use]
    pub fn end(&self) -> Option<End> {
        self.end
    }

    /// What the close told.
    ///
    /// # Errors
    ///
    /// [`CoreError::Untold`] where memory lacks for it.
    pub fn last_told(&mut self) -> Result<Told<'_>, CoreError> {
        self.record.read(&mut self.session)?;
        Ok(Told { end: self.end, record: self.record.lines() })
    }
}

/// Why a call with this event was refused, by the library's number.
fn refusal(number: u32, event: &Event) -> CoreError {
    match (number, event.try_clone()) {
        (19, Ok(event)) => CoreError::NoEvent(event),
        (20, Ok(event)) => CoreError::Stray(event),
        _ => CoreError::NoMemory,
    }
}

impl fmt::Debug for Core {
    fn fmt(&self, f: &mut fmt::Formatter<'_>) -> fmt::Result {
        f.debug_struct("Core").finish_non_exhaustive()
    }
}

impl fmt::Debug for RunningCore {
    fn fmt(&self, f: &mut fmt::Formatter<'_>) -> fmt::Result {
        f.debug_struct("RunningCore").field("end", &self.end).finish_non_exhaustive()
    }
}

impl fmt::Debug for ClosedCore {
    fn fmt(&self, f: &mut fmt::Formatter<'_>) -> fmt::Result {
        f.debug_struct("ClosedCore").field("end", &self.end).finish_non_exhaustive()
    }
}

#[cfg(test)]
mod tests {
    use super::*;

    #[test]
    fn lines_of_connections_are_those_of_events() {
        let mut line = Line::default();
        for connection in [0, 9, 10, 12_345, u64::MAX] {
            let mut events = vec![Event::Finished { connection }];
            events.push(Event::SettingsApplied { connection });
            events.push(Event::SettingsFailed { connection });
            events.push(Event::HandshakeDone { connection });
            events.push(Event::HandshakeFailed { connection });
            for peer in [
                "0.0.0.0:0",
                "127.0.0.1:80",
                "255.10.9.100:65535",
                "[::1]:80",
                "[::ffff:1.2.3.4]:5",
            ] {
                let peer = Peer::Inet(peer.parse().unwrap());
                events.push(Event::Arrived { service: 7, endpoint: u32::MAX, connection, peer });
            }
            events.push(Event::Arrived { service: 0, endpoint: 0, connection, peer: Peer::Unix });
            for event in events {
                set(&mut line, &event).unwrap();
                assert_eq!(line.as_str(), event.to_string());
            }
        }
    }
}
