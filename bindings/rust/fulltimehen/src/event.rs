//! Events: what a program tells the core.

use crate::numbers::FdId;
use crate::words::{Hex, Joined, LineError, Words};
use std::collections::TryReserveError;
use std::fmt;
use std::net::{IpAddr, SocketAddr};
use std::str::FromStr;

/// What a program tells the core. `FORMATS.md`, "Events", says where each fits;
/// [`RunningCore::check`](crate::RunningCore::check) tests it. The numbers of services and of their endpoints
/// are those of the plan, from 0; those of descriptors and connections are the program's own, each used
/// once in a run, and connections best ascending: [`Numbers`](crate::Numbers) gives such ones.
#[derive(Clone, Debug, PartialEq, Eq)]
#[non_exhaustive]
pub enum Event {
    /// The time that has passed.
    Moment {
        /// Milliseconds since the run began, never below the last moment's.
        ms: u64,
    },
    /// A notifying service says that it is ready.
    Ready {
        /// The service.
        service: u32,
    },
    /// The work of a service without endpoints has ended: `ended` in a record.
    WorkEnded {
        /// The service.
        service: u32,
    },
    /// A bind brought a descriptor.
    Bound {
        /// The service.
        service: u32,
        /// The endpoint of the service.
        endpoint: u32,
        /// The descriptor's number, which is a new one.
        fd: FdId,
    },
    /// The address of the endpoint is in use: `inuse` in a record.
    AddrInUse {
        /// The service.
        service: u32,
        /// The endpoint of the service.
        endpoint: u32,
    },
    /// The bind failed otherwise.
    BindFailed {
        /// The service.
        service: u32,
        /// The endpoint of the service.
        endpoint: u32,
    },
    /// The endpoint listens on the descriptor that it was offered.
    Adopted {
        /// The service.
        service: u32,
        /// The endpoint of the service.
        endpoint: u32,
    },
    /// The endpoint couldn't take the descriptor that it was offered.
    AdoptFailed {
        /// The service.
        service: u32,
        /// The endpoint of the service.
        endpoint: u32,
    },
    /// The older server sent its message.
    Received {
        /// The bytes of the message.
        bytes: Vec<u8>,
        /// The descriptors' numbers, at most 32, each a new one.
        fds: Vec<FdId>,
    },
    /// The try to receive met no sender.
    NoSender,
    /// The try to receive failed.
    ReceiveFailed,
    /// The operator's signal.
    Signal {
        /// What the operator asks for.
        kind: Signal,
    },
    /// The successor was reached.
    Connected,
    /// No successor is there: `notthere` in a record.
    NoSuccessor,
    /// The connect isn't done yet.
    Connecting,
    /// The connect failed otherwise.
    ConnectFailed,
    /// The message is sent.
    Sent,
    /// The message can't be taken yet.
    SendBusy,
    /// The send failed otherwise.
    SendFailed,
    /// A connection came to the endpoint.
    Arrived {
        /// The service.
        service: u32,
        /// The endpoint of the service.
        endpoint: u32,
        /// The connection's number, which is a new one.
        connection: u64,
        /// Where it comes from.
        peer: Peer,
    },
    /// Accepting failed.
    AcceptFailed {
        /// The service.
        service: u32,
        /// The endpoint of the service.
        endpoint: u32,
        /// The system's number of the error, as 24 where too many files are open.
        error: u32,
    },
    /// All settings of a connection were applied: `set .. ok` in a record.
    SettingsApplied {
        /// The connection.
        connection: u64,
    },
    /// A setting of a connection couldn't be applied: `set .. no`.
    SettingsFailed {
        /// The connection.
        connection: u64,
    },
    /// The handshake of a connection is done: `shaken .. ok` in a record.
    HandshakeDone {
        /// The connection.
        connection: u64,
    },
    /// The handshake of a connection failed, or took too long: `shaken .. no`.
    HandshakeFailed {
        /// The connection.
        connection: u64,
    },
    /// The application is done with the connection.
    Finished {
        /// The connection.
        connection: u64,
    },
    /// An accept loop of the endpoint has ended.
    LoopEnded {
        /// The service.
        service: u32,
        /// The endpoint of the service.
        endpoint: u32,
        /// The loop's number, from 0 and below `listener_tasks_per_fd`.
        number: u64,
    },
    /// Which side of a fork the process is.
    Side {
        /// The side.
        side: Side,
    },
    /// The child of a daemon's parent is ready.
    ChildReady,
    /// The child is gone.
    ChildGone,
    /// The parent couldn't drop its rights: `dropfailed` in a record.
    DropRightsFailed,
}

/// What an operator asks for.
#[derive(Clone, Copy, Debug, PartialEq, Eq)]
#[non_exhaustive]
pub enum Signal {
    /// The server ends at once: SIGINT.
    Fast,
    /// It ends, and its services get the grace period for that: SIGTERM.
    Terminate,
    /// It hands its sockets to a successor, and then ends so: SIGQUIT.
    Upgrade,
}

/// A side of a fork.
///
/// ```
/// use fulltimehen::{Core, Event, Plan, Side};
///
/// let mut core = Core::new(&Plan::new().daemon(true))?.begin()?;
/// assert_eq!(core.last_told()?.record(), "daemonize\n");
/// let told = core.step(&Event::Side { side: Side::Child })?;
/// assert!(told.record().starts_with("got side child\n"));
/// # Ok::<(), Box<dyn std::error::Error>>(())
/// ```
#[derive(Clone, Copy, Debug, PartialEq, Eq)]
#[non_exhaustive]
pub enum Side {
    /// The child, which is the server.
    Child,
    /// The parent, which may wait for it.
    Parent,
}

/// Where a connection comes from. However it is made, the core is told the canonical address: an IPv4
/// address that is mapped into IPv6 is one of IPv4.
///
/// ```
/// use fulltimehen::Peer;
/// use std::net::SocketAddr;
///
/// let address: SocketAddr = "[::ffff:10.0.0.1]:5000".parse()?;
/// assert_eq!(Peer::Inet(address).to_string(), "10.0.0.1:5000");
/// # Ok::<(), std::net::AddrParseError>(())
/// ```
#[derive(Clone, Copy, Debug, PartialEq, Eq)]
#[non_exhaustive]
pub enum Peer {
    /// It isn't known: no filter is asked.
    Unknown,
    /// A peer of a Unix socket.
    Unix,
    /// An address of the internet.
    Inet(SocketAddr),
}

impl fmt::Display for Peer {
    fn fmt(&self, f: &mut fmt::Formatter<'_>) -> fmt::Result {
        match self {
            Peer::Unknown => f.write_str("-"),
            Peer::Unix => f.write_str("unix"),
            Peer::Inet(peer) => match peer.ip().to_canonical() {
                ip @ IpAddr::V4(_) => write!(f, "{ip}:{}", peer.port()),
                ip @ IpAddr::V6(_) => write!(f, "[{}]:{}", IpWord(ip), peer.port()),
            },
        }
    }
}

impl FromStr for Peer {
    type Err = LineError;

    fn from_str(word: &str) -> Result<Peer, LineError> {
        match word {
            "-" => Ok(Peer::Unknown),
            "unix" => Ok(Peer::Unix),
            word => match word.parse() {
                Ok(peer) => Ok(Peer::Inet(peer)),
                Err(_) => Err(LineError::new(word)),
            },
        }
    }
}

impl From<SocketAddr> for Peer {
    /// An IPv4 address that is mapped into IPv6 is one of IPv4.
    fn from(peer: SocketAddr) -> Peer {
        Peer::Inet(SocketAddr::new(peer.ip().to_canonical(), peer.port()))
    }
}

/// Whether a peer is let in.
///
/// ```
/// use fulltimehen::{Action, Verdict};
///
/// let told: Action = "judged 7 no".parse()?;
/// assert_eq!(told, Action::Judged { connection: 7, verdict: Verdict::Refuse });
/// // Of a filter that answers by a bool.
/// let is_local = |peer: &str| peer.starts_with("127.");
/// assert_eq!(Verdict::from(is_local("127.0.0.1:5000")), Verdict::Accept);
/// # Ok::<(), fulltimehen::LineError>(())
/// ```
#[derive(Clone, Copy, Debug, PartialEq, Eq, Hash)]
#[non_exhaustive]
pub enum Verdict {
    /// It is.
    Accept,
    /// It isn't: its connection is dropped.
    Refuse,
}

impl From<bool> for Verdict {
    /// True lets the peer in.
    fn from(is_accepted: bool) -> Verdict {
        if is_accepted { Verdict::Accept } else { Verdict::Refuse }
    }
}

/// An address as a script has it: of IPv6 all eight groups.
pub(crate) struct IpWord(pub IpAddr);

impl fmt::Display for IpWord {
    fn fmt(&self, f: &mut fmt::Formatter<'_>) -> fmt::Result {
        match self.0 {
            IpAddr::V4(ip) => ip.fmt(f),
            IpAddr::V6(ip) => {
                let [first, others @ ..] = ip.segments();
                write!(f, "{first:x}")?;
                others.iter().try_for_each(|group| write!(f, ":{group:x}"))
            }
        }
    }
}

impl fmt::Display for Signal {
    fn fmt(&self, f: &mut fmt::Formatter<'_>) -> fmt::Result {
        f.write_str(match self {
            Signal::Fast => "fast",
            Signal::Terminate => "terminate",
            Signal::Upgrade => "upgrade",
        })
    }
}

/// A copy of a list, where there is memory for it.
fn copied<T: Copy>(list: &[T]) -> Result<Vec<T>, TryReserveError> {
    let mut copy = Vec::new();
    copy.try_reserve_exact(list.len())?;
    copy.extend_from_slice(list);
    Ok(copy)
}

impl Event {
    /// The same event, where there is memory for its lists.
    pub(crate) fn try_clone(&self) -> Result<Event, TryReserveError> {
        match self {
            Event::Received { bytes, fds } => {
                Ok(Event::Received { bytes: copied(bytes)?, fds: copied(fds)? })
            }
            // The others have no list.
            event => Ok(event.clone()),
        }
    }
}

/// The event's line, as a record has it behind `got`.
impl fmt::Display for Event {
    fn fmt(&self, f: &mut fmt::Formatter<'_>) -> fmt::Result {
        match self {
            Event::Moment { ms } => write!(f, "moment {ms}"),
            Event::Ready { service } => write!(f, "ready {service}"),
            Event::WorkEnded { service } => write!(f, "ended {service}"),
            Event::Bound { service, endpoint, fd } => write!(f, "bound {service} {endpoint} {fd}"),
            Event::AddrInUse { service, endpoint } => write!(f, "inuse {service} {endpoint}"),
            Event::BindFailed { service, endpoint } => write!(f, "bindfailed {service} {endpoint}"),
            Event::Adopted { service, endpoint } => write!(f, "adopted {service} {endpoint}"),
            Event::AdoptFailed { service, endpoint } => {
                write!(f, "adoptfailed {service} {endpoint}")
            }
            Event::Received { bytes, fds } => {
                write!(f, "received {} {}", Hex(bytes), Joined(fds))
            }
            Event::NoSender => f.write_str("nosender"),
            Event::ReceiveFailed => f.write_str("receivefailed"),
            Event::Signal { kind } => write!(f, "signal {kind}"),
            Event::Connected => f.write_str("connected"),
            Event::NoSuccessor => f.write_str("notthere"),
            Event::Connecting => f.write_str("connecting"),
            Event::ConnectFailed => f.write_str("connectfailed"),
            Event::Sent => f.write_str("sent"),
            Event::SendBusy => f.write_str("sendbusy"),
            Event::SendFailed => f.write_str("sendfailed"),
            Event::Arrived { service, endpoint, connection, peer } => {
                write!(f, "arrived {service} {endpoint} {connection} {peer}")
            }
            Event::AcceptFailed { service, endpoint, error } => {
                write!(f, "acceptfailed {service} {endpoint} {error}")
            }
            Event::SettingsApplied { connection } => write!(f, "set {connection} ok"),
            Event::SettingsFailed { connection } => write!(f, "set {connection} no"),
            Event::HandshakeDone { connection } => write!(f, "shaken {connection} ok"),
            Event::HandshakeFailed { connection } => write!(f, "shaken {connection} no"),
            Event::Finished { connection } => write!(f, "finished {connection}"),
            Event::LoopEnded { service, endpoint, number } => {
                write!(f, "loopended {service} {endpoint} {number}")
            }
            Event::Side { side: Side::Child } => f.write_str("side child"),
            Event::Side { side: Side::Parent } => f.write_str("side parent"),
            Event::ChildReady => f.write_str("childready"),
            Event::ChildGone => f.write_str("childgone"),
            Event::DropRightsFailed => f.write_str("dropfailed"),
        }
    }
}

impl FromStr for Event {
    type Err = LineError;

    /// The event that a line says. The library reads lines by its own, proved rules; this is for
    /// programs that read scripts.
    fn from_str(line: &str) -> Result<Event, LineError> {
        let mut words = Words::of(line);
        let event = event_of(&mut words)?;
        words.end()?;
        Ok(event)
    }
}

fn event_of(words: &mut Words<'_>) -> Result<Event, LineError> {
    Ok(match words.word()? {
        "moment" => Event::Moment { ms: words.number()? },
        "ready" => Event::Ready { service: words.number()? },
        "ended" => Event::WorkEnded { service: words.number()? },
        "bound" => Event::Bound {
            service: words.number()?,
            endpoint: words.number()?,
            fd: words.number()?,
        },
        "inuse" => Event::AddrInUse { service: words.number()?, endpoint: words.number()? },
        "bindfailed" => Event::BindFailed { service: words.number()?, endpoint: words.number()? },
        "adopted" => Event::Adopted { service: words.number()?, endpoint: words.number()? },
        "adoptfailed" => Event::AdoptFailed { service: words.number()?, endpoint: words.number()? },
        "received" => Event::Received { bytes: words.bytes()?, fds: words.fds()? },
        "nosender" => Event::NoSender,
        "receivefailed" => Event::ReceiveFailed,
        "signal" => Event::Signal {
            kind: match words.word()? {
                "fast" => Signal::Fast,
                "terminate" => Signal::Terminate,
                "upgrade" => Signal::Upgrade,
                _ => return Err(words.error()),
            },
        },
        "connected" => Event::Connected,
        "notthere" => Event::NoSuccessor,
        "connecting" => Event::Connecting,
        "connectfailed" => Event::ConnectFailed,
        "sent" => Event::Sent,
        "sendbusy" => Event::SendBusy,
        "sendfailed" => Event::SendFailed,
        key => return connection_event(key, words),
    })
}

fn connection_event(key: &str, words: &mut Words<'_>) -> Result<Event, LineError> {
    Ok(match key {
        "arrived" => Event::Arrived {
            service: words.number()?,
            endpoint: words.number()?,
            connection: words.number()?,
            peer: words.number()?,
        },
        "acceptfailed" => Event::AcceptFailed {
            service: words.number()?,
            endpoint: words.number()?,
            error: words.number()?,
        },
        "set" => match (words.number()?, words.either("ok", "no")?) {
            (connection, true) => Event::SettingsApplied { connection },
            (connection, false) => Event::SettingsFailed { connection },
        },
        "shaken" => match (words.number()?, words.either("ok", "no")?) {
            (connection, true) => Event::HandshakeDone { connection },
            (connection, false) => Event::HandshakeFailed { connection },
        },
        "finished" => Event::Finished { connection: words.number()? },
        "loopended" => Event::LoopEnded {
            service: words.number()?,
            endpoint: words.number()?,
            number: words.number()?,
        },
        "side" => Event::Side {
            side: if words.either("child", "parent")? { Side::Child } else { Side::Parent },
        },
        "childready" => Event::ChildReady,
        "childgone" => Event::ChildGone,
        "dropfailed" => Event::DropRightsFailed,
        _ => return Err(words.error()),
    })
}

#[cfg(test)]
mod tests {
    use super::*;

    #[test]
    fn lines_go_there_and_back() {
        for line in [
            "moment 18446744073709551615",
            "bound 0 63 7",
            "received 3132372e302e302e313a3830 3,4",
            "received - -",
            "arrived 0 1 4 [2001:db8:0:0:0:0:0:1]:443",
            "arrived 0 1 5 192.168.1.2:8080",
            "arrived 0 1 6 unix",
            "set 3 ok",
            "set 3 no",
            "shaken 3 ok",
            "shaken 3 no",
            "side parent",
            "loopended 1 0 2",
        ] {
            assert_eq!(line.parse::<Event>().map(|event| event.to_string()), Ok(line.to_owned()));
        }
        for line in ["", "moment", "moment x", "ready 1 2", "received 0 -", "set 1 yes"] {
            assert!(line.parse::<Event>().is_err(), "{line}");
        }
    }

    #[test]
    fn addresses_stand_in_full() {
        assert_eq!(IpWord("::1".parse().unwrap()).to_string(), "0:0:0:0:0:0:0:1");
        assert_eq!(IpWord("10.0.0.1".parse().unwrap()).to_string(), "10.0.0.1");
    }
}
