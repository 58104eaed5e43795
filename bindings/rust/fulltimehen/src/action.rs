//! Actions: what the core tells a program.

use crate::event::Verdict;
use crate::numbers::FdId;
use crate::words::{Hex, Joined, LineError, Words};
use std::fmt;
use std::str::FromStr;

/// What the core tells a program to do. `FORMATS.md`, "Actions", and `EMBEDDING.md`, "What a real host
/// does", say what each means on a Unix system, and which event answers it. The numbers of services and of
/// their endpoints are those of the plan, from 0; those of descriptors and connections are the program's.
#[derive(Clone, Debug, PartialEq, Eq)]
#[non_exhaustive]
pub enum Action {
    /// Start the service.
    Start {
        /// The service.
        service: u32,
    },
    /// Give the service up.
    Fail {
        /// The service.
        service: u32,
    },
    /// Bind the endpoint's address: `Bound`, `AddrInUse` or `BindFailed` answers.
    Bind {
        /// The service.
        service: u32,
        /// The endpoint of the service.
        endpoint: u32,
    },
    /// Listen for the endpoint on a descriptor that is held: `Adopted` or `AdoptFailed` answers.
    Adopt {
        /// The service.
        service: u32,
        /// The endpoint of the service.
        endpoint: u32,
        /// The descriptor.
        fd: FdId,
    },
    /// Close the descriptor.
    Close {
        /// The descriptor.
        fd: FdId,
    },
    /// Remove an old path, and make the receiving socket at `upgrade_sock`.
    OpenReceiver,
    /// Accept and receive once: `Received`, `NoSender` or `ReceiveFailed` answers.
    TryReceive,
    /// Fork: `Side` answers.
    Daemonize,
    /// Tell the waiting parent that its child is ready.
    NotifyParent,
    /// Connect to `upgrade_sock` once: `Connected`, `NoSuccessor`, `Connecting` or `ConnectFailed` answers.
    Connect,
    /// Send these bytes with these descriptors once: `Sent`, `SendBusy` or `SendFailed` answers.
    Send {
        /// The bytes, as `FORMATS.md` has them under "The handover message".
        bytes: Vec<u8>,
        /// The descriptors, at most 32.
        fds: Vec<FdId>,
    },
    /// Tell the services that the server shuts down: `LoopEnded` and `WorkEnded` follow.
    Broadcast,
    /// What the endpoint's filter answered. There is nothing to do.
    Judged {
        /// The connection.
        connection: u64,
        /// Whether its peer is let in.
        verdict: Verdict,
    },
    /// Drop the connection, whose peer isn't let in.
    Refuse {
        /// The connection.
        connection: u64,
    },
    /// Apply these settings in order, up to the first that fails: `SettingsApplied` or `SettingsFailed` answers.
    Settings {
        /// The connection.
        connection: u64,
        /// The settings.
        settings: Vec<Setting>,
    },
    /// Poll the handshake, for at most 60 seconds: `HandshakeDone` or `HandshakeFailed` answers.
    Handshake {
        /// The connection.
        connection: u64,
    },
    /// Hand the connection to the application: `Finished` follows.
    Serve {
        /// The connection.
        connection: u64,
    },
    /// Drop it after its settings or its handshake failed.
    Drop {
        /// The connection.
        connection: u64,
    },
    /// Let the accept loop that met the failure rest one second.
    Rest {
        /// The service.
        service: u32,
        /// The endpoint of the service.
        endpoint: u32,
    },
    /// Drop a live connection.
    Cut {
        /// The connection.
        connection: u64,
    },
    /// Publish the phase.
    Phase {
        /// The phase that begins.
        phase: Phase,
        /// The last moment, in milliseconds.
        ms: u64,
    },
    /// Stop the services' workers.
    Stop {
        /// How long to wait for them, in seconds.
        seconds: u64,
    },
}

/// Where a run is.
///
/// ```
/// use fulltimehen::{Action, Core, Phase, Plan};
///
/// let mut core = Core::new(&Plan::new())?.begin()?;
/// let serves = |action| matches!(action, Action::Phase { phase: Phase::Running, .. });
/// assert!(core.last_told()?.actions().any(serves));
/// # Ok::<(), Box<dyn std::error::Error>>(())
/// ```
#[derive(Clone, Copy, Debug, PartialEq, Eq, Hash)]
#[non_exhaustive]
pub enum Phase {
    /// The server bootstraps.
    Bootstrap,
    /// It has bootstrapped: what an older server sent is taken over.
    BootstrapComplete,
    /// Services start as their dependencies are ready, and signals are taken.
    Running,
    /// The operator asked for an upgrade: the sockets are offered to a successor.
    GracefulUpgradeTransferringFds,
    /// The offer is over, and the server goes on for five seconds.
    GracefulUpgradeCloseTimeout,
    /// The operator asked for the end with a grace period.
    GracefulTerminate,
    /// The shutdown begins.
    ShutdownStarted,
    /// The services have the grace period to end.
    ShutdownGracePeriod,
    /// What is live is cut, what is open is closed, and the services' workers stop.
    ShutdownRuntimes,
    /// The run is over.
    Terminated,
}

const PHASES: [Phase; 10] = [
    Phase::Bootstrap,
    Phase::BootstrapComplete,
    Phase::Running,
    Phase::GracefulUpgradeTransferringFds,
    Phase::GracefulUpgradeCloseTimeout,
    Phase::GracefulTerminate,
    Phase::ShutdownStarted,
    Phase::ShutdownGracePeriod,
    Phase::ShutdownRuntimes,
    Phase::Terminated,
];

impl Phase {
    fn name(self) -> &'static str {
        match self {
            Phase::Bootstrap => "Bootstrap",
            Phase::BootstrapComplete => "BootstrapComplete",
            Phase::Running => "Running",
            Phase::GracefulUpgradeTransferringFds => "GracefulUpgradeTransferringFds",
            Phase::GracefulUpgradeCloseTimeout => "GracefulUpgradeCloseTimeout",
            Phase::GracefulTerminate => "GracefulTerminate",
            Phase::ShutdownStarted => "ShutdownStarted",
            Phase::ShutdownGracePeriod => "ShutdownGracePeriod",
            Phase::ShutdownRuntimes => "ShutdownRuntimes",
            Phase::Terminated => "Terminated",
        }
    }
}

impl fmt::Display for Phase {
    fn fmt(&self, f: &mut fmt::Formatter<'_>) -> fmt::Result {
        f.write_str(self.name())
    }
}

/// A setting of an accepted connection.
///
/// ```
/// use fulltimehen::{Action, Setting};
///
/// let told: Action = "settings 7 nodelay dscp=184".parse()?;
/// let settings = vec![Setting::NoDelay, Setting::Dscp(184)];
/// assert_eq!(told, Action::Settings { connection: 7, settings });
/// # Ok::<(), fulltimehen::LineError>(())
/// ```
#[derive(Clone, Copy, Debug, PartialEq, Eq)]
#[non_exhaustive]
pub enum Setting {
    /// Send without waiting for more.
    NoDelay,
    /// Keep alive.
    KeepAlive {
        /// How long a connection is idle before the first probe, in nanoseconds.
        idle: u64,
        /// The time between two probes, in nanoseconds.
        interval: u64,
        /// How many probes without an answer end the connection.
        count: u64,
        /// How long sent bytes may stay unacknowledged, in nanoseconds; 0: the system decides.
        user_timeout: u64,
    },
    /// The differentiated services byte.
    Dscp(u8),
    /// The size of the buffer for what is sent, in bytes.
    SndBuf(u64),
    /// The size of the buffer for what is received, in bytes.
    RcvBuf(u64),
}

impl fmt::Display for Setting {
    fn fmt(&self, f: &mut fmt::Formatter<'_>) -> fmt::Result {
        match self {
            Setting::NoDelay => f.write_str("nodelay"),
            Setting::KeepAlive { idle, interval, count, user_timeout } => {
                write!(f, "keepalive={idle},{interval},{count},{user_timeout}")
            }
            Setting::Dscp(n) => write!(f, "dscp={n}"),
            Setting::SndBuf(n) => write!(f, "sndbuf={n}"),
            Setting::RcvBuf(n) => write!(f, "rcvbuf={n}"),
        }
    }
}

impl FromStr for Setting {
    type Err = LineError;

    fn from_str(word: &str) -> Result<Setting, LineError> {
        let error = || LineError::new(word);
        let Some((key, value)) = word.split_once('=') else {
            return if word == "nodelay" { Ok(Setting::NoDelay) } else { Err(error()) };
        };
        match key {
            "keepalive" => keep_alive(value).ok_or_else(error),
            "dscp" => value.parse().map(Setting::Dscp).map_err(|_| error()),
            "sndbuf" => value.parse().map(Setting::SndBuf).map_err(|_| error()),
            "rcvbuf" => value.parse().map(Setting::RcvBuf).map_err(|_| error()),
            _ => Err(error()),
        }
    }
}

/// Keeping alive, of its four numbers.
fn keep_alive(numbers: &str) -> Option<Setting> {
    let mut numbers = numbers.split(',').map(|number| number.parse().ok());
    let mut next = || numbers.next().flatten();
    let (idle, interval, count, user_timeout) = (next()?, next()?, next()?, next()?);
    let is_all = numbers.next().is_none();
    is_all.then_some(Setting::KeepAlive { idle, interval, count, user_timeout })
}

/// The action's line, as a record has it.
impl fmt::Display for Action {
    fn fmt(&self, f: &mut fmt::Formatter<'_>) -> fmt::Result {
        match self {
            Action::Start { service } => write!(f, "start {service}"),
            Action::Fail { service } => write!(f, "fail {service}"),
            Action::Bind { service, endpoint } => write!(f, "bind {service} {endpoint}"),
            Action::Adopt { service, endpoint, fd } => write!(f, "adopt {service} {endpoint} {fd}"),
            Action::Close { fd } => write!(f, "close {fd}"),
            Action::OpenReceiver => f.write_str("openreceiver"),
            Action::TryReceive => f.write_str("tryreceive"),
            Action::Daemonize => f.write_str("daemonize"),
            Action::NotifyParent => f.write_str("notifyparent"),
            Action::Connect => f.write_str("connect"),
            Action::Send { bytes, fds } => write!(f, "send {} {}", Hex(bytes), Joined(fds)),
            Action::Broadcast => f.write_str("broadcast"),
            Action::Judged { connection, verdict: Verdict::Accept } => {
                write!(f, "judged {connection} yes")
            }
            Action::Judged { connection, verdict: Verdict::Refuse } => {
                write!(f, "judged {connection} no")
            }
            Action::Refuse { connection } => write!(f, "refuse {connection}"),
            Action::Settings { connection, settings } => {
                write!(f, "settings {connection}")?;
                settings.iter().try_for_each(|setting| write!(f, " {setting}"))
            }
            Action::Handshake { connection } => write!(f, "handshake {connection}"),
            Action::Serve { connection } => write!(f, "serve {connection}"),
            Action::Drop { connection } => write!(f, "drop {connection}"),
            Action::Rest { service, endpoint } => write!(f, "rest {service} {endpoint}"),
            Action::Cut { connection } => write!(f, "cut {connection}"),
            Action::Phase { phase, ms } => write!(f, "phase {phase} {ms}"),
            Action::Stop { seconds } => write!(f, "stop {seconds}"),
        }
    }
}

impl FromStr for Action {
    type Err = LineError;

    fn from_str(line: &str) -> Result<Action, LineError> {
        if let Some(action) = usual(line) {
            return Ok(action);
        }
        let mut words = Words::of(line);
        let action = action_of(&mut words)?;
        words.end()?;
        Ok(action)
    }
}

/// What each connection is told where nothing is special about it: these lines are read without looking for words.
fn usual(line: &str) -> Option<Action> {
    let number = |digits: &str| digits.parse().ok();
    if let Some(connection) = line.strip_prefix("serve ") {
        return number(connection).map(|connection| Action::Serve { connection });
    }
    if let Some(connection) = line.strip_prefix("handshake ") {
        return number(connection).map(|connection| Action::Handshake { connection });
    }
    let connection = number(line.strip_prefix("settings ")?.strip_suffix(" nodelay")?)?;
    let mut settings = Vec::new();
    settings.try_reserve_exact(1).ok()?;
    settings.push(Setting::NoDelay);
    Some(Action::Settings { connection, settings })
}

fn action_of(words: &mut Words<'_>) -> Result<Action, LineError> {
    Ok(match words.word()? {
        "start" => Action::Start { service: words.number()? },
        "fail" => Action::Fail { service: words.number()? },
        "bind" => Action::Bind { service: words.number()?, endpoint: words.number()? },
        "adopt" => Action::Adopt {
            service: words.number()?,
            endpoint: words.number()?,
            fd: words.number()?,
        },
        "close" => Action::Close { fd: words.number()? },
        "openreceiver" => Action::OpenReceiver,
        "tryreceive" => Action::TryReceive,
        "daemonize" => Action::Daemonize,
        "notifyparent" => Action::NotifyParent,
        "connect" => Action::Connect,
        "send" => Action::Send { bytes: words.bytes()?, fds: words.fds()? },
        "broadcast" => Action::Broadcast,
        "phase" => {
            let name = words.word()?;
            let phase = PHASES.into_iter().find(|phase| phase.name() == name);
            Action::Phase { phase: phase.ok_or_else(|| words.error())?, ms: words.number()? }
        }
        "stop" => Action::Stop { seconds: words.number()? },
        key => return connection_action(key, words),
    })
}

fn connection_action(key: &str, words: &mut Words<'_>) -> Result<Action, LineError> {
    Ok(match key {
        "judged" => Action::Judged {
            connection: words.number()?,
            verdict: words.either("yes", "no")?.into(),
        },
        "refuse" => Action::Refuse { connection: words.number()? },
        "settings" => Action::Settings { connection: words.number()?, settings: words.rest()? },
        "handshake" => Action::Handshake { connection: words.number()? },
        "serve" => Action::Serve { connection: words.number()? },
        "drop" => Action::Drop { connection: words.number()? },
        "rest" => Action::Rest { service: words.number()?, endpoint: words.number()? },
        "cut" => Action::Cut { connection: words.number()? },
        _ => return Err(words.error()),
    })
}

#[cfg(test)]
mod tests {
    use super::*;

    #[test]
    fn lines_go_there_and_back() {
        for line in [
            "adopt 0 1 7",
            "send 3132372e302e302e313a3830 3,4",
            "judged 4 yes",
            "settings 4 nodelay keepalive=1,2,3,4 dscp=10 sndbuf=4096",
            "settings 4 nodelay",
            "settings 4",
            "handshake 18446744073709551615",
            "serve 4",
            "phase GracefulUpgradeCloseTimeout 12",
            "stop 5",
        ] {
            assert_eq!(
                line.parse::<Action>().map(|action| action.to_string()),
                Ok(line.to_owned())
            );
        }
        for line in [
            "",
            "got moment 1",
            "phase Setup 0",
            "settings 1 fast",
            "settings 1 keepalive=1,2,3",
            "settings 1 keepalive=1,2,3,4,5",
            "settings 1 keepalive=1,2,3,x",
            "settings nodelay",
            "serve",
            "serve ",
            "handshake 4 5",
            "serve 18446744073709551616",
        ] {
            assert!(line.parse::<Action>().is_err(), "{line}");
        }
    }
}
