//! Why a server didn't run, or how its run ended.

use crate::log::{self, say};
use fulltimehen::{ConfigurationError, CoreError, PlanError};
use std::fmt;
use std::io;
use std::path::PathBuf;
use std::process;

/// How a run ended well. The program's exit status is 0.
#[derive(Clone, Copy, Debug, PartialEq, Eq)]
#[non_exhaustive]
pub enum Outcome {
    /// It went through its shutdown.
    Served,
    /// It tested that it can start (`-t`).
    Tested,
    /// It was stopped before it served.
    Stopped,
}

impl fmt::Display for Outcome {
    fn fmt(&self, f: &mut fmt::Formatter<'_>) -> fmt::Result {
        f.write_str(match self {
            Outcome::Served => "served",
            Outcome::Tested => "tested",
            Outcome::Stopped => "stopped before it served",
        })
    }
}

/// Why a server didn't run, or ended.
///
/// ```
/// use fulltimehen_server::{RunArgs, Server, ServerError, listening};
///
/// let mut server = Server::new(None)?;
/// server.add_service(listening("web", |_| async {}).tcp("not an address"));
/// let error = server.run(RunArgs::default()).unwrap_err();
/// assert!(matches!(&error, ServerError::Address { service, .. } if service == "web"));
/// assert_eq!(error.status(), 3);
/// # Ok::<(), ServerError>(())
/// ```
#[derive(Debug, thiserror::Error)]
#[non_exhaustive]
pub enum ServerError {
    /// The file of the configuration can't be read.
    #[error("the configuration {path} can't be read: {source}")]
    ConfigurationFile {
        /// The file.
        path: PathBuf,
        /// Why.
        source: io::Error,
    },
    /// The configuration is refused.
    #[error("the configuration is refused: {0}")]
    Configuration(ConfigurationError),
    /// A key of the configuration, or a word of the command line, that this server doesn't act upon.
    #[error("{key} isn't taken: {hint}")]
    Unsupported {
        /// The key or word.
        key: &'static str,
        /// What to do instead.
        hint: &'static str,
    },
    /// A path of the handover between two programs can't be used.
    #[error("{path}: {reason}")]
    Path {
        /// The path.
        path: PathBuf,
        /// Why it can't be used.
        reason: String,
    },
    /// The address of a service isn't one, or its name can't be looked up.
    #[error("{service} can't listen at {address}: {source}")]
    Address {
        /// The service's name.
        service: String,
        /// The address, as it was given.
        address: String,
        /// Why.
        source: io::Error,
    },
    /// The plan is refused: a name, a dependency, or one more service or endpoint than there may be.
    #[error(transparent)]
    Plan(#[from] PlanError),
    /// Another program serves already, by the pid file.
    #[error("another program serves already{}", .pid.map(|pid| format!(": process {pid}")).unwrap_or_default())]
    AlreadyRunning {
        /// The number of its process, where the file says it.
        pid: Option<u32>,
    },
    /// No service could have its addresses.
    #[error("no service has its addresses: {0}")]
    Bind(String),
    /// A service of a program that takes over (`-u`) could not have its addresses: the one that runs serves on.
    #[error("a service doesn't have its addresses, so the program that runs serves on: {0}")]
    Lacking(String),
    /// No program that runs sent its sockets (`-u`).
    #[error("no program that runs sent its sockets: it is asked to by SIGQUIT")]
    NoPredecessor,
    /// The sockets of the program that runs couldn't be received (`-u`).
    #[error("the sockets of the program that runs couldn't be received: {0}")]
    Transfer(String),
    /// What was sent in place of sockets is no message (`-u`).
    #[error("what came in place of sockets is no message")]
    BadMessage,
    /// The run of a server was begun within an asynchronous runtime, which it would block.
    #[error("a server makes its own runtime: it is run from an ordinary function or thread")]
    WithinRuntime,
    /// The core refused a call: memory lacks, or an event didn't fit and [`OnStray::End`](crate::OnStray)
    /// was chosen.
    #[error("the core: {0}")]
    Core(CoreError),
    /// The system refused what every server needs: threads, signals, a poller.
    #[error("{what}: {source}")]
    System {
        /// What was asked for.
        what: &'static str,
        /// What it answered.
        source: io::Error,
    },
}

impl ServerError {
    /// The exit status of a program that ends by this: 2 for words that aren't taken, 3 for a refused
    /// configuration, plan or address, 4 where sockets couldn't be taken over, 5 where no service has its
    /// addresses, or with `-u` one hasn't, 6 where another program serves, and 1 for the rest.
    #[must_use]
    pub fn status(&self) -> u8 {
        match self {
            ServerError::Unsupported { .. } => 2,
            ServerError::ConfigurationFile { .. }
            | ServerError::Configuration(_)
            | ServerError::Path { .. }
            | ServerError::Address { .. }
            | ServerError::Plan(_) => 3,
            ServerError::NoPredecessor | ServerError::Transfer(_) | ServerError::BadMessage => 4,
            ServerError::Bind(_) | ServerError::Lacking(_) => 5,
            ServerError::AlreadyRunning { .. } => 6,
            _ => 1,
        }
    }

    /// Ends the program with this error on standard error and its [`status`](ServerError::status).
    ///
    /// ```
    /// use fulltimehen_server::Server;
    ///
    /// let server = Server::new(None).unwrap_or_else(|error| error.exit());
    /// # drop(server);
    /// ```
    pub fn exit(self) -> ! {
        say!(error, "{self}");
        log::flush();
        process::exit(self.status().into())
    }

    pub(crate) fn system(what: &'static str) -> impl FnOnce(io::Error) -> ServerError {
        move |source| ServerError::System { what, source }
    }
}
