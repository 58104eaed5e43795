//! A server on `tokio` whose lifecycle is proved: services that wait for one another, signals, drains,
//! upgrades without a lost connection, and service managers.
//!
//! What is to be done when is decided by the machine of the crate [`fulltimehen`]; this crate does it. What
//! that machine's proofs say, and what they don't, is said in its README, "Where the trust ends". None of
//! this crate is proved.
//!
//! - A [`Server`] has services: [`background`] works beside the others, and [`listening`] gets connections.
//! - [`ServiceHandle::add_dependency`] says what starts after what.
//! - [`Server::run_forever`] runs it until a signal comes: SIGTERM (graceful), SIGINT (at once) or SIGQUIT
//!   (another program takes over, [`Succession`]).
//!
//! ```no_run
//! use fulltimehen_server::{Opt, Server, Succession, listening};
//! use tokio::io::{copy, split};
//!
//! fn main() {
//!     let mut server = Server::new(Opt::parse_args()).unwrap_or_else(|error| error.exit());
//!     server.succession(Succession::new());
//!     let echo = listening("echo", |connection| async move {
//!         let (mut from, mut to) = split(connection);
//!         copy(&mut from, &mut to).await
//!     });
//!     server.add_service(echo.tcp("127.0.0.1:8080"));
//!     server.run_forever()
//! }
//! ```

#![deny(unsafe_code)]
#![warn(missing_docs, missing_debug_implementations)]
#![warn(
    clippy::missing_errors_doc,
    clippy::missing_panics_doc,
    clippy::must_use_candidate,
    clippy::return_self_not_must_use
)]

mod accept;
mod beat;
mod connection;
mod driver;
mod error;
mod fds;
mod filter;
mod handover;
mod inherited;
mod limits;
mod listener;
mod log;
mod machine;
mod notify;
mod opt;
mod pid_file;
mod process;
mod record;
mod relay;
mod server;
mod service;
mod signals;
mod succession;
#[allow(unsafe_code)]
mod sys;
mod takeover;

pub use connection::{Connection, Shutdown, connect};
pub use error::{Outcome, ServerError};
pub use filter::{Cidr, CidrError};
pub use fulltimehen::{
    Configuration, ConfigurationError, CoreError, OnStray, Peer, Phase, PlanError, Signal,
};
pub use opt::Opt;
pub use relay::relay;
pub use server::{DependencyError, RunArgs, Server, ServiceHandle};
pub use service::{
    Answer, Background, Listening, Service, Task, background, listening, listening_with_handshake,
};
pub use succession::Succession;
