//! A server's lifecycle as a proved machine: a program gives it events (a service is ready, a bind
//! brought a descriptor, a signal came) and carries out the actions that it tells (start, bind, close,
//! publish a phase). The program keeps the operating system.
//!
//! The machine is the Rattle library `svc_core`, proved and linked as a static library; what is proved
//! and what isn't is said in the README, "Where the trust ends".
//!
//! - A [`Plan`] says what is to run: a [`Configuration`], [`Service`]s with their endpoints, and flags.
//! - A [`Core`] is the machine. [`Core::begin`] makes it a [`RunningCore`], whose [`step`](RunningCore::step)
//!   takes an [`Event`], and answers the [`Action`]s.
//! - A [`Host`] is the outside of a run, and [`run`] the loop over both.
//! - A [`Record`] takes the lines of a run, which `svc run` prints again for the same events.
//!
//! Want of memory is an ordinary answer of a core's calls, and [`run`] waits for memory. What a program makes itself, a plan and
//! its texts, is made as std makes it, and so is what is said of a plan that is refused.
//!
//! ```
//! use fulltimehen::{Action, Core, End, Event, FdId, Plan, Service, Signal};
//!
//! let plan = Plan::new().service(Service::plain("web").tcp("127.0.0.1:80"));
//! let mut core = Core::new(&plan)?.begin()?;
//! assert_eq!(core.last_told()?.record(), "start 0\nbind 0 0\nphase Running 0\n");
//!
//! let told = core.step(&Event::Bound { service: 0, endpoint: 0, fd: FdId(3) })?;
//! assert_eq!(told.end(), None);
//!
//! let told = core.step(&Event::Signal { kind: Signal::Fast })?;
//! assert!(told.actions().any(|action| action == Action::Close { fd: FdId(3) }));
//! assert_eq!(told.end(), Some(End::Served));
//! # Ok::<(), Box<dyn std::error::Error>>(())
//! ```

#![deny(unsafe_code)]
#![warn(missing_docs, missing_debug_implementations)]
#![warn(
    clippy::missing_errors_doc,
    clippy::missing_panics_doc,
    clippy::must_use_candidate,
    clippy::return_self_not_must_use
)]

mod action;
mod book;
mod configuration;
mod core;
mod event;
mod host;
mod line;
mod messages;
mod numbers;
mod plan;
mod record;
#[allow(unsafe_code)]
mod sys;
mod words;

pub use action::{Action, Phase, Setting};
pub use configuration::{Configuration, ConfigurationError, ConfigurationFault, HistogramScale};
pub use core::{Checked, ClosedCore, Core, CoreError, End, Refused, RunningCore, Told};
pub use event::{Event, Peer, Side, Signal, Verdict};
pub use host::{Host, Next, OnStray, Outcome, RunError, Stray, run};
pub use numbers::{FdId, Numbers};
pub use plan::{Endpoint, KeepAlive, Plan, PlanError, Service, TcpOptions, WordFault};
pub use record::{Record, RecordError};
pub use words::LineError;
