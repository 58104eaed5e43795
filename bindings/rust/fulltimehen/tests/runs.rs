//! How runs go on and end.

use fulltimehen::{
    Action, Core, CoreError, End, Event, FdId, Host, Next, OnStray, Outcome, Plan, PlanError,
    RunError, Service, Signal, Stray,
};
use std::collections::VecDeque;
use std::env;
use std::error::Error;
use std::io;
use std::os::fd::OwnedFd;
use std::os::unix::net::UnixStream;
use std::process::{Command, Stdio};
use std::thread::{self, sleep};
use std::time::{Duration, Instant};

/// A host whose events are given beforehand.
#[derive(Default)]
struct Script {
    events: VecDeque<Event>,
    told: Vec<String>,
    record: String,
    strays: Vec<String>,
    due: Vec<Option<u64>>,
    ends: bool,
}

impl Script {
    fn of(lines: &[&str]) -> Script {
        let events = lines.iter().map(|line| line.parse().expect("an event"));
        Script { events: events.collect(), ..Script::default() }
    }

    fn has_told(&self, line: &str) -> usize {
        self.told.iter().filter(|told| *told == line).count()
    }
}

impl Host for Script {
    fn next(&mut self) -> Next {
        self.events.pop_front().map_or(Next::Nothing, Next::Event)
    }

    fn tell(&mut self, action: Action) {
        self.told.push(action.to_string());
    }

    fn due(&mut self, moment: Option<u64>) {
        self.due.push(moment);
    }

    fn record(&mut self, lines: &str) {
        self.record += lines;
    }

    fn on_stray(&mut self, stray: &Stray) -> OnStray {
        self.strays.push(stray.to_string());
        if self.ends { OnStray::End } else { OnStray::Drop }
    }
}

fn core() -> Core {
    Core::new(&Plan::new().service(Service::plain("web").tcp("127.0.0.1:80"))).expect("a plan")
}

/// One wrong event doesn't end a server, and what came by it is let go once.
#[test]
fn a_stray_event_is_dropped() {
    let mut host = Script::of(&[
        "bound 0 0 3",
        "bound 0 0 4",
        "bound 0 0 3",
        "arrived 0 0 5 -",
        "arrived 0 0 5 -",
        "arrived 0 7 6 -",
        "received - 8,9,8",
        "finished 5",
        "ready 0",
        "set 5 ok",
        "shaken 5 ok",
        "finished 5",
        "signal fast",
    ]);
    let outcome = fulltimehen::run(core(), &mut host).expect("it is served");
    assert_eq!(outcome, Outcome::Served);
    assert_eq!(
        host.strays,
        [
            "bound 0 0 4, event 2, doesn't fit there; it fits where a bind of the endpoint was told and isn't answered yet, and the number is a new one",
            "bound 0 0 3, event 3, doesn't fit there; it fits where a bind of the endpoint was told and isn't answered yet, and the number is a new one",
            "arrived 0 0 5 -, event 5, doesn't fit there; it fits where all endpoints of its service are bound, and the number is a new one",
            "arrived 0 7 6 -, event 6, doesn't fit there; it fits where all endpoints of its service are bound, and the number is a new one",
            "received - 8,9,8, event 7, doesn't fit there; it fits where a tryreceive was told and isn't answered yet, and each number is a new one",
            "finished 5, event 8, doesn't fit there; it fits where a serve of the connection was told, and it is live",
            "ready 0, event 9, doesn't fit there; it fits where its service is of the kind notify, is started and hasn't said so before",
        ]
    );
    // Descriptor 3 and connection 5 are the core's.
    for (line, times) in [
        ("close 3", 1),
        ("close 4", 1),
        ("close 8", 1),
        ("close 9", 1),
        ("refuse 5", 0),
        ("refuse 6", 1),
        ("serve 5", 1),
    ] {
        assert_eq!(host.has_told(line), times, "{line}");
    }
    // The record has what the core took, and nothing more.
    assert!(!host.record.contains("close 4") && !host.record.contains("refuse"));
    assert!(host.record.ends_with("phase Terminated 0\n"));
}

/// A host that says nothing of strays.
struct Plain(VecDeque<Event>);

impl Host for Plain {
    fn next(&mut self) -> Next {
        self.0.pop_front().map_or(Next::Nothing, Next::Event)
    }

    fn tell(&mut self, _action: Action) {}
}

/// A run of it goes on, too.
#[test]
fn dropping_is_the_default() {
    let mut host = Plain(Script::of(&["finished 1", "signal fast"]).events);
    assert_eq!(fulltimehen::run(core(), &mut host).expect("it is served"), Outcome::Served);
}

/// A program with more strays than a pipe takes, for the test below.
#[test]
#[ignore = "a_standard_error_that_nobody_reads runs it"]
fn many_strays() {
    let strays = (0..40_000).map(|connection| Event::Finished { connection });
    let mut host = Plain(strays.chain([Event::Signal { kind: Signal::Fast }]).collect());
    assert_eq!(fulltimehen::run(core(), &mut host).expect("it is served"), Outcome::Served);
}

/// What is said of strays neither ends a server nor makes it wait.
#[test]
fn a_standard_error_that_nobody_reads() {
    let program = env::current_exe().expect("this program");
    let strays = || {
        let mut command = Command::new(&program);
        command.args(["--exact", "many_strays", "--ignored", "--nocapture"]).stdout(Stdio::null());
        command
    };
    let (unread, to) = UnixStream::pair().expect("a pair");
    let mut child = strays().stderr(OwnedFd::from(to)).spawn().expect("a process");
    let then = Instant::now();
    let ended = loop {
        match child.try_wait().expect("it is a child") {
            Some(status) => break status,
            None if then.elapsed() > Duration::from_secs(60) => {
                child.kill().expect("it is a child");
                panic!("it waits for standard error");
            }
            None => sleep(Duration::from_millis(20)),
        }
    };
    assert!(ended.success(), "{ended}");
    drop(unread);

    let (gone, to) = UnixStream::pair().expect("a pair");
    drop(gone);
    let ended = strays().stderr(OwnedFd::from(to)).status().expect("a process");
    assert!(ended.success(), "{ended}");
}

/// Where the host wants it the run ends, says the event, and lets all go.
#[test]
fn a_stray_event_ends_the_run_that_wants_it() {
    let mut host = Script::of(&["bound 0 0 3", "bound 0 0 4"]);
    host.ends = true;
    let error = fulltimehen::run(core(), &mut host).expect_err("a stray");
    let RunError::Stray(stray) = &error else { panic!("{error}") };
    let second = Event::Bound { service: 0, endpoint: 0, fd: FdId(4) };
    assert_eq!((stray.number, &stray.event), (2, &second));
    assert_eq!(error.status().as_deref(), Some("stray 2"));
    assert!(error.to_string().starts_with("bound 0 0 4, event 2, doesn't fit there"));
    assert_eq!((host.has_told("close 3"), host.has_told("close 4")), (1, 1));
}

/// A message with too many descriptors is no event: its descriptors are closed all the same.
#[test]
fn too_many_descriptors_are_closed() {
    for ends in [false, true] {
        let fds: Vec<FdId> = (10..43).map(FdId).collect();
        let mut host = Script::of(&["bound 0 0 3"]);
        host.events.push_back(Event::Received { bytes: Vec::new(), fds: fds.clone() });
        host.events.push_back(Event::Signal { kind: Signal::Fast });
        host.ends = ends;
        let ended = fulltimehen::run(core(), &mut host);
        assert_eq!(ended.is_err(), ends);
        for fd in fds.into_iter().chain([FdId(3)]) {
            assert_eq!(host.has_told(&format!("close {fd}")), 1, "{fd}");
        }
        assert!(
            host.strays[0].contains("event 2, is none: a message brings at most 32 descriptors")
        );
    }
}

/// Hosts of any kind: by reference, in a box, and as a trait object.
#[test]
fn a_host_may_be_a_trait_object() {
    let mut host = Script::of(&["signal fast"]);
    let object: &mut dyn Host = &mut host;
    assert!(fulltimehen::run(core(), object).is_ok());
    let mut boxed: Box<dyn Host> = Box::new(Script::of(&["finished 1", "signal fast"]));
    assert!(fulltimehen::run(core(), &mut boxed).is_ok());
    let mut host = Script::of(&["finished 1", "signal fast"]);
    assert!(fulltimehen::run(core(), &mut &mut host).is_ok());
    assert_eq!(host.strays.len(), 1);
}

#[test]
fn a_moment_is_due_only_where_something_waits() {
    let mut host = Script::of(&[
        "bound 0 0 3",
        "moment 50",
        "arrived 0 0 5 -",
        "moment 2000",
        "signal terminate",
        "moment 2050",
        "signal fast",
    ]);
    assert!(fulltimehen::run(core(), &mut host).is_ok());
    assert_eq!(
        host.due,
        [None, None, None, None, None, Some(302_000), Some(302_000)],
        "nothing waits for time; then the grace period does, of 300 seconds"
    );
    let mut host = Script::of(&["inuse 0 0", "moment 1000", "bound 0 0 3", "signal fast"]);
    assert!(fulltimehen::run(core(), &mut host).is_ok());
    assert_eq!(host.due, [None, Some(1000), None, None], "an address in use rests for a second");
}

/// Errors can leave a thread, and say their cause.
#[test]
fn errors_have_causes() {
    fn is_error<E: Error + Send + Sync + 'static>() {}
    is_error::<RunError>();
    is_error::<PlanError>();
    is_error::<CoreError>();

    let fault = RunError::Fault(io::Error::other("why"));
    assert_eq!(fault.source().expect("a cause").to_string(), "why");
    let refused = RunError::Core(CoreError::NoMemory);
    assert_eq!(refused.source().expect("a cause").to_string(), "out of memory");
}

/// A core may go from thread to thread.
#[test]
fn each_step_may_have_its_own_thread() {
    let mut core = core().begin().expect("memory");
    let mut record = core.last_told().expect("memory").record().to_owned();
    for line in ["bound 0 0 3", "arrived 0 0 5 -", "set 5 ok", "signal fast"] {
        let event: Event = line.parse().expect("an event");
        let step = move || {
            let told = core.step(&event).expect("it fits").record().to_owned();
            (core, told)
        };
        let (there, told) = thread::spawn(step).join().expect("it ends");
        core = there;
        record += &told;
    }
    let closed = thread::spawn(move || core.close(None).expect("memory")).join().expect("it ends");
    assert_eq!(closed.end(), Some(End::Served));
    assert_eq!(
        record,
        "start 0\nbind 0 0\nphase Running 0\ngot bound 0 0 3\ngot arrived 0 0 5 -\nsettings 5 nodelay\ngot set 5 ok\nhandshake 5\n\
         got signal fast\nphase ShutdownStarted 0\nphase ShutdownRuntimes 0\ncut 5\nclose 3\nstop 0\nphase Terminated 0\n"
    );
}

/// A core that isn't made can be unwrapped as an error, and cores can be shown.
#[test]
fn cores_can_be_shown() {
    let plan = Plan::new().service(Service::plain(""));
    assert!(matches!(Core::new(&plan).unwrap_err(), PlanError::Word { .. }));
    let core = core();
    assert_eq!(format!("{core:?}"), "Core { .. }");
    let core = core.begin().expect("memory");
    assert_eq!(format!("{core:?}"), "RunningCore { end: None, .. }");
    assert_eq!(format!("{:?}", core.close(None).expect("memory")), "ClosedCore { end: None, .. }");
}

#[test]
fn a_refused_close_gives_the_core_back() {
    let core = core().begin().expect("memory");
    let event = Event::Received { bytes: Vec::new(), fds: (0..33).map(FdId).collect() };
    let refused = core.close(Some(&event)).expect_err("no event");
    assert_eq!(refused.error, CoreError::NoEvent(event));
    let mut core = refused.core;
    core.step(&Event::Bound { service: 0, endpoint: 0, fd: FdId(3) }).expect("it goes on");
    let mut closed = core.close(None).expect("memory");
    assert_eq!(closed.last_told().expect("memory").record(), "close 3\n");
}
