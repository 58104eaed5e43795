//! Memory: with an allocator of this program's own, which counts, and fails where it is told to.
//!
//! It is tried without the crate's allocator (`cargo test --no-default-features --test heap`), as a program
//! does that links another library of the toolchain. With `--release -- --include-ignored` ten million connections
//! come and go, too.
#![cfg(not(feature = "heap"))]

use fulltimehen::{
    Action, Core, CoreError, Event, FdId, Host, Next, Numbers, OnStray, Outcome, Peer, Plan,
    Record, RecordError, RunningCore, Service, Signal, Stray,
};
use std::alloc::{GlobalAlloc, Layout, System};
use std::cell::Cell;
use std::ffi::c_void;
use std::ptr;

thread_local! {
    /// How many allocations succeed before the failing ones, and how many fail, here and in the library.
    static FAULTS: Cell<(usize, usize)> = const { Cell::new((0, 0)) };
    /// How many bytes the library holds that this thread gave it.
    static HELD: Cell<usize> = const { Cell::new(0) };
}

/// Whether this allocation fails.
fn fails() -> bool {
    FAULTS.with(|faults| match faults.get() {
        (_, 0) => false,
        (0, left) => {
            faults.set((0, left - 1));
            true
        }
        (more, left) => {
            faults.set((more - 1, left));
            false
        }
    })
}

struct Faulty;

// SAFETY: it is the system's allocator, which may fail.
unsafe impl GlobalAlloc for Faulty {
    unsafe fn alloc(&self, layout: Layout) -> *mut u8 {
        // SAFETY: as the caller says.
        if fails() { ptr::null_mut() } else { unsafe { System.alloc(layout) } }
    }
    unsafe fn dealloc(&self, at: *mut u8, layout: Layout) {
        // SAFETY: as the caller says.
        unsafe { System.dealloc(at, layout) }
    }
    unsafe fn realloc(&self, at: *mut u8, layout: Layout, size: usize) -> *mut u8 {
        // SAFETY: as the caller says.
        if fails() { ptr::null_mut() } else { unsafe { System.realloc(at, layout, size) } }
    }
}

#[global_allocator]
static HEAP: Faulty = Faulty;

unsafe extern "C" {
    fn malloc(size: usize) -> *mut c_void;
    fn realloc(at: *mut c_void, size: usize) -> *mut c_void;
    fn free(at: *mut c_void);
    fn malloc_usable_size(at: *mut c_void) -> usize;
}

#[repr(C)]
struct Tried {
    ok: bool,
    at: *mut c_void,
}

/// The block, in place of one of so many bytes.
fn held(at: *mut c_void, before: usize) -> Tried {
    if !at.is_null() {
        // SAFETY: the block is `malloc`'s.
        let bytes = unsafe { malloc_usable_size(at) };
        HELD.set(HELD.get() + bytes - before);
    }
    Tried { ok: !at.is_null(), at }
}

// SAFETY: the names are these functions' alone, since the crate's allocator is left out.
#[unsafe(no_mangle)]
extern "C" fn rattle_alloc(size: usize, align: usize) -> Tried {
    // SAFETY: each size may be asked for.
    let at = if fails() { ptr::null_mut() } else { unsafe { malloc(size.max(align)) } };
    held(at, 0)
}

// SAFETY: as above.
#[unsafe(no_mangle)]
unsafe extern "C" fn rattle_realloc(at: *mut c_void, _: usize, size: usize, align: usize) -> Tried {
    // SAFETY: the block is `malloc`'s.
    let before = unsafe { malloc_usable_size(at) };
    // SAFETY: as above.
    let at = if fails() { ptr::null_mut() } else { unsafe { realloc(at, size.max(align)) } };
    held(at, before)
}

// SAFETY: as above.
#[unsafe(no_mangle)]
unsafe extern "C" fn rattle_dealloc(at: *mut c_void) {
    // SAFETY: the block is `malloc`'s.
    HELD.set(HELD.get() - unsafe { malloc_usable_size(at) });
    // SAFETY: as above.
    unsafe { free(at) }
}

fn plan() -> Plan {
    let web = (0..40).fold(Service::plain("web"), |web, n| web.tcp(format!("127.0.0.1:{n}")));
    Plan::new().service(web)
}

fn begun() -> RunningCore {
    Core::new(&plan()).expect("a plan").begin().expect("memory")
}

/// A core that runs, with all endpoints held but for the last one.
fn core() -> RunningCore {
    let mut core = begun();
    (0..39).for_each(|endpoint| bind(&mut core, endpoint));
    core
}

fn bind(core: &mut RunningCore, endpoint: u32) {
    let fd = FdId(endpoint.into());
    core.step(&Event::Bound { service: 0, endpoint, fd }).expect("it fits");
}

/// The same with all endpoints held, so that connections may come.
fn serving() -> RunningCore {
    let mut core = core();
    bind(&mut core, 39);
    core
}

/// How many allocations may fail, one after the other, before none does.
const MOST: usize = 4000;

/// Each allocation of a plan fails once: the plan is refused for want of memory, or it is made.
#[test]
fn a_plan_is_refused_or_made() {
    let plan = plan();
    assert!(Core::new(&plan).is_ok());
    let mut refused = 0;
    for at in 0..MOST {
        FAULTS.set((at, 1));
        let core = Core::new(&plan);
        let (_, left) = FAULTS.replace((0, 0));
        match core {
            Ok(_) if left == 1 => break,
            Ok(_) => {}
            Err(error) => {
                assert_eq!(error, fulltimehen::PlanError::NoMemory);
                refused += 1;
            }
        }
    }
    assert!(refused > 0);
}

/// Each allocation of the core's step fails once: the step is refused and may come again, or what it told
/// comes later. No action is lost. Answers how often it was refused, and how often what it told came later.
fn fail_in_turn(made: impl Fn() -> RunningCore, event: &Event) -> (usize, usize) {
    let whole = made().step(event).expect("it fits").record().to_owned();
    let (mut refused, mut untold) = (0, 0);
    for at in 0..MOST {
        let mut core = made();
        FAULTS.set((at, 1));
        let told = core.step(event).map(|_| ());
        let (_, left) = FAULTS.replace((0, 0));
        match told {
            Ok(()) if left == 1 => break,
            Ok(()) => {}
            Err(CoreError::NoMemory) => {
                refused += 1;
                core.step(event).expect("it fits still");
            }
            Err(CoreError::Untold) => {
                untold += 1;
                assert_eq!(core.step(event).map(|_| ()), Err(CoreError::Behind));
                core = core.close(None).expect_err("it is behind").core;
            }
            Err(error) => panic!("{error}"),
        }
        assert_eq!(core.last_told().expect("memory").record(), whole, "allocation {at}");
    }
    (refused, untold)
}

/// What a step tells of many closes may come later; what a first connection takes may be refused, and so may what
/// this crate's own lines and lists take.
#[test]
fn no_action_is_lost() {
    let signal = Event::Signal { kind: Signal::Fast };
    let whole = core().step(&signal).expect("it fits").record().to_owned();
    assert_eq!(whole.matches("close ").count(), 39);
    let (_, untold) = fail_in_turn(core, &signal);
    assert!(untold > 0);
    let arrived = |peer| Event::Arrived { service: 0, endpoint: 0, connection: u64::MAX, peer };
    let v4 = "255.255.255.255:65535".parse().expect("a peer");
    let cases: [(fn() -> RunningCore, Event); 4] = [
        (serving, arrived(Peer::Unknown)),
        (serving, arrived(v4)),
        (begun, Event::Bound { service: 0, endpoint: 0, fd: FdId(u64::MAX) }),
        (waiting, received(b"127.0.0.1:0 b".repeat(90), [1, 2, 3])),
    ];
    for (made, event) in cases {
        let (refused, _) = fail_in_turn(made, &event);
        assert!(refused > 0, "{event}");
    }
    // The list of what is open grows with each bind.
    for count in 0..39 {
        let made = || {
            let mut core = begun();
            (0..count).for_each(|endpoint| bind(&mut core, endpoint));
            core
        };
        let fd = FdId(count.into());
        fail_in_turn(made, &Event::Bound { service: 0, endpoint: count, fd });
    }
}

/// An older server's message, with descriptors of these numbers.
fn received(bytes: Vec<u8>, fds: impl IntoIterator<Item = u64>) -> Event {
    Event::Received { bytes, fds: fds.into_iter().map(FdId).collect() }
}

/// A core that waits for an older server's message.
fn waiting() -> RunningCore {
    let plan = plan().eager(true).upgrade(true);
    Core::new(&plan).expect("a plan").begin().expect("memory")
}

/// Each allocation of the first step fails once: the core comes back, or what the step told comes later.
#[test]
fn the_first_step_is_refused_or_taken() {
    let core = || Core::new(&plan()).expect("a plan");
    let whole = core().begin().expect("memory").last_told().expect("memory").record().to_owned();
    let (mut refused, mut later) = (0, 0);
    for at in 0..MOST {
        let core = core();
        FAULTS.set((at, 1));
        let begun = core.begin();
        let (_, left) = FAULTS.replace((0, 0));
        let mut core = match begun {
            Ok(_) if left == 1 => break,
            Ok(core) => core,
            Err(again) => {
                assert_eq!(again.error, CoreError::NoMemory);
                refused += 1;
                again.core.begin().expect("memory")
            }
        };
        // What doesn't fit changes nothing.
        later += usize::from(matches!(core.step(&Event::NoSender), Err(CoreError::Behind)));
        assert_eq!(core.last_told().expect("memory").record(), whole, "allocation {at}");
    }
    assert!(refused > 0 && later > 0, "{refused} refused, {later} later");
}

/// An event that is refused is said with its lists where there is memory for them, and what it brought is let go in
/// either case.
#[test]
fn a_stray_is_refused_without_memory() {
    let stray = received(vec![0; 1000], (0..50).chain(100..110));
    for count in 0..20 {
        let mut core = core();
        FAULTS.set((count, MOST));
        let refused = core.step(&stray).map(|_| ());
        FAULTS.set((0, MOST));
        let left = core.left_by(&stray).count();
        FAULTS.set((0, 0));
        assert!(matches!(refused, Err(CoreError::NoMemory | CoreError::NoEvent(_))), "{refused:?}");
        // 39 are the core's.
        assert_eq!(left, 21);
    }
}

/// What was told can be asked for again where memory lacks for a list of it.
#[test]
fn an_action_without_memory_comes_again() {
    let mut core = serving();
    let peer = Peer::Unknown;
    let arrived = Event::Arrived { service: 0, endpoint: 0, connection: 1, peer };
    let told = core.step(&arrived).expect("it fits");
    FAULTS.set((0, MOST));
    let refused = told.try_actions().next();
    FAULTS.set((0, 0));
    assert_eq!(refused, Some(Err(CoreError::NoMemory)));
    assert_eq!(told.try_actions().count(), 1);
    assert!(told.try_actions().all(|action| action.is_ok()));
}

/// A record for whose lines memory lacks is lost from there on.
#[test]
fn a_record_without_memory_is_lost() {
    let mut record = Record::to(std::io::sink()).expect("a thread");
    record.put("start 0\n");
    FAULTS.set((0, 1));
    record.put("phase Running 0\n");
    FAULTS.set((0, 0));
    assert!(matches!(record.lost(), Some(RecordError::NoMemory)), "{:?}", record.lost());
}

/// A host in which these events happen, the last one first, and memory begins to lack at one of them. It counts what
/// it is told.
struct Short {
    events: Vec<Event>,
    /// How many events come after the one at which memory begins to lack.
    after: usize,
    faults: (usize, usize),
    told: usize,
    closed: usize,
    strays: usize,
}

impl Host for Short {
    fn next(&mut self) -> Next {
        let event = self.events.pop();
        if self.events.len() == self.after {
            FAULTS.set(self.faults);
        }
        event.map_or(Next::Nothing, Next::Event)
    }

    fn tell(&mut self, action: Action) {
        self.told += 1;
        if matches!(action, Action::Close { .. }) {
            self.closed += 1;
        }
    }

    fn on_stray(&mut self, _stray: &Stray) -> OnStray {
        self.strays += 1;
        OnStray::Drop
    }
}

/// A run of these events in which five allocations fail, one after the other, behind so many that succeed, from the
/// event on that so many come after. It is answered what was told, and whether all five failed.
fn run_short(lines: &[String], after: usize, before: usize) -> ([usize; 3], bool) {
    let events = lines.iter().rev().map(|line| line.parse().expect("an event")).collect();
    let faults = (before, 5);
    let mut host = Short { events, after, faults, told: 0, closed: 0, strays: 0 };
    let outcome = fulltimehen::run(Core::new(&plan()).expect("a plan"), &mut host);
    let (_, left) = FAULTS.replace((0, 0));
    assert!(matches!(outcome, Ok(Outcome::Served)), "{outcome:?}");
    ([host.told, host.closed, host.strays], left == 0)
}

/// A run waits for memory: whatever is told is told once, and each descriptor is closed once.
#[test]
fn a_run_waits_for_memory() {
    let binds = (0..40).map(|endpoint| format!("bound 0 {endpoint} {endpoint}"));
    let stray = format!("received {} 50,51", "00".repeat(1000));
    let others =
        ["arrived 0 0 7 -", "set 7 ok", &stray, "shaken 7 ok", "finished 7", "signal fast"];
    let lines: Vec<String> = binds.chain(others.map(str::to_owned)).collect();
    // At the signal, at the end of the connection, at the stray, and at the arrival.
    for after in [0, 1, 3, 5] {
        let (whole, _) = run_short(&lines, after, MOST);
        assert_eq!(whole[1..], [42, 1]);
        let mut waited = 0;
        for before in 0..MOST {
            let (told, is_short) = run_short(&lines, after, before);
            assert_eq!(told, whole, "allocation {before}, {after} events before the end");
            if !is_short {
                break;
            }
            waited += 1;
        }
        assert!(waited > 0, "{after} events before the end");
    }
}

/// So many connections of the one service come, are served and end, by the numbers that `next` gives.
fn serve(core: &mut RunningCore, count: u64, mut next: impl FnMut() -> u64) {
    for _ in 0..count {
        let connection = next();
        let peer = Peer::Unknown;
        for event in [
            Event::Arrived { service: 0, endpoint: 0, connection, peer },
            Event::SettingsApplied { connection },
            Event::HandshakeDone { connection },
            Event::Finished { connection },
        ] {
            core.step(&event).expect("it fits");
        }
    }
}

/// How many bytes more the core holds once so many connections have come and ended: none is live then.
fn left_by(count: u64, mut next: impl FnMut() -> u64) -> usize {
    let mut core = serving();
    serve(&mut core, 1000, &mut next);
    let before = HELD.get();
    serve(&mut core, count, &mut next);
    HELD.get().saturating_sub(before)
}

/// More than this isn't left by whatever a server has served.
const MOST_LEFT: usize = 64 << 10;

/// A server's memory doesn't grow with what it has served, where numbers ascend and none is left out, as those of
/// `Numbers`: a byte or two of each connection would be seen.
#[test]
fn connections_leave_nothing() {
    let mut numbers = Numbers::new();
    let left = left_by(50_000, || numbers.take());
    assert!(left < MOST_LEFT, "{left} bytes");
}

/// The core knows the numbers that came by their ranges. A host that leaves out each second one has as many ranges as
/// connections: so the memory grows that the test above doesn't see grow, and would with a core that kept each number.
#[test]
fn numbers_that_leave_gaps_stay() {
    let mut numbers = Numbers::new();
    let with_gaps = || {
        let _left_out = numbers.take();
        numbers.take()
    };
    let left = left_by(50_000, with_gaps);
    assert!(left > 8 * 50_000, "{left} bytes");
}

#[test]
#[ignore = "it takes half a minute, so it is run of an optimized build alone"]
fn ten_million_connections_leave_nothing() {
    let mut numbers = Numbers::new();
    let left = left_by(10_000_000, || numbers.take());
    assert!(left < MOST_LEFT, "{left} bytes");
}
