//! Who is let in.

use fulltimehen::{Core, Event, FdId, Peer, Plan, RunningCore, Service, Verdict};
use std::net::{Ipv4Addr, SocketAddr};

/// A core whose one service blocks 10.0.0.1, and is bound.
fn core(service: Service) -> RunningCore {
    let plan = Plan::new().service(service.tcp("127.0.0.1:80"));
    let mut core = Core::new(&plan).expect("a plan").begin().expect("memory");
    core.step(&Event::Bound { service: 0, endpoint: 0, fd: FdId(1) }).expect("it fits");
    core
}

fn arrived(connection: u64, peer: Peer) -> Event {
    Event::Arrived { service: 0, endpoint: 0, connection, peer }
}

fn is_accepted(core: &mut RunningCore, event: &Event) -> bool {
    let told = core.step(event).expect("it fits");
    told.record().contains(" yes\n")
}

fn blocking() -> Service {
    Service::plain("web").block("10.0.0.1".parse().expect("an address"))
}

/// A blocked peer is refused by a plain step, however its address is made.
#[test]
fn a_blocked_peer_is_refused() {
    let mut core = core(blocking());
    let mapped = Ipv4Addr::new(10, 0, 0, 1).to_ipv6_mapped();
    let mapped = SocketAddr::from((mapped, 5));
    for (connection, peer) in [
        "10.0.0.1:5".parse().expect("a peer"),
        Peer::Inet(mapped),
        Peer::from(mapped),
        "[::ffff:10.0.0.1]:5".parse().expect("a peer"),
        "[0:0:0:0:0:ffff:a00:1]:5".parse().expect("a peer"),
    ]
    .into_iter()
    .enumerate()
    {
        let event = arrived(connection as u64, peer);
        assert_eq!(core.check(&event).expect("it fits").verdict, Verdict::Refuse, "{peer:?}");
        assert!(!is_accepted(&mut core, &event), "{peer:?}");
    }
    for (connection, peer) in ["10.0.0.2:5", "[::a00:1]:5", "unix"].into_iter().enumerate() {
        let event = arrived(10 + connection as u64, peer.parse().expect("a peer"));
        assert!(is_accepted(&mut core, &event), "{peer}");
    }
}

/// An address that is blocked in its mapped form is blocked.
#[test]
fn a_block_is_canonical() {
    let mut core =
        core(Service::plain("web").block("::ffff:10.0.0.1".parse().expect("an address")));
    let peer = "10.0.0.1:5".parse().expect("a peer");
    assert!(!is_accepted(&mut core, &arrived(1, peer)));
}

/// A caller's own word counts at an arrival for which a filter is asked.
#[test]
fn a_judged_step_has_the_callers_word() {
    let mut core = core(blocking());
    let blocked = arrived(1, "10.0.0.1:5".parse().expect("a peer"));
    let told = core.step_judged(&blocked, Verdict::Accept).expect("it fits");
    assert!(told.record().contains("judged 1 yes\n"));
    let other = arrived(2, "10.0.0.2:5".parse().expect("a peer"));
    let told = core.step_judged(&other, Verdict::Refuse).expect("it fits");
    assert!(told.record().contains("judged 2 no\n"));
}

/// Only of the service that blocks it.
#[test]
fn another_service_lets_it_in() {
    let plan = Plan::new()
        .service(blocking().tcp("127.0.0.1:80"))
        .service(Service::plain("open").tcp("127.0.0.1:81"));
    let mut core = Core::new(&plan).expect("a plan").begin().expect("memory");
    for service in 0..2 {
        let fd = FdId(service.into());
        core.step(&Event::Bound { service, endpoint: 0, fd }).expect("it fits");
    }
    let peer: Peer = "10.0.0.1:5".parse().expect("a peer");
    for (service, accepts) in [(0, false), (1, true)] {
        let event = Event::Arrived { service, endpoint: 0, connection: service.into(), peer };
        assert_eq!(is_accepted(&mut core, &event), accepts);
    }
}
