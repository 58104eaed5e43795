//! Times steps through the library: a line for each round, with what was measured, the steps and the nanoseconds.
//! `bench/steps` holds it against the same steps inside Rattle.

use fulltimehen::{Core, Event, FdId, Peer, Plan, Service};
use std::time::Instant;

const CONNECTIONS: u64 = 50_000;
const MOMENTS: u64 = 200_000;
const ROUNDS: u64 = 9;

fn main() -> Result<(), Box<dyn std::error::Error>> {
    let plan = Plan::new().service(Service::plain("web").tcp("127.0.0.1:80"));
    for _ in 0..ROUNDS {
        let mut core = Core::new(&plan)?.begin()?;
        core.step(&Event::Bound { service: 0, endpoint: 0, fd: FdId(3) })?;
        let mut told = 0;

        let then = Instant::now();
        for _ in 0..MOMENTS {
            told += core.step(&Event::Moment { ms: 1 })?.actions().count();
        }
        println!("moments {MOMENTS} {}", then.elapsed().as_nanos());

        let then = Instant::now();
        for connection in 0..CONNECTIONS {
            let arrived =
                Event::Arrived { service: 0, endpoint: 0, connection, peer: Peer::Unknown };
            for event in [
                arrived,
                Event::SettingsApplied { connection },
                Event::HandshakeDone { connection },
                Event::Finished { connection },
            ] {
                told += core.step(&event)?.actions().count();
            }
        }
        println!("connections {} {}", 4 * CONNECTIONS, then.elapsed().as_nanos());
        assert_eq!(told as u64, 3 * CONNECTIONS);
    }
    Ok(())
}
