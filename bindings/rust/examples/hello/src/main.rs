//! A server that greets one visitor and ends.

use fulltimehen::{Core, Event, FdId, Plan, Service, Signal};
use std::io::Write;
use std::net::TcpListener;

fn main() -> Result<(), Box<dyn std::error::Error>> {
    let address = "127.0.0.1:8080";
    let plan = Plan::new().service(Service::plain("hello").tcp(address));
    let mut core = Core::new(&plan)?.begin()?;
    // It tells the start of the service and asks for its address.
    print!("{}", core.last_told()?.record());
    let listener = TcpListener::bind(address)?;
    let bound = Event::Bound { service: 0, endpoint: 0, fd: FdId(3) };
    print!("{}", core.step(&bound)?.record());
    listener.accept()?.0.write_all(b"hello\n")?;
    // It tells that the descriptor is to be closed, and the end.
    let told = core.step(&Event::Signal { kind: Signal::Fast })?;
    drop(listener);
    let end = told.end().expect("the signal ends the run");
    println!("{}status {end}", told.record());
    Ok(())
}
