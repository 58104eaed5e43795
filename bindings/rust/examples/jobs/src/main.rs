//! Periodic jobs. The report waits for the first run of the collection, and no run of either is cut short: when
//! the server shuts down, a job ends between two runs.

use fulltimehen_server::{Opt, Server, Succession, Task, background};
use std::sync::Arc;
use std::sync::atomic::{AtomicU64, Ordering::Relaxed};
use std::time::Duration;
use tokio::time::{Instant, MissedTickBehavior, interval_at, sleep};

/// Runs the job in each period, from now on, until the server shuts down.
async fn every(period: Duration, task: Task, job: impl AsyncFn()) {
    let mut ticks = interval_at(Instant::now(), period);
    // A run that takes longer than a period isn't followed by two at once.
    ticks.set_missed_tick_behavior(MissedTickBehavior::Skip);
    loop {
        tokio::select! {
            biased;
            () = task.shutdown() => return,
            _ = ticks.tick() => {}
        }
        job().await;
        task.ready();
    }
}

fn main() {
    let collected = Arc::new(AtomicU64::new(0));
    let counted = Arc::clone(&collected);
    let collect = background("collect", move |task| {
        let counted = Arc::clone(&counted);
        every(Duration::from_millis(500), task, async move || {
            sleep(Duration::from_millis(200)).await;
            println!("collected {}", counted.fetch_add(1, Relaxed) + 1);
        })
    });
    let report = background("report", move |task| {
        let collected = Arc::clone(&collected);
        every(Duration::from_secs(1), task, async move || {
            println!("reported {}", collected.load(Relaxed));
        })
    });
    let mut server = Server::new(Opt::parse_args()).unwrap_or_else(|error| error.exit());
    server.succession(Succession::new());
    let collect = server.add_service(collect);
    let report = server.add_service(report);
    report.add_dependency(&collect).expect("the services are of this server");
    server.run_forever()
}
