//! A TCP forwarder: each connection is forwarded to the upstream, both ways, until both sides have ended.
//!
//! `kill -QUIT` has a new program take over, started from the same file, without a lost connection.

use clap::Parser;
use fulltimehen_server::{Opt, Server, ServerError, Succession, connect, listening, relay};
use std::net::SocketAddr;
use std::time::Duration;

/// Forwards TCP connections.
#[derive(Parser)]
#[command(version)]
struct Words {
    #[command(flatten)]
    server: Opt,
    /// Where it listens
    listen: String,
    /// Where the connections go
    upstream: SocketAddr,
    /// How many seconds connections that are open may go on at the end
    #[arg(long, value_name = "SECONDS")]
    grace: Option<u64>,
    /// After how many seconds without a byte a connection is over
    #[arg(long, value_name = "SECONDS", default_value_t = 3600)]
    idle: u64,
    /// How many threads work
    #[arg(long)]
    threads: Option<u64>,
    /// The file that says which process serves
    #[arg(long, value_name = "FILE")]
    pid_file: Option<String>,
    /// The socket over which the listening sockets go to the next program
    #[arg(long, value_name = "PATH")]
    upgrade_sock: Option<String>,
}

fn server(words: &Words) -> Result<Server, ServerError> {
    let mut server = Server::new(words.server.clone())?;
    let configuration = &mut server.configuration;
    configuration.grace_period_seconds = words.grace.or(configuration.grace_period_seconds);
    configuration.threads = words.threads.unwrap_or(configuration.threads);
    if let Some(path) = &words.pid_file {
        configuration.pid_file.clone_from(path);
    }
    if let Some(path) = &words.upgrade_sock {
        configuration.upgrade_sock.clone_from(path);
    }
    server.succession(Succession::new());
    let (upstream, idle) = (words.upstream, Duration::from_secs(words.idle));
    let forward = listening("forward", move |mut client| async move {
        client.set_idle_timeout(Some(idle));
        let relayed = async {
            let mut server = connect(upstream, Duration::from_secs(10)).await?;
            relay(&mut client, &mut server).await
        };
        let relayed = relayed.await;
        if relayed.is_err() {
            // What the client got isn't all.
            client.reset();
        }
        relayed
    });
    server.add_service(forward.tcp(&words.listen).descriptors(2));
    Ok(server)
}

fn main() {
    let words = Words::parse();
    server(&words).unwrap_or_else(|error| error.exit()).run_forever()
}
