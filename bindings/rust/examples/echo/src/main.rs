//! What comes on a connection goes back.

use fulltimehen_server::{Opt, Server, Succession, listening};
use tokio::io::{copy, split};

fn main() {
    let mut server = Server::new(Opt::parse_args()).unwrap_or_else(|error| error.exit());
    server.succession(Succession::new());
    let echo = listening("echo", |connection| async move {
        let (mut from, mut to) = split(connection);
        copy(&mut from, &mut to).await
    });
    server.add_service(echo.tcp("127.0.0.1:8080"));
    server.run_forever()
}
