//! An HTTP reverse proxy: asks go in turn to the upstreams that answer. It listens once one of them does.

use clap::Parser;
use fulltimehen_server::{
    Connection, Opt, Server, Succession, Task, background, connect, listening,
};
use hyper::{Body, Client, HeaderMap, Request, Response, Uri, Version};
use hyper::{server::conn::Http, service::service_fn};
use std::net::SocketAddr;
use std::sync::Arc;
use std::sync::atomic::{AtomicBool, AtomicUsize, Ordering::Relaxed};
use std::time::Duration;
use tokio::time::timeout;

#[derive(Parser)]
#[command(version, about = "Hands HTTP asks to the upstreams that answer")]
struct Words {
    #[command(flatten)]
    server: Opt,
    /// Where it listens
    #[arg(long, default_value = "127.0.0.1:8080")]
    listen: String,
    /// Where it says that it is ready, to whoever connects
    #[arg(long, default_value = "127.0.0.1:8081")]
    ready: String,
    #[arg(required = true, help = "Where the asks go")]
    upstreams: Vec<SocketAddr>,
}

struct Proxy {
    upstreams: Vec<(SocketAddr, String, AtomicBool)>,
    next: AtomicUsize,
    client: Client<hyper::client::HttpConnector>,
}

/// What is said between two neighbours, and doesn't go further.
fn drop_hops(headers: &mut HeaderMap) {
    let listed = headers.get_all("connection").iter().filter_map(|list| list.to_str().ok());
    let listed = listed.collect::<Vec<_>>().join(",");
    let fixed = "connection,keep-alive,proxy-connection,te,transfer-encoding,upgrade";
    for name in listed.split(',').chain(fixed.split(',')) {
        headers.remove(name.trim());
    }
}

impl Proxy {
    /// The next upstream that answers.
    fn next(&self) -> Option<&(SocketAddr, String, AtomicBool)> {
        let (first, all) = (self.next.fetch_add(1, Relaxed), self.upstreams.len());
        let mut turn = (0..all).map(|at| &self.upstreams[(first % all + at) % all]);
        turn.find(|(_, _, answers)| answers.load(Relaxed))
    }

    async fn answer(
        self: Arc<Self>,
        mut ask: Request<Body>,
    ) -> hyper::http::Result<Response<Body>> {
        drop_hops(ask.headers_mut());
        *ask.version_mut() = Version::HTTP_11;
        if let Some((_, begin, answers)) = self.next() {
            let path = ask.uri().path_and_query().map_or("/", |it| it.as_str());
            *ask.uri_mut() = Uri::try_from([begin, path].concat())?;
            match self.client.request(ask).await {
                Ok(mut answer) => {
                    drop_hops(answer.headers_mut());
                    return Ok(answer);
                }
                Err(error) => answers.store(!error.is_connect(), Relaxed),
            }
        }
        Response::builder().status(502).body(Body::from("no upstream answers\n"))
    }

    /// Serves a connection's asks until it ends. When the server shuts down, that is after the present one.
    async fn serve(self: Arc<Self>, mut client: Connection) -> hyper::Result<()> {
        client.set_idle_timeout(Some(Duration::from_secs(75)));
        let mut shutdown = client.shutdown_signal();
        let service = service_fn(move |ask| Arc::clone(&self).answer(ask));
        let served = Http::new().http1_only(true).serve_connection(client, service);
        tokio::pin!(served);
        tokio::select! {
            answer = served.as_mut() => return answer,
            () = shutdown.begins() => served.as_mut().graceful_shutdown(),
        }
        served.await
    }

    /// Looks each second which upstreams take connections.
    async fn look_after(self: Arc<Self>, task: Task) {
        loop {
            for (address, _, answers) in &self.upstreams {
                let is_there = connect(*address, Duration::from_millis(500)).await.is_ok();
                answers.store(is_there, Relaxed);
                is_there.then(|| task.ready());
            }
            if timeout(Duration::from_secs(1), task.shutdown()).await.is_ok() {
                return;
            }
        }
    }
}

fn main() {
    let words = Words::parse();
    let upstream = |it: &SocketAddr| (*it, format!("http://{it}"), AtomicBool::new(false));
    let upstreams = words.upstreams.iter().map(upstream).collect();
    let proxy = Arc::new(Proxy { upstreams, next: AtomicUsize::new(0), client: Client::new() });
    let looking = Arc::clone(&proxy);
    let mut server = Server::new(words.server).unwrap_or_else(|error| error.exit());
    server.succession(Succession::new());
    let health = background("health", move |task| Arc::clone(&looking).look_after(task));
    let health = server.add_service(health);
    let http = listening("http", move |client| Arc::clone(&proxy).serve(client));
    let http = server.add_service(http.tcp(&words.listen).descriptors(2));
    let ready = server.add_service(listening("ready", |_| async {}).tcp(&words.ready));
    http.add_dependency(&health).expect("both are of this server");
    ready.add_dependency(&health).expect("both are of this server");
    server.run_forever()
}
