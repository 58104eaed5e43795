//! The example `proxy` written straight on tokio and hyper, without its health checks and its end:
//! `plain_proxy LISTEN THREADS UPSTREAM ..`.

use hyper::server::conn::Http;
use hyper::service::service_fn;
use hyper::{Body, Client, HeaderMap, Request, Response, Uri, Version};
use std::env;
use std::sync::Arc;
use std::sync::atomic::{AtomicUsize, Ordering::Relaxed};
use std::time::Duration;
use tokio::net::TcpListener;
use tokio::runtime::Builder;

/// What is said between two neighbours, and doesn't go further.
fn drop_hops(headers: &mut HeaderMap) {
    let listed = headers.get_all("connection").iter().filter_map(|list| list.to_str().ok());
    let listed = listed.collect::<Vec<_>>().join(",");
    let fixed = "connection,keep-alive,proxy-connection,te,transfer-encoding,upgrade";
    for name in listed.split(',').chain(fixed.split(',')) {
        headers.remove(name.trim());
    }
}

fn main() {
    let words: Vec<String> = env::args().collect();
    let threads = words[2].parse().unwrap();
    let upstreams: Arc<Vec<String>> = Arc::new(words[3..].to_vec());
    let runtime = Builder::new_multi_thread().worker_threads(threads).enable_all().build().unwrap();
    runtime.block_on(async move {
        let listener = TcpListener::bind(&words[1]).await.unwrap();
        let (client, next) = (Client::new(), Arc::new(AtomicUsize::new(0)));
        tokio::spawn(async move {
            loop {
                let Ok((stream, _)) = listener.accept().await else { continue };
                _ = stream.set_nodelay(true);
                let (client, next) = (client.clone(), Arc::clone(&next));
                let upstreams = Arc::clone(&upstreams);
                let service = service_fn(move |mut ask: Request<Body>| {
                    let upstream = &upstreams[next.fetch_add(1, Relaxed) % upstreams.len()];
                    let path = ask.uri().path_and_query().map_or("/", |it| it.as_str());
                    let uri = Uri::try_from(format!("http://{upstream}{path}")).unwrap();
                    *ask.uri_mut() = uri;
                    *ask.version_mut() = Version::HTTP_11;
                    drop_hops(ask.headers_mut());
                    let answer = client.request(ask);
                    async move {
                        let mut answer = answer.await?;
                        drop_hops(answer.headers_mut());
                        Ok::<Response<Body>, hyper::Error>(answer)
                    }
                });
                let mut http = Http::new();
                http.http1_only(true).http1_header_read_timeout(Duration::from_secs(75));
                tokio::spawn(http.serve_connection(stream, service));
            }
        })
        .await
        .unwrap();
    });
}
