//! What is forwarded to: `upstream ECHO HTTP`. At the one address what comes goes back, and the
//! connection ends, unless the first byte is `k`; at the other one each ask
//! of HTTP is answered by 32 bytes.

use hyper::server::conn::Http;
use hyper::service::service_fn;
use hyper::{Body, Response};
use std::convert::Infallible;
use std::env;
use tokio::io::{AsyncReadExt, AsyncWriteExt};
use tokio::net::TcpListener;

async fn echo(listener: TcpListener) {
    loop {
        let Ok((mut stream, _)) = listener.accept().await else { continue };
        tokio::spawn(async move {
            _ = stream.set_nodelay(true);
            let mut bytes = [0; 1024];
            while let Ok(count) = stream.read(&mut bytes).await {
                if count == 0 || stream.write_all(&bytes[..count]).await.is_err() {
                    return;
                }
                if bytes[0] != b'k' {
                    // It closes first: no port of who connects is taken by connections of before.
                    return;
                }
            }
        });
    }
}

async fn answer(listener: TcpListener) {
    loop {
        let Ok((stream, _)) = listener.accept().await else { continue };
        _ = stream.set_nodelay(true);
        let service = service_fn(|_| async {
            Ok::<_, Infallible>(Response::new(Body::from("0123456789abcdef0123456789abcdef")))
        });
        tokio::spawn(Http::new().http1_only(true).serve_connection(stream, service));
    }
}

#[tokio::main(flavor = "multi_thread", worker_threads = 2)]
async fn main() {
    let words: Vec<String> = env::args().collect();
    let echoes = TcpListener::bind(&words[1]).await.unwrap();
    let answers = TcpListener::bind(&words[2]).await.unwrap();
    tokio::join!(tokio::spawn(echo(echoes)), tokio::spawn(answer(answers))).0.unwrap();
}
