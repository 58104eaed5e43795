//! The example `forward` written straight on tokio: `plain_forward LISTEN UPSTREAM THREADS`.

use std::env;
use std::net::SocketAddr;
use tokio::io::copy_bidirectional;
use tokio::net::{TcpListener, TcpStream};
use tokio::runtime::Builder;

fn main() {
    let words: Vec<String> = env::args().collect();
    let upstream: SocketAddr = words[2].parse().unwrap();
    let threads = words[3].parse().unwrap();
    let runtime = Builder::new_multi_thread().worker_threads(threads).enable_all().build().unwrap();
    runtime.block_on(async move {
        let listener = TcpListener::bind(&words[1]).await.unwrap();
        tokio::spawn(async move {
            loop {
                let Ok((mut client, _)) = listener.accept().await else { continue };
                tokio::spawn(async move {
                    _ = client.set_nodelay(true);
                    let Ok(mut server) = TcpStream::connect(upstream).await else { return };
                    _ = server.set_nodelay(true);
                    _ = copy_bidirectional(&mut client, &mut server).await;
                });
            }
        })
        .await
        .unwrap();
    });
}
