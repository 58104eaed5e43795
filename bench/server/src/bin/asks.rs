//! A load client: `asks KIND ADDRESS CLIENTS SECONDS`. So many clients ask without a pause. KIND is `tcp` (32 bytes that come back, on
//! a connection of their own), `http` (an ask on a connection of its own), `keep` (asks on one connection), or `idle` (so many
//! connections, of which each has 32 bytes come back, and which then stay until standard input ends).
//!
//! It prints a line of JSON: how many asks, how many went wrong, and the latencies in microseconds.

use std::env;
use std::io::{self, Read};
use std::net::SocketAddr;
use std::time::{Duration, Instant};
use tokio::io::{AsyncReadExt, AsyncWriteExt};
use tokio::net::TcpStream;

const WORD: &[u8; 32] = b"0123456789abcdef0123456789abcdef";
/// As the word, and the connection stays.
const KEPT_WORD: &[u8; 32] = b"k123456789abcdef0123456789abcdef";
/// How many idle connections are opened at once.
const OPENERS: usize = 64;
const ASK: &[u8] = b"GET / HTTP/1.1\r\nHost: bench\r\n\r\n";
const LAST_ASK: &[u8] = b"GET / HTTP/1.1\r\nHost: bench\r\nConnection: close\r\n\r\n";

async fn connect(address: SocketAddr) -> io::Result<TcpStream> {
    let stream = TcpStream::connect(address).await?;
    stream.set_nodelay(true)?;
    Ok(stream)
}

fn wrong() -> io::Error {
    io::ErrorKind::InvalidData.into()
}

async fn tcp(stream: &mut TcpStream, word: &[u8; 32]) -> io::Result<()> {
    stream.write_all(word).await?;
    let mut got = [0; 32];
    stream.read_exact(&mut got).await?;
    if got == *word { Ok(()) } else { Err(wrong()) }
}

/// The other side closes first, so that no port is taken by connections of before.
async fn ended(stream: &mut TcpStream) -> io::Result<()> {
    match stream.read(&mut [0; 1]).await? {
        0 => Ok(()),
        _ => Err(wrong()),
    }
}

/// An ask of HTTP, whose answer ends with the word.
async fn http(stream: &mut TcpStream, ask: &[u8]) -> io::Result<()> {
    stream.write_all(ask).await?;
    let (mut answer, mut length) = ([0; 2048], 0);
    loop {
        let count = stream.read(&mut answer[length..]).await?;
        length += count;
        let text = &answer[..length];
        if text.windows(4).any(|four| four == b"\r\n\r\n") && text.ends_with(WORD) {
            return if text.starts_with(b"HTTP/1.1 200") { Ok(()) } else { Err(wrong()) };
        }
        if count == 0 {
            return Err(io::ErrorKind::UnexpectedEof.into());
        }
    }
}

async fn work(kind: String, address: SocketAddr, end: Instant) -> (Vec<u32>, u64, String) {
    let (mut took, mut failed, mut why) = (Vec::new(), 0, String::new());
    let mut kept = None;
    while Instant::now() < end {
        let begun = Instant::now();
        let asked = async {
            match kind.as_str() {
                "tcp" => {
                    let mut stream = connect(address).await?;
                    tcp(&mut stream, WORD).await?;
                    ended(&mut stream).await
                }
                "http" => {
                    let mut stream = connect(address).await?;
                    http(&mut stream, LAST_ASK).await?;
                    ended(&mut stream).await
                }
                _ => {
                    let mut stream = match kept.take() {
                        Some(stream) => stream,
                        None => connect(address).await?,
                    };
                    http(&mut stream, ASK).await?;
                    kept = Some(stream);
                    Ok(())
                }
            }
        };
        match asked.await {
            Ok(()) => took.push(begun.elapsed().as_micros() as u32),
            Err(error) => {
                failed += 1;
                why = error.to_string();
            }
        }
    }
    (took, failed, why)
}

/// Opens so many connections one after the other.
async fn open(address: SocketAddr, count: usize) -> Vec<TcpStream> {
    let mut held = Vec::new();
    for _ in 0..count {
        let mut stream = connect(address).await.expect("a connection");
        tcp(&mut stream, KEPT_WORD).await.expect("an answer");
        held.push(stream);
    }
    held
}

/// Holds so many connections, which as many as `OPENERS` open at once.
async fn idle(address: SocketAddr, count: usize) {
    let share = |at: usize| (count + at) / OPENERS;
    let openers: Vec<_> = (0..OPENERS).map(|at| tokio::spawn(open(address, share(at)))).collect();
    let mut held = Vec::new();
    for opener in openers {
        held.push(opener.await.expect("connections"));
    }
    println!("{{\"held\":{count}}}");
    _ = io::stdin().read_to_end(&mut Vec::new());
    drop(held);
}

#[tokio::main(flavor = "multi_thread", worker_threads = 2)]
async fn main() {
    let words: Vec<String> = env::args().collect();
    let address = words[2].parse().unwrap();
    let clients = words[3].parse().unwrap();
    if words[1] == "idle" {
        return idle(address, clients).await;
    }
    let end = Instant::now() + Duration::from_secs_f64(words[4].parse().unwrap());
    let begun = Instant::now();
    let tasks = (0..clients).map(|_| tokio::spawn(work(words[1].clone(), address, end)));
    let (mut took, mut failed, mut why) = (Vec::new(), 0, String::new());
    for task in tasks.collect::<Vec<_>>() {
        let (some, wrong, text) = task.await.unwrap();
        took.extend(some);
        failed += wrong;
        why += &text;
    }
    took.sort_unstable();
    let at = |part: f64| took.get((took.len() as f64 * part) as usize).copied().unwrap_or(0);
    let seconds = begun.elapsed().as_secs_f64();
    println!(
        "{{\"asks\":{},\"per_second\":{:.0},\"failed\":{failed},\"p50\":{},\"p99\":{},\"why\":{:?}}}",
        took.len(),
        took.len() as f64 / seconds,
        at(0.5),
        at(0.99),
        why.get(..60).unwrap_or(&why)
    );
}
