//! An echo server over epoll with one thread, and the clients that ask it and others: built by `rustc -O plain.rs`.
//!
//! plain serve PORT; plain new PORT SECONDS THREADS; plain open PORT SECONDS CONNECTIONS; plain bulk PORT MEGABYTES;
//! plain times PORT ASKS; plain hold PORT CONNECTIONS; plain lost PORT CLIENTS, which ask on new connections until standard
//! input ends. Each client prints one line of numbers.

use std::collections::HashMap;
use std::env;
use std::io::{ErrorKind, Read, Write, stdin};
use std::net::{SocketAddr, TcpListener, TcpStream};
use std::os::fd::{AsRawFd, RawFd};
use std::sync::atomic::{AtomicBool, Ordering};
use std::thread;
use std::time::{Duration, Instant};

#[repr(C, packed)]
#[derive(Clone, Copy)]
struct Event {
    events: u32,
    data: u64,
}

unsafe extern "C" {
    fn epoll_create1(flags: i32) -> i32;
    fn epoll_ctl(epoll: i32, operation: i32, fd: i32, event: *mut Event) -> i32;
    fn epoll_wait(epoll: i32, events: *mut Event, most: i32, timeout: i32) -> i32;
}

const ADD: i32 = 1;
const IN: u32 = 1;
const OUT: u32 = 4;
const EDGE: u32 = 1 << 31;

/// Watches a descriptor, which the system tells once each time it becomes ready.
fn watch(epoll: i32, fd: RawFd) {
    let mut event = Event { events: IN | OUT | EDGE, data: fd as u64 };
    assert_eq!(unsafe { epoll_ctl(epoll, ADD, fd, &mut event) }, 0, "a descriptor can't be watched");
}

/// A connection, with what its stream hasn't taken yet.
struct Connection {
    stream: TcpStream,
    left: Vec<u8>,
}

impl Connection {
    /// Writes back what is there. Answers whether the connection goes on.
    fn echo(&mut self, room: &mut [u8]) -> std::io::Result<bool> {
        loop {
            while !self.left.is_empty() {
                let count = self.stream.write(&self.left)?;
                self.left.drain(..count);
            }
            let count = self.stream.read(room)?;
            if count == 0 {
                return Ok(false);
            }
            let written = match self.stream.write(&room[..count]) {
                Ok(written) => written,
                Err(error) if error.kind() == ErrorKind::WouldBlock => 0,
                Err(error) => return Err(error),
            };
            self.left.extend_from_slice(&room[written..count]);
        }
    }
}

fn serve(port: u16) {
    let listener = TcpListener::bind(("127.0.0.1", port)).expect("the port");
    listener.set_nonblocking(true).expect("a listener that doesn't wait");
    let epoll = unsafe { epoll_create1(0) };
    watch(epoll, listener.as_raw_fd());
    let mut connections = HashMap::new();
    let mut events = [Event { events: 0, data: 0 }; 256];
    let mut room = vec![0u8; 16384];
    loop {
        let count = unsafe { epoll_wait(epoll, events.as_mut_ptr(), 256, -1) }.max(0) as usize;
        for event in events[..count].iter().copied() {
            let fd = event.data as RawFd;
            if fd == listener.as_raw_fd() {
                while let Ok((stream, _)) = listener.accept() {
                    stream.set_nonblocking(true).expect("a stream that doesn't wait");
                    let fd = stream.as_raw_fd();
                    watch(epoll, fd);
                    connections.insert(fd, Connection { stream, left: Vec::new() });
                }
            } else if let Some(connection) = connections.get_mut(&fd) {
                match connection.echo(&mut room) {
                    Ok(true) => {}
                    Err(error) if error.kind() == ErrorKind::WouldBlock => {}
                    Ok(false) | Err(_) => drop(connections.remove(&fd)),
                }
            }
        }
    }
}

fn connected(port: u16) -> TcpStream {
    let stream = TcpStream::connect(SocketAddr::from(([127, 0, 0, 1], port))).expect("a connection");
    stream.set_nodelay(true).expect("no delay");
    stream
}

/// Asks once, and gives up the program where the answer is another one.
fn ask(stream: &mut TcpStream) {
    let mut answer = [0u8; 4];
    stream.write_all(b"word").expect("a word");
    stream.read_exact(&mut answer).expect("an answer");
    assert_eq!(&answer, b"word");
}

/// Asks once on a new connection, which may take ten seconds at each step. Answers whether the word came back.
fn is_answered(port: u16) -> bool {
    let patience = Duration::from_secs(10);
    let mut answer = [0u8; 4];
    let asked = TcpStream::connect_timeout(&SocketAddr::from(([127, 0, 0, 1], port)), patience).and_then(|mut stream| {
        stream.set_read_timeout(Some(patience))?;
        stream.write_all(b"word")?;
        stream.read_exact(&mut answer)
    });
    asked.is_ok() && &answer == b"word"
}

/// How many asks so many clients make until standard input ends, how many of them are lost, and the longest one's
/// milliseconds.
fn lost(port: u16, clients: usize) -> (u64, u64, u128) {
    let is_over = AtomicBool::new(false);
    thread::scope(|scope| {
        let started: Vec<_> = (0..clients)
            .map(|_| {
                scope.spawn(|| {
                    let (mut asked, mut lost, mut longest) = (0, 0, 0);
                    while !is_over.load(Ordering::SeqCst) {
                        let begun = Instant::now();
                        asked += 1;
                        lost += u64::from(!is_answered(port));
                        longest = longest.max(begun.elapsed().as_millis());
                    }
                    (asked, lost, longest)
                })
            })
            .collect();
        let _ = stdin().read(&mut [0u8; 1]);
        is_over.store(true, Ordering::SeqCst);
        started.into_iter().map(|thread| thread.join().expect("a thread")).fold((0, 0, 0), |all, one| {
            (all.0 + one.0, all.1 + one.1, all.2.max(one.2))
        })
    })
}

/// How many asks a second so many threads make, each by a function that is called until the time is over.
fn rate(seconds: f64, threads: usize, make: impl Fn() -> Box<dyn FnMut()> + Sync) -> f64 {
    let begun = Instant::now();
    let ends = begun + Duration::from_secs_f64(seconds);
    let counts: Vec<u64> = thread::scope(|scope| {
        let started: Vec<_> = (0..threads)
            .map(|_| {
                scope.spawn(|| {
                    let mut one = make();
                    let mut count = 0;
                    while Instant::now() < ends {
                        one();
                        count += 1;
                    }
                    count
                })
            })
            .collect();
        started.into_iter().map(|thread| thread.join().expect("a thread")).collect()
    });
    counts.iter().sum::<u64>() as f64 / begun.elapsed().as_secs_f64()
}

/// Megabytes a second that come back on one connection.
fn bulk(port: u16, megabytes: usize) -> f64 {
    let stream = connected(port);
    let begun = Instant::now();
    thread::scope(|scope| {
        scope.spawn(|| {
            let piece = vec![7u8; 1 << 20];
            let mut to = &stream;
            for _ in 0..megabytes {
                to.write_all(&piece).expect("a piece");
            }
        });
        let mut room = vec![0u8; 1 << 16];
        let mut left = megabytes << 20;
        let mut from = &stream;
        while left > 0 {
            left -= from.read(&mut room).expect("bytes");
        }
    });
    megabytes as f64 / begun.elapsed().as_secs_f64()
}

/// The median and the 99th percentile of asks, a millisecond apart, in microseconds.
fn times(port: u16, asks: usize) -> (u128, u128) {
    let mut stream = connected(port);
    let mut taken: Vec<u128> = (0..asks)
        .map(|_| {
            thread::sleep(Duration::from_millis(1));
            let begun = Instant::now();
            ask(&mut stream);
            begun.elapsed().as_micros()
        })
        .collect();
    taken.sort();
    (taken[asks / 2], taken[asks * 99 / 100])
}

fn main() {
    let words: Vec<String> = env::args().skip(1).collect();
    let port = words[1].parse().expect("a port");
    let number = |at: usize| words[at].parse::<f64>().expect("a number");
    match words[0].as_str() {
        "serve" => serve(port),
        "new" => {
            let one = move || Box::new(move || ask(&mut connected(port))) as Box<dyn FnMut()>;
            println!("{}", rate(number(2), number(3) as usize, one));
        }
        "open" => {
            let one = move || {
                let mut stream = connected(port);
                Box::new(move || ask(&mut stream)) as Box<dyn FnMut()>
            };
            println!("{}", rate(number(2), number(3) as usize, one));
        }
        "bulk" => println!("{}", bulk(port, number(2) as usize)),
        "times" => {
            let (middle, late) = times(port, number(2) as usize);
            println!("{middle} {late}");
        }
        "lost" => {
            let (asked, lost, longest) = lost(port, number(2) as usize);
            println!("{asked} {lost} {longest}");
        }
        "hold" => {
            let held: Vec<TcpStream> = (0..number(2) as usize).map(|_| connected(port)).collect();
            println!("{}", held.len());
            let _ = stdin().read(&mut [0u8; 1]);
        }
        _ => panic!("no such word"),
    }
}
