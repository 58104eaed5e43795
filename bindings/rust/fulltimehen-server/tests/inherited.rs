//! A server that a service manager started with a listening socket. The program runs itself as that server, which
//! is why it has no harness: with one thread alone the environment can be changed.

use fulltimehen_server::{Outcome, RunArgs, Server, Signal, listening};
use std::io::Read;
use std::net::{TcpListener, TcpStream};
use std::os::fd::{AsRawFd, OwnedFd};
use std::process::{Child, Command, Stdio};
use std::time::Duration;
use std::{env, fs, thread};
use tokio::io::AsyncWriteExt;
use tokio::sync::mpsc;

const NAMES: [&str; 3] = ["LISTEN_PID", "LISTEN_FDS", "LISTEN_FDNAMES"];

/// The server, which takes the socket.
fn serve(address: &str) {
    assert!(NAMES[..2].iter().all(|name| env::var_os(name).is_some()));
    let mut server = Server::new(None).unwrap();
    assert!(NAMES[..2].iter().all(|name| env::var_os(name).is_none()));
    let (operator, signals) = mpsc::channel(1);
    let hello = listening("hello", move |mut connection| {
        let operator = operator.clone();
        async move {
            connection.write_all(b"hello").await.unwrap();
            operator.send(Signal::Terminate).await.unwrap();
        }
    });
    server.add_service(hello.tcp(address));
    assert_eq!(server.run(RunArgs::default().signals(signals)).unwrap(), Outcome::Served);
}

/// A server that is made beside a thread: the environment stays as it is, and so does the socket.
fn leave() {
    let (_wake, waits) = std::sync::mpsc::channel::<()>();
    thread::spawn(move || waits.recv());
    let socket = || fs::read_link("/proc/self/fd/3").unwrap();
    let before = socket();
    let mut server = Server::new(None).unwrap();
    server.add_service(listening("hello", |_| async {}).tcp("127.0.0.1:0"));
    let (operator, signals) = mpsc::channel(1);
    operator.blocking_send(Signal::Terminate).unwrap();
    assert_eq!(server.run(RunArgs::default().signals(signals)).unwrap(), Outcome::Served);
    assert!(NAMES.iter().all(|name| env::var_os(name).is_some()));
    assert_eq!(socket(), before);
}

/// A program that has a file and a socket of its own where the environment says sockets are: it keeps them.
fn own_file() {
    let mut file = fs::File::open("/proc/self/status").unwrap();
    let listener = TcpListener::bind("127.0.0.1:0").unwrap();
    assert!([file.as_raw_fd(), listener.as_raw_fd()].iter().all(|fd| (3..103).contains(fd)));
    drop(Server::new(None).unwrap());
    file.read_to_string(&mut String::new()).unwrap();
    listener.local_addr().unwrap();
}

/// Starts this program with that word, with the listener as what a service manager passes, if there is one.
fn begin(word: &str, address: &str, listener: Option<TcpListener>) -> Child {
    let (passed, count) = match listener.is_some() {
        true => ("exec 3<&0 </dev/null", 1),
        false => (":", 100),
    };
    let code = "exec \"$0\" serve \"$1\" \"$2\"";
    let stdin = listener.map_or(Stdio::null(), |listener| OwnedFd::from(listener).into());
    Command::new("sh")
        .args([
            "-c",
            &format!("{passed}; LISTEN_PID=$$ LISTEN_FDS={count} LISTEN_FDNAMES=web {code}"),
        ])
        .arg(env::current_exe().unwrap())
        .args([address, word])
        .stdin(stdin)
        .spawn()
        .unwrap()
}

fn main() {
    let words: Vec<String> = env::args().collect();
    if let [_, word, address, how] = words.as_slice()
        && word == "serve"
    {
        return match how.as_str() {
            "alone" => serve(address),
            "threads" => leave(),
            _ => own_file(),
        };
    }
    for how in ["alone", "threads", "own file"] {
        let own = TcpListener::bind("127.0.0.1:0").unwrap();
        let address = own.local_addr().unwrap().to_string();
        let mut child = begin(how, &address, (how != "own file").then_some(own));
        if how == "alone" {
            // It listens already, so nobody is refused.
            let mut stream = TcpStream::connect(&address).unwrap();
            stream.set_read_timeout(Some(Duration::from_secs(90))).unwrap();
            let mut answer = String::new();
            stream.read_to_string(&mut answer).unwrap();
            assert_eq!(answer, "hello");
        }
        assert!(child.wait().unwrap().success(), "{how}");
        println!("a socket of a service manager, {how}: ok");
    }
}
