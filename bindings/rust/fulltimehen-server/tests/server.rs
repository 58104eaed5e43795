//! Servers of this process, with real sockets over loopback.

use fulltimehen_server::{
    Configuration, Connection, Opt, Outcome, Phase, RunArgs, Server, ServerError, Signal,
    Succession, Task, background, listening, listening_with_handshake,
};
use socket2::{Domain, SockAddr, Socket, Type};
use std::io::{self, ErrorKind, Read, Write};
use std::net::{Ipv4Addr, Shutdown, SocketAddr, TcpListener, TcpStream, ToSocketAddrs};
use std::os::fd::AsRawFd;
use std::os::unix::fs::PermissionsExt;
use std::os::unix::net::UnixStream;
use std::path::PathBuf;
use std::sync::atomic::{AtomicU32, Ordering};
use std::sync::mpsc::{Receiver, channel};
use std::thread::{self, JoinHandle};
use std::time::{Duration, Instant};
use std::{env, fs, process};
use tokio::io::{AsyncReadExt, AsyncWriteExt};
use tokio::sync::mpsc;

/// How long is waited for what is to come, however full the machine is.
const LONG: Duration = Duration::from_secs(90);

/// A server that runs on a thread of its own.
struct Running {
    operator: mpsc::Sender<Signal>,
    phases: Receiver<Phase>,
    thread: JoinHandle<Result<Outcome, ServerError>>,
}

fn start(grace: u64, build: impl FnOnce(&mut Server) + Send + 'static) -> Running {
    let (operator, signals) = mpsc::channel(8);
    let (tell, phases) = channel();
    let thread = thread::spawn(move || {
        let configuration = Configuration::new().grace_period_seconds(grace).threads(2_u64);
        let mut server = Server::new_with_opt_and_conf(None, configuration)?;
        build(&mut server);
        let mut seen = server.watch_execution_phase();
        thread::spawn(move || {
            let runtime = tokio::runtime::Builder::new_current_thread().build().unwrap();
            while let Ok(phase) = runtime.block_on(seen.recv()) {
                _ = tell.send(phase);
            }
        });
        server.run(RunArgs::default().signals(signals))
    });
    Running { operator, phases, thread }
}

impl Running {
    fn signal(&self, kind: Signal) {
        self.operator.blocking_send(kind).unwrap();
    }

    fn wait_for(&self, phase: Phase) {
        while self.phases.recv_timeout(LONG).unwrap() != phase {}
    }

    /// How the run ended, within a long time.
    fn end_within_long(self) -> Result<Outcome, ServerError> {
        let end = Instant::now() + LONG;
        while !self.thread.is_finished() {
            assert!(Instant::now() < end, "the run goes on");
            thread::sleep(Duration::from_millis(5));
        }
        self.thread.join().unwrap()
    }

    fn end(self) {
        self.signal(Signal::Terminate);
        assert_eq!(self.end_within_long().unwrap(), Outcome::Served);
    }
}

/// An address that nobody listens at: each once, and of none of the ports that connections get by themselves, so that none of
/// another test, nor the one that is made to it, takes it meanwhile.
fn free() -> String {
    static NEXT: AtomicU32 = AtomicU32::new(0);
    loop {
        let step = NEXT.fetch_add(1, Ordering::SeqCst);
        let port = 10_000 + (process::id().wrapping_mul(61).wrapping_add(step)) % 20_000;
        let address = SocketAddr::from((Ipv4Addr::LOCALHOST, u16::try_from(port).unwrap()));
        if TcpListener::bind(address).is_ok() {
            return address.to_string();
        }
    }
}

/// Whether this machine has addresses of IPv6.
fn has_ipv6() -> bool {
    TcpListener::bind("[::1]:0").is_ok()
}

/// A connection, as soon as somebody listens.
fn connect(address: &str) -> TcpStream {
    let end = Instant::now() + LONG;
    loop {
        match TcpStream::connect(address) {
            Ok(stream) => {
                stream.set_read_timeout(Some(LONG)).unwrap();
                return stream;
            }
            Err(error) if Instant::now() > end => panic!("{address}: {error}"),
            Err(_) => thread::sleep(Duration::from_millis(5)),
        }
    }
}

/// What comes back where the word is sent, to the end of the connection.
fn ask(address: &str, word: &str) -> String {
    let mut stream = connect(address);
    // It may be closed already.
    _ = stream.write_all(word.as_bytes());
    _ = stream.shutdown(Shutdown::Write);
    let mut answer = String::new();
    _ = stream.read_to_string(&mut answer);
    answer
}

async fn echo(mut connection: Connection) -> io::Result<()> {
    let mut word = Vec::new();
    connection.read_to_end(&mut word).await?;
    if word == b"panic" {
        panic!("as it was asked to");
    }
    connection.write_all(&word).await
}

#[test]
fn a_handler_that_panics_is_a_connection_that_is_over() {
    let address = free();
    let there = address.clone();
    let running = start(20, move |server| {
        server.add_service(listening("echo", echo).tcp(&there));
    });
    for _ in 0..3 {
        assert_eq!(ask(&address, "panic"), "");
        assert_eq!(ask(&address, "hello"), "hello");
    }
    running.end();
}

#[test]
fn background_work_that_panics_has_ended_and_what_depends_on_it_starts() {
    let address = free();
    let there = address.clone();
    let running = start(20, move |server| {
        async fn fails(task: Task) {
            panic!("{} fails, as it is to", task.name());
        }
        let cache = server.add_service(background("cache", fails));
        let web = server.add_service(listening("echo", echo).tcp(&there));
        web.add_dependency(&cache).unwrap();
    });
    assert_eq!(ask(&address, "hello"), "hello");
    running.end();
}

#[test]
fn a_service_listens_once_what_it_depends_on_is_ready() {
    let address = free();
    let there = address.clone();
    let (go, goes) = tokio::sync::watch::channel(false);
    let running = start(20, move |server| {
        let cache = background("cache", move |task| {
            let mut goes = goes.clone();
            async move {
                _ = goes.changed().await;
                task.ready();
                task.shutdown().await;
            }
        });
        let cache = server.add_service(cache);
        let web = server.add_service(listening("echo", echo).tcp(&there));
        web.add_dependency(&cache).unwrap();
    });
    running.wait_for(Phase::Running);
    thread::sleep(Duration::from_millis(200));
    let refused = TcpStream::connect(&address).unwrap_err();
    assert_eq!(refused.kind(), ErrorKind::ConnectionRefused);
    go.send(true).unwrap();
    assert_eq!(ask(&address, "hello"), "hello");
    running.end();
}

fn scratch(name: &str) -> PathBuf {
    // The path of a socket is short, wherever temporary files are.
    let folder = Some(env::temp_dir()).filter(|it| it.as_os_str().len() < 40);
    let folder = folder.unwrap_or("/tmp".into()).join(format!("fulltimehen-{}", process::id()));
    fs::create_dir_all(&folder).unwrap();
    folder.join(name)
}

#[test]
fn a_path_of_the_unix_domain_has_its_mode_and_goes_with_the_service() {
    let path = scratch("mode");
    let begin = |path: PathBuf| {
        start(20, move |server| {
            server.add_service(listening("echo", echo).unix(path, 0o640));
        })
    };
    let ask = |path: &PathBuf| {
        let end = Instant::now() + LONG;
        let mut stream = loop {
            match UnixStream::connect(path) {
                Ok(stream) => break stream,
                Err(error) if Instant::now() > end => panic!("{error}"),
                Err(_) => thread::sleep(Duration::from_millis(5)),
            }
        };
        stream.write_all(b"hello").unwrap();
        stream.shutdown(Shutdown::Write).unwrap();
        let mut answer = String::new();
        stream.read_to_string(&mut answer).unwrap();
        answer
    };
    let running = begin(path.clone());
    assert_eq!(ask(&path), "hello");
    assert_eq!(fs::metadata(&path).unwrap().permissions().mode() & 0o777, 0o640);
    // Somebody listens there, so another server doesn't get it, and says so.
    let error = begin(path.clone()).end_within_long().unwrap_err();
    assert!(matches!(error, ServerError::Bind(_)), "{error}");
    assert_eq!(ask(&path), "hello");
    running.end();
    assert!(!path.exists());
    // A socket that was left behind is replaced; what is no socket isn't.
    drop(std::os::unix::net::UnixListener::bind(&path).unwrap());
    let running = begin(path.clone());
    assert_eq!(ask(&path), "hello");
    running.end();
    fs::write(&path, "a file").unwrap();
    let error = begin(path.clone()).end_within_long().unwrap_err();
    assert_eq!(error.status(), 5);
    assert_eq!(fs::read_to_string(&path).unwrap(), "a file");
    fs::remove_file(path).unwrap();
}

/// A service accepts once it has all of its addresses, whatever others have by then: who comes before that waits.
#[test]
fn a_service_without_all_of_its_addresses_has_its_clients_wait() {
    let (one, taken, other) = (free(), free(), free());
    let holder = TcpListener::bind(&taken).unwrap();
    let addresses = [one.clone(), taken, other.clone()];
    let running = start(20, move |server| {
        let [one, taken, other] = addresses;
        server.add_service(listening("both", echo).tcp(&one).tcp(&taken));
        server.add_service(listening("other", echo).tcp(&other));
    });
    assert_eq!(ask(&other, "hello"), "hello");
    let mut early = connect(&one);
    early.write_all(b"hello").unwrap();
    early.shutdown(Shutdown::Write).unwrap();
    early.set_read_timeout(Some(Duration::from_millis(300))).unwrap();
    assert_eq!(early.read(&mut [0]).unwrap_err().kind(), ErrorKind::WouldBlock);
    drop(holder);
    early.set_read_timeout(Some(LONG)).unwrap();
    assert_eq!(io::read_to_string(early).unwrap(), "hello");
    running.end();
}

/// A name is looked up before the plan is made, so that services which call one address by different words share its socket.
#[test]
fn an_address_by_two_words_is_one() {
    let address = free();
    let by_name = address.replace("127.0.0.1", "localhost");
    let found = by_name.to_socket_addrs().ok().and_then(|mut found| found.next());
    if found.map(|found| found.to_string()).as_ref() != Some(&address) {
        return eprintln!("not tried: localhost is another address first");
    }
    let (mut reader, writer) = io::pipe().unwrap();
    let (operator, signals) = mpsc::channel(1);
    let there = address.clone();
    let run = thread::spawn(move || {
        let mut server = Server::new(None).unwrap();
        server.add_service(listening("one", echo).tcp(&there));
        server.add_service(listening("other", echo).tcp(&by_name));
        let mut writer = Some(writer);
        let args = RunArgs::default().signals(signals);
        server.run(args.record(move |_| writer.take().unwrap()))
    });
    assert_eq!(ask(&address, "hello"), "hello");
    operator.blocking_send(Signal::Terminate).unwrap();
    assert_eq!(run.join().unwrap().unwrap(), Outcome::Served);
    let mut record = String::new();
    reader.read_to_string(&mut record).unwrap();
    assert!(record.contains("got bound 0 0 1\nadopt 1 0 1\n"), "{record}");
}

/// Somebody else listens at the path and never accepts: that the address is in use is found out without waiting.
#[test]
fn a_path_with_a_deaf_listener_is_in_use() {
    let path = scratch("deaf");
    let deaf = Socket::new(Domain::UNIX, Type::STREAM, None).unwrap();
    deaf.bind(&SockAddr::unix(&path).unwrap()).unwrap();
    deaf.listen(0).unwrap();
    let waiting: Vec<_> = (0..3)
        .map(|_| {
            let socket = Socket::new(Domain::UNIX, Type::STREAM, None).unwrap();
            socket.set_nonblocking(true).unwrap();
            _ = socket.connect(&SockAddr::unix(&path).unwrap());
            socket
        })
        .collect();
    let there = path.clone();
    let running = start(20, move |server| {
        server.add_service(listening("web", echo).unix(&there, 0o600));
    });
    let error = running.end_within_long().unwrap_err();
    assert!(matches!(error, ServerError::Bind(_)) && path.exists(), "{error}");
    drop(waiting);
    fs::remove_file(path).unwrap();
}

#[test]
fn filters_refuse_and_one_that_panics_does() {
    let (all, none, mapped, broken) = (free(), free(), free(), free());
    // A client of the one family at a socket of the other one: its address is mapped.
    let port = mapped.rsplit(':').next().unwrap();
    let both = if has_ipv6() { format!("[::]:{port}") } else { mapped.clone() };
    let addresses = [all.clone(), none.clone(), both, broken.clone()];
    let running = start(20, move |server| {
        let local = || ["127.0.0.0/8".parse().unwrap()];
        let [all, none, mapped, broken] = addresses;
        server.add_service(listening("all", echo).tcp(&all).allow(local()));
        server.add_service(listening("none", echo).tcp(&none).deny(local()));
        server.add_service(listening("mapped", echo).tcp(&mapped).deny(local()));
        let panics = |_: &_| panic!("as it is to");
        server.add_service(listening("broken", echo).tcp(&broken).filter(panics));
    });
    assert_eq!(ask(&all, "hello"), "hello");
    for address in [none, mapped, broken] {
        assert_eq!(ask(&address, "hello"), "", "{address}");
    }
    assert_eq!(ask(&all, "hello"), "hello");
    running.end();
}

#[test]
fn a_handshake_decides_whether_the_handler_gets_a_connection() {
    let address = free();
    let there = address.clone();
    let running = start(300, move |server| {
        let shake = |mut connection: Connection| async move {
            let mut word = [0; 3];
            connection.read_exact(&mut word).await?;
            assert_ne!(word, *b"pan", "as it is to");
            if word == *b"yes" { Ok(connection) } else { Err(ErrorKind::InvalidData.into()) }
        };
        let polite = listening_with_handshake("polite", shake, echo);
        server.add_service(polite.tcp(&there));
    });
    assert_eq!(ask(&address, "yes!"), "!");
    assert_eq!(ask(&address, "no!"), "");
    assert_eq!(ask(&address, "panic"), "");
    assert_eq!(ask(&address, "yes?"), "?");
    // Many come and go at once.
    thread::scope(|scope| {
        for word in ["yes!", "no!", "panic", "yes?"] {
            scope.spawn(|| (0..30).for_each(|_| drop(ask(&address, word))));
        }
    });
    running.end();
}

#[test]
fn a_drain_waits_for_connections_and_no_longer() {
    let address = free();
    let there = address.clone();
    let running = start(600, move |server| {
        let patient = listening("patient", |mut connection: Connection| async move {
            connection.write_all(b"here").await?;
            connection.shutdown_signal().begins().await;
            tokio::time::sleep(Duration::from_millis(300)).await;
            connection.write_all(b", and bye").await
        });
        server.add_service(patient.tcp(&there));
        server.add_service(background("jobs", |task| async move { task.shutdown().await }));
    });
    let mut stream = connect(&address);
    let mut word = [0; 4];
    stream.read_exact(&mut word).unwrap();
    let begun = Instant::now();
    running.signal(Signal::Terminate);
    let mut rest = String::new();
    stream.read_to_string(&mut rest).unwrap();
    assert_eq!(rest, ", and bye");
    assert_eq!(running.end_within_long().unwrap(), Outcome::Served);
    assert!(begun.elapsed() < LONG, "the grace period is ten minutes");
}

/// Where handlers have all threads, connections wait: those that did so when the drain began are served in it.
#[test]
fn those_who_wait_when_a_drain_begins_are_served() {
    let address = free();
    let there = address.clone();
    let running = start(20, move |server| {
        let web = listening("web", |mut connection: Connection| async move {
            let mut word = Vec::new();
            connection.read_to_end(&mut word).await?;
            if word == b"block" {
                thread::sleep(Duration::from_millis(500));
            }
            connection.write_all(&word).await
        });
        server.add_service(web.tcp(&there));
    });
    let say = |word: &str| {
        let mut stream = connect(&address);
        stream.write_all(word.as_bytes()).unwrap();
        stream.shutdown(Shutdown::Write).unwrap();
        stream
    };
    let blocking = [say("block"), say("block")];
    thread::sleep(Duration::from_millis(100));
    let waiting: Vec<_> = (0..50).map(|_| say("hello")).collect();
    running.signal(Signal::Terminate);
    for stream in waiting {
        assert_eq!(io::read_to_string(stream).unwrap(), "hello");
    }
    assert_eq!(running.end_within_long().unwrap(), Outcome::Served);
    drop(blocking);
}

#[test]
fn what_goes_on_after_the_grace_period_is_aborted() {
    struct Flag(&'static AtomicU32);
    impl Drop for Flag {
        fn drop(&mut self) {
            self.0.fetch_add(1, Ordering::SeqCst);
        }
    }
    static DROPPED: AtomicU32 = AtomicU32::new(0);
    let address = free();
    let there = address.clone();
    let running = start(1, move |server| {
        let stubborn = listening("stubborn", |mut connection: Connection| async move {
            let flag = Flag(&DROPPED);
            _ = connection.write_all(b"here").await;
            std::future::pending::<()>().await;
            drop(flag);
        });
        server.add_service(stubborn.tcp(&there));
    });
    let mut stream = connect(&address);
    let mut word = [0; 4];
    stream.read_exact(&mut word).unwrap();
    running.signal(Signal::Terminate);
    assert_eq!(stream.read(&mut word).unwrap_or(0), 0);
    assert_eq!(running.end_within_long().unwrap(), Outcome::Served);
    // Threads that have no processor abort late.
    let end = Instant::now() + LONG;
    while DROPPED.load(Ordering::SeqCst) != 1 {
        assert!(Instant::now() < end, "the handler goes on");
        thread::sleep(Duration::from_millis(5));
    }
}

#[test]
fn an_address_may_have_several_accept_loops() {
    let address = free();
    let there = address.clone();
    let running = start(60, move |server| {
        server.configuration.listener_tasks_per_fd = 3;
        server.add_service(listening("echo", echo).tcp(&there));
    });
    thread::scope(|scope| {
        for _ in 0..8 {
            scope.spawn(|| (0..20).for_each(|_| assert_eq!(ask(&address, "hello"), "hello")));
        }
    });
    running.end();
}

#[test]
fn a_path_that_is_too_long_for_a_handover_is_refused() {
    for (length, is_refused) in [(93, true), (92, false)] {
        let path = format!("{:/<length$}", scratch("sock").display());
        let mut server = Server::new(None).unwrap();
        server.succession(Succession::new());
        server.configuration.pid_file = scratch("pid").display().to_string();
        server.configuration.upgrade_sock = path;
        let (operator, signals) = mpsc::channel(1);
        operator.blocking_send(Signal::Fast).unwrap();
        let answer = server.run(RunArgs::default().signals(signals));
        assert_eq!(matches!(answer, Err(ServerError::Path { .. })), is_refused, "{answer:?}");
    }
}

#[test]
fn a_second_signal_cuts_a_drain_short() {
    let address = free();
    let there = address.clone();
    let running = start(300, move |server| {
        server.add_service(listening("echo", echo).tcp(&there));
    });
    let stream = connect(&address);
    thread::sleep(Duration::from_millis(100));
    running.signal(Signal::Terminate);
    running.wait_for(Phase::ShutdownGracePeriod);
    running.signal(Signal::Fast);
    assert_eq!(running.end_within_long().unwrap(), Outcome::Served);
    drop(stream);
}

#[test]
fn a_silent_peer_and_one_that_never_reads_are_timed_out() {
    let (silent, flooded) = (free(), free());
    let addresses = [silent.clone(), flooded.clone()];
    let (tell, told) = channel();
    let running = start(20, move |server| {
        let [silent, flooded] = addresses;
        let tell_too = tell.clone();
        let read = listening("silent", move |mut connection: Connection| {
            let tell = tell.clone();
            async move {
                connection.set_idle_timeout(Some(Duration::from_millis(300)));
                let answer = connection.read_u8().await.map(drop);
                tell.send(answer.unwrap_err().kind()).unwrap();
            }
        });
        server.add_service(read.tcp(&silent));
        let write = listening("flooded", move |mut connection: Connection| {
            let tell = tell_too.clone();
            async move {
                connection.set_idle_timeout(Some(Duration::from_millis(300)));
                let answer = loop {
                    if let Err(error) = connection.write_all(&[0; 65_536]).await {
                        break error.kind();
                    }
                };
                tell.send(answer).unwrap();
            }
        });
        server.add_service(write.tcp(&flooded));
    });
    let held = [connect(&silent), connect(&flooded)];
    for _ in &held {
        assert_eq!(told.recv_timeout(LONG).unwrap(), ErrorKind::TimedOut);
    }
    running.end();
}

/// Times that no clock has are as good as none, and the system gets none that it would refuse a socket for.
#[test]
fn times_that_are_too_long_or_too_short_are_taken() {
    let address = free();
    let there = address.clone();
    let running = start(20, move |server| {
        server.tcp_keepalive(Duration::from_nanos(1), Duration::MAX, 0);
        let patient = listening("patient", |mut connection: Connection| async move {
            connection.set_idle_timeout(Some(Duration::MAX));
            echo(connection).await
        });
        server.add_service(patient.tcp(&there));
    });
    let mut stream = connect(&address);
    thread::sleep(Duration::from_millis(50));
    stream.write_all(b"hello").unwrap();
    stream.shutdown(Shutdown::Write).unwrap();
    assert_eq!(io::read_to_string(stream).unwrap(), "hello");
    running.end();
}

#[test]
fn a_record_whose_writer_panics_ends_no_run() {
    let (operator, signals) = mpsc::channel(1);
    operator.blocking_send(Signal::Terminate).unwrap();
    let args =
        RunArgs::default().signals(signals).record(|_| -> io::Sink { panic!("as it is to") });
    assert_eq!(Server::new(None).unwrap().run(args).unwrap(), Outcome::Served);
}

#[test]
fn a_connect_has_a_time_limit() {
    let listener = Socket::new(Domain::IPV4, Type::STREAM, None).unwrap();
    listener.bind(&SocketAddr::from((Ipv4Addr::LOCALHOST, 0)).into()).unwrap();
    listener.listen(0).unwrap();
    let address = listener.local_addr().unwrap().as_socket().unwrap();
    // Its queue is full, so that whoever comes hears nothing.
    let waiting: Vec<_> = (0..8)
        .map(|_| {
            let socket = Socket::new(Domain::IPV4, Type::STREAM, None).unwrap();
            socket.set_nonblocking(true).unwrap();
            _ = socket.connect(&address.into());
            socket
        })
        .collect();
    let runtime = tokio::runtime::Builder::new_current_thread().enable_all().build().unwrap();
    let begun = Instant::now();
    let limit = Duration::from_millis(300);
    let answer = runtime.block_on(fulltimehen_server::connect(address, limit));
    assert_eq!(answer.unwrap_err().kind(), ErrorKind::TimedOut);
    assert!((limit..LONG).contains(&begun.elapsed()));
    drop(waiting);
}

#[test]
fn a_relay_moves_all_bytes_both_ways_each_at_its_pace() {
    const COUNT: usize = 3_000_000;
    let bytes: Vec<u8> = (0..COUNT).map(|at| (at * 7 + at / 251) as u8).collect();
    let upstream = TcpListener::bind("127.0.0.1:0").unwrap();
    let there = upstream.local_addr().unwrap();
    let address = free();
    let own = address.clone();
    let (tell, told) = channel();
    let running = start(20, move |server| {
        let forward = listening("forward", move |mut client: Connection| {
            let tell = tell.clone();
            async move {
                let mut server = fulltimehen_server::connect(there, LONG).await?;
                let moved = fulltimehen_server::relay(&mut client, &mut server).await;
                tell.send(moved.as_ref().ok().copied()).unwrap();
                moved
            }
        });
        server.add_service(forward.tcp(&own));
    });
    let mut client = connect(&address);
    let (mut server, _) = upstream.accept().unwrap();
    thread::scope(|scope| {
        for stream in [client.try_clone().unwrap(), server.try_clone().unwrap()] {
            let bytes = &bytes;
            scope.spawn(move || {
                (&stream).write_all(bytes).unwrap();
                stream.shutdown(Shutdown::Write).unwrap();
            });
        }
        // The buffers of the sockets fill before this.
        thread::sleep(Duration::from_millis(300));
        for stream in [&mut server, &mut client] {
            let mut got = Vec::new();
            stream.read_to_end(&mut got).unwrap();
            assert!(got == bytes);
        }
    });
    let both = Some((COUNT as u64, COUNT as u64));
    assert_eq!(told.recv_timeout(LONG).unwrap(), both);
    // An error of either side, once bytes go through, ends both.
    let mut client = connect(&address);
    let (mut server, _) = upstream.accept().unwrap();
    client.write_all(b"hello").unwrap();
    server.read_exact(&mut [0; 5]).unwrap();
    socket2::SockRef::from(&server).set_linger(Some(Duration::ZERO)).unwrap();
    drop(server);
    assert_eq!(told.recv_timeout(LONG).unwrap(), None);
    running.end();
}

#[test]
fn connections_are_kept_alive_by_default() {
    let address = free();
    let there = address.clone();
    let (tell, told) = channel();
    let running = start(20, move |server| {
        let look = listening("look", move |connection: Connection| {
            let tell = tell.clone();
            async move {
                let socket = socket2::SockRef::from(connection.as_tcp().unwrap());
                tell.send((socket.keepalive().unwrap(), socket.nodelay().unwrap())).unwrap();
            }
        });
        server.add_service(look.tcp(&there));
    });
    drop(connect(&address));
    assert_eq!(told.recv_timeout(LONG).unwrap(), (true, true));
    running.end();
}

#[test]
fn what_connections_send_has_its_class_in_either_family() {
    /// The option of the socket, as a number.
    fn option(socket: &impl AsRawFd, level: libc::c_int, name: libc::c_int) -> libc::c_int {
        let (mut value, mut length): (libc::c_int, libc::socklen_t) = (-1, 4);
        // SAFETY: the pointers are those of locals, and the length is that of the first one.
        let answer = unsafe {
            let value = (&raw mut value).cast();
            libc::getsockopt(socket.as_raw_fd(), level, name, value, &raw mut length)
        };
        assert_eq!(answer, 0);
        value
    }
    let port = free().rsplit(':').next().unwrap().to_owned();
    if !has_ipv6() {
        return eprintln!("not tried: there is no IPv6 here");
    }
    let both = format!("[::]:{port}");
    let (tell, told) = channel();
    let running = start(20, move |server| {
        let look = listening("look", move |connection: Connection| {
            let tell = tell.clone();
            async move {
                let socket = connection.as_tcp().unwrap();
                let class = option(socket, libc::IPPROTO_IPV6, libc::IPV6_TCLASS);
                tell.send((class, option(socket, libc::IPPROTO_IP, libc::IP_TOS))).unwrap();
            }
        });
        server.add_service(look.tcp(&both).dscp(0xb8));
    });
    drop(connect(&format!("[::1]:{port}")));
    assert_eq!(told.recv_timeout(LONG).unwrap(), (0xb8, 0));
    drop(connect(&format!("127.0.0.1:{port}")));
    assert_eq!(told.recv_timeout(LONG).unwrap(), (0xb8, 0xb8));
    running.end();
}

#[test]
fn a_server_whose_addresses_all_fail_ends_and_one_with_another_serves() {
    // An address of documentation, which no machine has.
    let foreign = "192.0.2.7:8080";
    let alone = start(20, move |server| {
        server.add_service(listening("alone", echo).tcp(foreign));
    });
    let error = alone.end_within_long().unwrap_err();
    assert_eq!(error.status(), 5);
    assert!(error.to_string().contains(foreign), "{error}");
    let address = free();
    let there = address.clone();
    let both = start(20, move |server| {
        server.add_service(listening("fails", echo).tcp(foreign));
        server.add_service(listening("serves", echo).tcp(&there));
    });
    assert_eq!(ask(&address, "hello"), "hello");
    both.end();
}

#[test]
fn what_a_server_does_not_do_is_refused() {
    let mut daemon = Opt::default();
    daemon.daemon = true;
    assert_eq!(Server::new(daemon).unwrap_err().status(), 2);
    let user = Configuration::new().user(Some("nobody".to_owned()));
    assert_eq!(Server::new_with_opt_and_conf(None, user).unwrap_err().status(), 2);
    let mut server = Server::new(None).unwrap();
    server.add_service(listening("nowhere", echo).tcp("nonsense"));
    assert_eq!(server.run(RunArgs::default()).unwrap_err().status(), 3);
    let runtime = tokio::runtime::Builder::new_current_thread().build().unwrap();
    let within = runtime.block_on(async { Server::new(None).unwrap().run(RunArgs::default()) });
    assert!(matches!(within, Err(ServerError::WithinRuntime)));
    let mut server = Server::new(None).unwrap();
    server.add_service(listening("#name", echo).tcp("127.0.0.1:0"));
    let (_operator, signals) = mpsc::channel(1);
    let refused = server.run(RunArgs::default().signals(signals)).unwrap_err();
    assert!(matches!(refused, ServerError::Plan(_)), "{refused}");
}

#[test]
fn a_test_looks_whether_the_server_could_start() {
    let mut opt = Opt::default();
    opt.test = true;
    let mut server = Server::new(opt).unwrap();
    server.add_service(listening("web", echo).tcp("127.0.0.1:1"));
    let (_operator, signals) = mpsc::channel(1);
    let outcome = server.run(RunArgs::default().signals(signals)).unwrap();
    assert_eq!(outcome, Outcome::Tested);
}
