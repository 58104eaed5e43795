//! What SIGINT and SIGTERM do to a program that runs servers and goes on: the run's end by them, and after it what they
//! did before. The program runs itself as that one, since signals are a process's, which is why it has no harness.

use fulltimehen_server::{RunArgs, Server, background};
use nix::sys::signal::{Signal, kill};
use nix::unistd::Pid;
use std::io::{BufRead, BufReader};
use std::os::unix::process::ExitStatusExt;
use std::process::{Child, Command, Stdio};
use std::time::{Duration, Instant};
use std::{env, thread};

/// One server after the other, and two at once, by the process's signals; and then none.
fn serve() {
    for count in [1, 1, 2] {
        let servers: Vec<_> = (0..count).map(|_| thread::spawn(run)).collect();
        servers.into_iter().for_each(|server| server.join().unwrap());
        println!("ended");
    }
    thread::sleep(Duration::from_secs(300));
}

fn run() {
    let mut server = Server::new(None).unwrap();
    server.add_service(background("work", |task| async move {
        println!("begun");
        task.shutdown().await;
    }));
    server.run(RunArgs::default()).unwrap();
}

/// The program, and the lines that it prints.
fn begin(shell: &str) -> (Child, impl FnMut(&str)) {
    // Whatever the test's own signals do, the shell begins with what they do by themselves.
    let mut child = Command::new("env")
        .args(["--default-signal", "sh", "-c", &format!("{shell} exec \"$0\" serve")])
        .arg(env::current_exe().unwrap())
        .stdout(Stdio::piped())
        .spawn()
        .unwrap();
    let mut lines = BufReader::new(child.stdout.take().unwrap()).lines();
    (child, move |line: &str| assert_eq!(lines.next().unwrap().unwrap(), line))
}

/// How the program ended, within so many seconds.
fn ended(child: &mut Child, seconds: u64) -> Option<Option<i32>> {
    let end = Instant::now() + Duration::from_secs(seconds);
    while Instant::now() < end {
        if let Some(status) = child.try_wait().unwrap() {
            return Some(status.signal());
        }
        thread::sleep(Duration::from_millis(5));
    }
    None
}

fn main() {
    if env::args().nth(1).is_some_and(|word| word == "serve") {
        return serve();
    }
    for (shell, dies_by_interrupt) in [("", true), ("trap '' INT;", false)] {
        let (mut child, mut expect) = begin(shell);
        let send = |signal| kill(Pid::from_raw(child.id() as i32), signal).unwrap();
        for signal in [Signal::SIGTERM, Signal::SIGINT] {
            expect("begun");
            send(signal);
            expect("ended");
        }
        // Two at once end by one signal.
        expect("begun");
        expect("begun");
        send(Signal::SIGTERM);
        expect("ended");
        send(Signal::SIGINT);
        if !dies_by_interrupt {
            // It ignored that from its start on, and does so again.
            assert_eq!(ended(&mut child, 1), None);
            kill(Pid::from_raw(child.id() as i32), Signal::SIGTERM).unwrap();
        }
        let expected = if dies_by_interrupt { Signal::SIGINT } else { Signal::SIGTERM };
        let how = ended(&mut child, 90);
        _ = child.kill();
        assert_eq!(how, Some(Some(expected as i32)));
        println!("signals after a run, begun by {shell:?}: ok");
    }
}
