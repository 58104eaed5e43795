//! An echo server in plain Rust, shaped as the proved one: two workers over nonblocking sockets under one
//! lock, which sleep for a millisecond where nothing came, and a control endpoint whose byte `f` ends it. It
//! keeps no record.
//!
//! With a third word `handover` it is two of them in one process: at the byte `u` the older one leaves a
//! handle of each listener for the newer one, which looks for them once a second. Five seconds later it accepts
//! nothing more, and a second after that it ends.
use std::io::{ErrorKind, Read, Write};
use std::net::{TcpListener, TcpStream};
use std::sync::Mutex;
use std::thread;
use std::time::{Duration, Instant};

/// So long the older server goes on after it left its listeners.
const CLOSE_TIMEOUT: Duration = Duration::from_secs(5);

/// So long it serves what it has then.
const GRACE: Duration = Duration::from_secs(1);

/// So often the newer server looks for listeners.
const TRY_EVERY: Duration = Duration::from_secs(1);

struct Connection {
    stream: TcpStream,
    is_control: bool,
    held: Vec<u8>,
    done: bool,
}

struct Listeners {
    echo: TcpListener,
    control: TcpListener,
}

struct Sockets {
    listeners: Listeners,
    connections: Vec<Connection>,
    drains_at: Option<Instant>,
    ended: bool,
}

type Slot = Mutex<Option<Listeners>>;

impl Connection {
    /// Writes back what is there, and answers whether anything moved.
    fn serve(&mut self) -> bool {
        let mut moved = false;
        let mut piece = [0u8; 4096];
        for _ in 0..8 {
            if !self.held.is_empty() {
                match self.stream.write(&self.held) {
                    Ok(n) => {
                        self.held.drain(..n);
                        moved = true;
                    }
                    Err(e) if e.kind() == ErrorKind::WouldBlock => return moved,
                    Err(_) => self.done = true,
                }
                if !self.held.is_empty() || self.done {
                    return moved;
                }
            }
            match self.stream.read(&mut piece) {
                Ok(0) => self.done = true,
                Ok(n) => {
                    self.held.extend_from_slice(&piece[..n]);
                    moved = true;
                }
                Err(e) if e.kind() == ErrorKind::WouldBlock => return moved,
                Err(_) => self.done = true,
            }
            if self.done {
                return true;
            }
        }
        moved
    }

    /// The byte that came on a connection of the control endpoint.
    fn control_byte(&mut self) -> Option<u8> {
        let mut byte = [0u8; 1];
        match self.stream.read(&mut byte) {
            Ok(n) => {
                self.done = true;
                (n == 1).then_some(byte[0])
            }
            Err(e) if e.kind() == ErrorKind::WouldBlock => None,
            Err(_) => {
                self.done = true;
                None
            }
        }
    }
}

impl Listeners {
    fn try_clone(&self) -> std::io::Result<Self> {
        Ok(Listeners { echo: self.echo.try_clone()?, control: self.control.try_clone()? })
    }
}

impl Sockets {
    fn new(listeners: Listeners) -> Self {
        Sockets { listeners, connections: Vec::new(), drains_at: None, ended: false }
    }

    fn accept(&mut self) -> bool {
        if self.has_passed(Duration::ZERO) {
            return false;
        }
        for is_control in [false, true] {
            let listener = if is_control { &self.listeners.control } else { &self.listeners.echo };
            if let Ok((stream, _)) = listener.accept() {
                let _ = stream.set_nonblocking(true);
                let _ = stream.set_nodelay(true);
                self.connections.push(Connection { stream, is_control, held: Vec::new(), done: false });
                return true;
            }
        }
        false
    }

    /// So much time has passed since nothing more is accepted.
    fn has_passed(&self, time: Duration) -> bool {
        self.drains_at.is_some_and(|at| Instant::now() >= at + time)
    }

    /// Ends, or hands the listeners on.
    fn signal(&mut self, byte: u8, slot: &Slot) {
        match byte {
            b'f' => self.ended = true,
            b'u' => {
                *slot.lock().unwrap() = self.listeners.try_clone().ok();
                self.drains_at = Some(Instant::now() + CLOSE_TIMEOUT);
            }
            _ => {}
        }
    }

    /// One look at all sockets, and whether anything came.
    fn look(&mut self, slot: &Slot) -> bool {
        let (mut moved, mut bytes) = (false, Vec::new());
        for connection in self.connections.iter_mut() {
            if connection.is_control {
                bytes.extend(connection.control_byte());
            } else {
                moved = connection.serve() || moved;
            }
        }
        for byte in bytes {
            self.signal(byte, slot);
        }
        let before = self.connections.len();
        self.connections.retain(|connection| !connection.done);
        self.ended = self.ended || self.has_passed(GRACE);
        moved || before != self.connections.len() || self.accept()
    }
}

fn work(sockets: &Mutex<Sockets>, slot: &Slot) {
    loop {
        let moved = {
            let mut all = sockets.lock().unwrap();
            if all.ended {
                return;
            }
            all.look(slot)
        };
        if !moved {
            thread::sleep(Duration::from_millis(1));
        }
    }
}

/// Two workers, until both have ended.
fn serve(listeners: Listeners, slot: &Slot) {
    let sockets = Mutex::new(Sockets::new(listeners));
    thread::scope(|scope| {
        scope.spawn(|| work(&sockets, slot));
        work(&sockets, slot);
    });
}

/// Looks for listeners until some are there.
fn received(slot: &Slot) -> Listeners {
    loop {
        if let Some(listeners) = slot.lock().unwrap().take() {
            return listeners;
        }
        thread::sleep(TRY_EVERY);
    }
}

fn listen(address: &str) -> TcpListener {
    let listener = TcpListener::bind(address).unwrap();
    listener.set_nonblocking(true).unwrap();
    listener
}

fn main() {
    let words: Vec<String> = std::env::args().skip(1).collect();
    let listeners = Listeners { echo: listen(&words[0]), control: listen(&words[1]) };
    let slot = Slot::new(None);
    if words.get(2).is_none_or(|word| word != "handover") {
        return serve(listeners, &slot);
    }
    thread::scope(|scope| {
        scope.spawn(|| {
            serve(listeners, &slot);
            println!("older ended");
        });
        serve(received(&slot), &slot);
    });
}
