//! An echo server: `backend ADDRESS THREADS`. Each thread accepts, and serves one connection after the other.

use std::io::{self, Read, Write};
use std::net::TcpListener;
use std::{env, thread};

fn serve(listener: &TcpListener) -> io::Result<()> {
    let mut bytes = [0; 4096];
    loop {
        let (mut stream, _) = listener.accept()?;
        stream.set_nodelay(true)?;
        while let Ok(count @ 1..) = stream.read(&mut bytes) {
            if stream.write_all(&bytes[..count]).is_err() {
                break;
            }
        }
    }
}

fn main() -> io::Result<()> {
    let words: Vec<String> = env::args().collect();
    let listener = TcpListener::bind(words[1].as_str())?;
    let threads: usize = words[2].parse().map_err(io::Error::other)?;
    thread::scope(|scope| {
        for _ in 0..threads {
            scope.spawn(|| serve(&listener));
        }
    });
    Ok(())
}
