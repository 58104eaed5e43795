//! A load client: `client ADDRESS THREADS SECONDS`.
//!
//! Each thread asks without a pause, with a connection of its own for each ask: it sends 32 bytes that no
//! other ask sends, wants them back, and closes. Where lines come on standard input, each is the beginning of an upgrade,
//! but for `killing` and `killed`, which stand around the kill of a program: asks that were under way then and were reset
//! count as inside of it, and not as reset.
//! At the end it prints a line of JSON: how many asks, what went wrong, and the latencies in microseconds of
//! the asks that began within a second of an upgrade's beginning, and of all others.

use std::io::{self, BufRead, Read, Write};
use std::net::{SocketAddr, TcpStream};
use std::sync::Mutex;
use std::sync::atomic::{AtomicBool, Ordering};
use std::time::{Duration, Instant};
use std::{env, thread};

const SIZE: usize = 32;

/// What one thread saw.
#[derive(Default)]
struct Seen {
    /// When each ask began, in microseconds since the start, and how long it took.
    asks: Vec<(u32, u32)>,
    refused: u64,
    /// When each ask that was reset, or ended early, began and failed.
    reset: Vec<(u32, u32)>,
    other: u64,
    wrong: u64,
    errors: Vec<String>,
}

/// When something began that is told on standard input, in microseconds since the start.
#[derive(Default)]
struct Marks {
    upgrades: Vec<u32>,
    /// From right before a kill to right after it.
    kills: Vec<(u32, u32)>,
}

impl Marks {
    fn note(&mut self, line: &str, now: u32) {
        match (line, self.kills.last_mut()) {
            ("killing", _) => self.kills.push((now, u32::MAX)),
            ("killed", Some(kill)) => kill.1 = now,
            _ => self.upgrades.push(now),
        }
    }

    /// Whether it is within a second of an upgrade's beginning.
    fn is_in_upgrade(&self, began: u32) -> bool {
        let second = |mark: u32| mark..mark.saturating_add(1_000_000);
        self.upgrades.iter().any(|mark| second(*mark).contains(&began))
    }

    /// Whether a program was killed between these.
    fn is_in_kill(&self, (began, failed): (u32, u32)) -> bool {
        self.kills.iter().any(|(before, after)| began <= *after && failed >= *before)
    }
}

/// Whether the text came back; else what went wrong, and at which call.
fn ask(address: SocketAddr, text: &[u8; SIZE]) -> Result<bool, (&'static str, io::Error)> {
    let mut stream = TcpStream::connect(address).map_err(|error| ("connect", error))?;
    let set = stream.set_nodelay(true);
    set.and_then(|()| stream.set_read_timeout(Some(Duration::from_secs(10))))
        .map_err(|error| ("set", error))?;
    stream.write_all(text).map_err(|error| ("write", error))?;
    let mut got = [0; SIZE];
    stream.read_exact(&mut got).map_err(|error| ("read", error))?;
    Ok(got == *text)
}

fn work(address: SocketAddr, thread: u64, start: Instant, on: &AtomicBool) -> Seen {
    let mut seen = Seen::default();
    let mut number = 0u64;
    while on.load(Ordering::Relaxed) {
        number += 1;
        let mut text = [0x5a; SIZE];
        text[..8].copy_from_slice(&thread.to_le_bytes());
        text[8..16].copy_from_slice(&number.to_le_bytes());
        let began = start.elapsed();
        match ask(address, &text) {
            Ok(true) => {
                let took = start.elapsed() - began;
                seen.asks.push((began.as_micros() as u32, took.as_micros() as u32));
            }
            Ok(false) => seen.wrong += 1,
            Err((call, error)) => {
                match error.kind() {
                    io::ErrorKind::ConnectionRefused => seen.refused += 1,
                    io::ErrorKind::ConnectionReset | io::ErrorKind::UnexpectedEof => {
                        let failed = start.elapsed().as_micros() as u32;
                        seen.reset.push((began.as_micros() as u32, failed));
                    }
                    _ => seen.other += 1,
                }
                seen.errors.push(format!("{:.4} s, {call}: {error}", began.as_secs_f64()));
            }
        }
    }
    seen
}

/// The median, the 99th of a hundred, and the worst, of sorted numbers.
fn quantiles(mut took: Vec<u32>) -> String {
    took.sort_unstable();
    let at = |part: f64| {
        took.get(((took.len() as f64 * part) as usize).min(took.len().saturating_sub(1)))
    };
    let word = |n: Option<&u32>| n.map_or("null".to_owned(), u32::to_string);
    format!(
        "{{\"asks\":{},\"p50\":{},\"p99\":{},\"worst\":{}}}",
        took.len(),
        word(at(0.5)),
        word(at(0.99)),
        word(took.last())
    )
}

fn main() -> Result<(), Box<dyn std::error::Error>> {
    let words: Vec<String> = env::args().collect();
    let address: SocketAddr = words[1].parse()?;
    let threads: u64 = words[2].parse()?;
    let seconds: f64 = words[3].parse()?;
    let start = Instant::now();
    let on = AtomicBool::new(true);
    let marks = Mutex::new(Marks::default());
    let all = thread::scope(|scope| {
        let workers: Vec<_> = (0..threads)
            .map(|number| {
                scope.spawn({
                    let on = &on;
                    move || work(address, number, start, on)
                })
            })
            .collect();
        let marking = scope.spawn(|| {
            let lines = io::stdin().lock().lines().map_while(Result::ok);
            for line in lines.take_while(|line| line != "end") {
                marks.lock().unwrap().note(&line, start.elapsed().as_micros() as u32);
            }
        });
        if seconds > 0.0 {
            thread::sleep(Duration::from_secs_f64(seconds));
        } else {
            let _ = marking.join();
        }
        on.store(false, Ordering::Relaxed);
        workers.into_iter().map(|worker| worker.join().unwrap()).collect::<Vec<_>>()
    });
    let took = start.elapsed().as_secs_f64();
    let marks = marks.into_inner()?;
    let (mut within, mut outside) = (Vec::new(), Vec::new());
    for (began, micros) in all.iter().flat_map(|seen| &seen.asks) {
        if marks.is_in_upgrade(*began) { within.push(*micros) } else { outside.push(*micros) }
    }
    let sum = |part: fn(&Seen) -> u64| all.iter().map(part).sum::<u64>();
    let errors: Vec<String> = all
        .iter()
        .flat_map(|seen| seen.errors.iter().take(3))
        .map(|error| format!("{error:?}"))
        .collect();
    let asks = within.len() + outside.len();
    let resets = all.iter().flat_map(|seen| &seen.reset).copied();
    let (inside, reset): (Vec<_>, Vec<_>) = resets.partition(|reset| marks.is_in_kill(*reset));
    println!(
        "{{\"asks\":{asks},\"seconds\":{took:.1},\"per_second\":{:.0},\"refused\":{},\"reset\":{},\"inside_killed\":{},\"other\":{},\"wrong\":{},\"within\":{},\"outside\":{},\"errors\":[{}]}}",
        asks as f64 / took,
        sum(|seen| seen.refused),
        reset.len(),
        inside.len(),
        sum(|seen| seen.other),
        sum(|seen| seen.wrong),
        quantiles(within),
        quantiles(outside),
        errors.join(",")
    );
    Ok(())
}
