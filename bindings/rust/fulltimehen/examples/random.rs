//! Prints a random script, and the flags that it is to be run with on its first line, as a comment.
//!
//!     random SEED
//!
//! Services, endpoints and events are drawn; of the events mostly those that fit.

use fulltimehen::{Core, Event, FdId, Plan, RunningCore, Side, Signal};
use std::fmt::Write;

/// Numbers that look random (xorshift).
pub struct Draw(u64);

impl Draw {
    pub fn of(seed: u64) -> Draw {
        Draw(seed.wrapping_mul(0x9e37_79b9_7f4a_7c15) | 1)
    }

    pub fn below(&mut self, most: u64) -> u64 {
        self.0 ^= self.0 << 13;
        self.0 ^= self.0 >> 7;
        self.0 ^= self.0 << 17;
        (self.0 >> 11) % most.max(1)
    }

    fn one_in(&mut self, n: u64) -> bool {
        self.below(n) == 0
    }
}

const ADDRESSES: [&str; 3] = ["127.0.0.1:80", "127.0.0.1:443", "[::1]:80"];

fn service(draw: &mut Draw, number: u64) -> String {
    let kind = ["plain", "plain", "notify", "bootstrap"]
        [draw.below(if number == 0 { 4 } else { 3 }) as usize];
    let mut line = format!("s{number} {kind}");
    if number > 0 && draw.one_in(2) {
        // A String takes all that is written to it.
        let _ = write!(line, " after {}", draw.below(number));
    }
    if kind == "bootstrap" {
        return line;
    }
    for _ in 0..draw.below(3) {
        match draw.below(4) {
            0 => line += " unix /tmp/a.sock",
            n => {
                let _ = write!(line, " tcp {}", ADDRESSES[n as usize - 1]);
                if draw.one_in(3) {
                    line += " dscp 10";
                }
            }
        }
    }
    if draw.one_in(3) {
        line += " block 10.0.0.1";
    }
    line
}

fn conf(draw: &mut Draw) -> String {
    let mut conf = String::new();
    for (key, most) in [
        ("grace_period_seconds", 4),
        ("graceful_shutdown_timeout_seconds", 3),
        ("upgrade_sock_connect_accept_max_retries", 3),
        ("listener_tasks_per_fd", 3),
        ("daemon_ready_timeout_seconds", 3),
    ] {
        if draw.one_in(2) {
            let least = u64::from(key.starts_with("listener") || key.starts_with("daemon"));
            let _ = writeln!(conf, "{key}: {}", least + draw.below(most));
        }
    }
    if draw.one_in(3) {
        conf += "daemon_wait_for_ready: true\n";
    }
    if draw.one_in(6) {
        (0..1 + draw.below(4)).for_each(|_| conf += &noise(draw));
    }
    conf
}

/// A line of a configuration that may be refused.
fn noise(draw: &mut Draw) -> String {
    let mut one_of = |words: &[&'static str]| words[draw.below(words.len() as u64) as usize];
    let key = one_of(&[
        "user",
        "threads",
        "thraeds",
        "Daemon",
        "work_stealing",
        "client_bind_to_ipv4",
        "client_bind_to_ipv6",
        "max_blocking_threads",
        "runtime_metrics_poll_time_histogram_scale",
        "daemon_notify_timeout_seconds",
        "other.key-1",
        "grace_period_seconds",
        "pid_file",
        "",
    ]);
    let colon = one_of(&[": ", ": ", ": ", ":", ":\t", " : ", ""]);
    let value = one_of(&[
        "",
        "0",
        "07",
        "1",
        "18446744073709551616",
        "true",
        "TRUE",
        "yes",
        "null",
        "~",
        "[]",
        "log",
        "a b",
        "a: b",
        "a:",
        "'it''s'",
        "'a' b",
        "\"a\\t\\\"\" # c",
        "\"a\\x\"",
        "\"a",
        "# c",
        "a#b",
        "%a",
        "é\u{7f}",
    ]);
    let line = format!("{key}{colon}{value}");
    match one_of(&["", "", "", "", "item", "dash", "blank", "start", "comment", "return"]) {
        "item" => format!("- {value}\n"),
        "dash" => format!("client_bind_to_ipv4:\n  # c\n  - {value}\n-{value}\n"),
        "blank" => format!(" {line}\n"),
        "start" => format!("---{value}\n"),
        "comment" => format!("  # {line}\n\n"),
        "return" => format!("{line}\r\n"),
        _ => format!("{line}\n"),
    }
}

/// An event with numbers that may fit. `next` is a number that wasn't used yet.
fn event(draw: &mut Draw, services: u64, next: u64, moment: u64) -> Event {
    let service = draw.below(services) as u32;
    let endpoint = draw.below(2) as u32;
    let connection = next.saturating_sub(draw.below(12));
    let ok = !draw.one_in(4);
    match draw.below(31) {
        0 | 1 => Event::Moment { ms: moment + draw.below(2500) },
        2 => Event::Ready { service },
        3 => Event::WorkEnded { service },
        4..=7 => Event::Bound { service, endpoint, fd: FdId(next) },
        8 => Event::AddrInUse { service, endpoint },
        9 => Event::BindFailed { service, endpoint },
        10 | 11 => Event::Adopted { service, endpoint },
        12 => Event::AdoptFailed { service, endpoint },
        13 => Event::Received {
            bytes: ADDRESSES[..2].join(" ").into_bytes(),
            fds: vec![FdId(next), FdId(next + 1)],
        },
        14 => Event::NoSender,
        15 if draw.one_in(4) => Event::ReceiveFailed,
        15 | 16 if draw.one_in(6) => Event::Signal {
            kind: [Signal::Fast, Signal::Terminate, Signal::Upgrade][draw.below(3) as usize],
        },
        17 => Event::Connected,
        18 => [Event::NoSuccessor, Event::Connecting, Event::ConnectFailed][draw.below(3) as usize]
            .clone(),
        19 => [Event::Sent, Event::SendBusy, Event::SendFailed][draw.below(3) as usize].clone(),
        20..=23 => Event::Arrived {
            service,
            endpoint,
            connection: next,
            peer: ["-", "unix", "10.0.0.1:5", "10.0.0.2:5"][draw.below(4) as usize]
                .parse()
                .expect("a peer"),
        },
        24 => Event::AcceptFailed { service, endpoint, error: if ok { 24 } else { 11 } },
        25 | 26 if ok => Event::SettingsApplied { connection },
        25 | 26 => Event::SettingsFailed { connection },
        27 if ok => Event::HandshakeDone { connection },
        27 => Event::HandshakeFailed { connection },
        28 => Event::Finished { connection },
        29 => Event::LoopEnded { service, endpoint, number: draw.below(2) },
        _ if draw.one_in(2) => Event::Side { side: if ok { Side::Child } else { Side::Parent } },
        _ if draw.one_in(3) => Event::ChildGone,
        _ => Event::ChildReady,
    }
}

/// A plan that looks random: the text of its script up to the events, its flags, and how many services it has.
pub fn head(draw: &mut Draw) -> (String, [bool; 3], u64) {
    let services = 1 + draw.below(4);
    let eager = if draw.one_in(3) { "eager\n" } else { "" };
    let lines: Vec<String> = (0..services).map(|number| service(draw, number)).collect();
    let text = format!("%conf\n{}%services\n{eager}{}\n%events\n", conf(draw), lines.join("\n"));
    (text, [draw.one_in(3), draw.one_in(8), draw.one_in(20)], services)
}

/// An event that fits, if one is drawn soon.
pub fn fitting(
    draw: &mut Draw,
    core: &mut RunningCore,
    services: u64,
    next: u64,
    moment: u64,
) -> Option<Event> {
    let mut drawn = (0..200).map(|_| event(draw, services, next, moment));
    drawn.find(|event| core.check(event).is_ok())
}

fn main() {
    let seed: u64 = std::env::args().nth(1).and_then(|word| word.parse().ok()).unwrap_or(1);
    let mut draw = Draw::of(seed);
    let (head, flags, services) = head(&mut draw);
    let plan = Plan::from_script(&head).upgrade(flags[0]).daemon(flags[1]).test(flags[2]);
    println!("# {}\n{head}", plan.words().join(" "));
    let Ok(core) = Core::new(&plan) else {
        return;
    };
    let Ok(mut core) = core.begin() else {
        return;
    };
    let (mut next, mut moment) = (3, 0);
    for _ in 0..20 + draw.below(150) {
        if core.end().is_some() {
            return;
        }
        let Some(event) = fitting(&mut draw, &mut core, services, next, moment) else {
            return;
        };
        if draw.one_in(60) {
            println!("{}", self::event(&mut draw, services, next, moment));
        }
        println!("{event}");
        let _ = core.step(&event);
        if let Event::Moment { ms } = event {
            moment = ms;
        }
        next += 2;
    }
    if draw.one_in(10) {
        println!("fault");
    }
}
