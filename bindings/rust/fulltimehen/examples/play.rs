//! Plays a script through the library, and prints what `svc` prints for it. On standard error it says what
//! `svc` says of a configuration and of an event that doesn't fit.
//!
//!     play run [--upgrade] [--daemon] [--test] < script

use fulltimehen::{
    Action, Configuration, ConfigurationFault, Core, Event, Host, Next, OnStray, Outcome, Plan,
    PlanError, RunError, Stray,
};
use std::io::{self, Read, Write};
use std::iter::Enumerate;
use std::process::ExitCode;
use std::str::Lines;

/// The events of a script, the number of the last one's line, and the record.
struct Script<'a> {
    lines: Enumerate<Lines<'a>>,
    line: usize,
    record: String,
}

impl Host for Script<'_> {
    fn next(&mut self) -> Next {
        let is_item = |line: &str| !line.trim().is_empty() && !line.trim().starts_with('#');
        let Some((at, line)) = self.lines.find(|(_, line)| is_item(line)) else {
            return Next::Nothing;
        };
        self.line = at + 1;
        match line.trim() {
            "fault" => Next::Failed(io::Error::other("fault")),
            line => match line.parse::<Event>() {
                Ok(event) => Next::Event(event),
                Err(error) => Next::Failed(io::Error::other(error)),
            },
        }
    }

    fn tell(&mut self, action: Action) {
        // Each action has to be one of its own line.
        let line = format!("{action}\n");
        assert!(self.record.contains(&line), "{line}");
    }

    fn record(&mut self, lines: &str) {
        self.record += lines;
    }

    fn on_stray(&mut self, _stray: &Stray) -> OnStray {
        OnStray::End
    }
}

/// What is printed, what is said on standard error, and the exit status.
struct Played {
    output: String,
    said: Vec<String>,
    code: u8,
}

impl Played {
    fn status(status: &str, said: Vec<String>, code: u8) -> Played {
        Played { output: format!("status {status}\n"), said, code }
    }
}

/// The plan of a script with the flags of the words; none where the words are refused.
fn plan(script: &str, words: impl Iterator<Item = String>) -> Option<Plan> {
    let mut words = words.peekable();
    words.next_if(|word| word == "run")?;
    let mut plan = Plan::from_script(script);
    let mut flags = Vec::new();
    while let Some(word) = words.next() {
        let (flag, changed) = match word.as_str() {
            "-u" | "--upgrade" => ('u', plan.upgrade(true)),
            "-d" | "--daemon" => ('d', plan.daemon(true)),
            "-t" | "--test" => ('t', plan.test(true)),
            "--nocapture" => ('n', plan),
            // The script has its own configuration.
            "-c" | "--conf" => ('c', words.next().map(|_| plan)?),
            _ => return None,
        };
        // Each may stand once.
        if flags.contains(&flag) {
            return None;
        }
        flags.push(flag);
        plan = changed;
    }
    Some(plan)
}

/// What is said of the keys of the script's configuration that are misspelled, with the script's lines.
fn misspelled(script: &str) -> Vec<String> {
    let Some((before, rest)) = script.split_once("%conf\n") else {
        return Vec::new();
    };
    let (configuration, _) = rest.split_once("%services").unwrap_or((rest, ""));
    let lines = "\n".repeat(before.lines().count() + 1);
    Configuration::misspelled(&(lines + configuration))
}

/// What becomes of a plan that is refused.
fn refused(error: &PlanError) -> Played {
    let (line, said) = match error {
        PlanError::Configuration(error) if error.fault() == ConfigurationFault::Unfit => {
            let status = format!("config {}", error.key().unwrap_or_default());
            return Played::status(&status, vec![error.to_string()], 4);
        }
        PlanError::Configuration(error) => (error.line().unwrap_or_default(), error.to_string()),
        PlanError::Line { line, .. } => (*line, error.to_string()),
        PlanError::TooLong => (0, error.to_string()),
        _ => return Played { output: String::new(), said: vec![error.to_string()], code: 7 },
    };
    Played::status(&format!("line {line}"), vec![said], 3)
}

fn ran(core: Core, script: &str) -> Played {
    let mut lines = script.lines().enumerate();
    while lines.next().is_some_and(|(_, line)| line != "%events") {}
    let mut host = Script { lines, line: 0, record: String::new() };
    let (status, said, code) = match fulltimehen::run(core, &mut host) {
        Ok(outcome) => (Some(outcome.to_string()), None, u8::from(outcome == Outcome::Parent(1))),
        Err(RunError::Stray(stray)) => {
            let said = format!("line {}: {stray}", host.line);
            (Some(format!("stray {}", stray.number)), Some(said), 4)
        }
        Err(error) => (error.status(), Some(error.to_string()), 4),
    };
    match status {
        Some(status) => Played {
            output: format!("{}status {status}\n", host.record),
            said: said.into_iter().collect(),
            code,
        },
        None => Played { output: String::new(), said: Vec::new(), code: 7 },
    }
}

fn play(script: &str, words: impl Iterator<Item = String>) -> Played {
    let Some(plan) = plan(script, words) else {
        return Played::status("words", Vec::new(), 2);
    };
    let mut played = match Core::new(&plan) {
        Ok(core) => ran(core, script),
        Err(error) => refused(&error),
    };
    played.said.splice(0..0, misspelled(script));
    played
}

fn main() -> io::Result<ExitCode> {
    let mut script = String::new();
    io::stdin().read_to_string(&mut script)?;
    let played = play(&script, std::env::args().skip(1));
    let said: String = played.said.iter().flat_map(|line| [line, "\n"]).collect();
    // Standard error may be closed or full.
    let _ = io::stderr().write_all(said.as_bytes());
    io::stdout().write_all(played.output.as_bytes())?;
    Ok(ExitCode::from(played.code))
}
