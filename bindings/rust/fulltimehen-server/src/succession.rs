//! The older program's part of an upgrade: that somebody serves, whatever happens to the next program.
//!
//! The pid file says who serves (see [`crate::pid_file`]). A program that waits to take over keeps a
//! connection to the one that serves, and has a copy of its listening sockets; it is told over the
//! connection where the service is stopped, and sees its end where the program died.

use crate::accept::Polled;
use crate::driver::{Input, Inputs};
use crate::error::ServerError;
use crate::fds;
use crate::handover::{self, Frame, PrivateSocket};
use crate::inherited;
use crate::limits::Spare;
use crate::log::say;
use crate::notify::Manager;
use crate::pid_file::{self, FileId, Holder, NextPidFile, PathLock, PidFile, with_ending};
use crate::process::Process;
use fulltimehen::Configuration;
use std::cell::{Cell, RefCell};
use std::collections::VecDeque;
use std::env;
use std::ffi::OsString;
use std::fmt;
use std::fs;
use std::io;
use std::os::fd::BorrowedFd;
use std::os::unix::fs::{DirBuilderExt, MetadataExt};
use std::path::{Path, PathBuf};
use std::process::{self, Child, Command, Stdio};
use std::rc::Rc;
use std::time::Duration;
use tokio::net::UnixStream;
use tokio::time::{Instant, sleep};

/// How long a program that somebody else starts is waited for.
const OTHERS_FIRST: Duration = Duration::from_millis(300);
/// How often is looked whether one listens, and who serves.
const LOOK: Duration = Duration::from_millis(50);
/// The pause after a first successor that failed, and the longest one.
const PAUSES: [Duration; 2] = [Duration::from_secs(1), Duration::from_secs(60)];
/// How long a service manager that is busy is waited for at the end, and a program's lock after its connections.
const LAST_WORDS: Duration = Duration::from_secs(1);
/// How long a program of another make has to live to count as one that serves.
const FOREIGN: Duration = Duration::from_secs(5);
/// How often a program that serves again looks whether another one took over all the same.
const WATCH: Duration = Duration::from_secs(1);
/// What a program that waits is told where the service is stopped.
pub(crate) const STOP: &[u8] = b"stop";

/// How a server is followed by its next program: [`Server::succession`](crate::Server::succession) turns
/// it on.
///
/// At SIGQUIT the program that runs hands its listening sockets to the next one, which waits for them
/// (`--upgrade`), and then drains. Where none waits, it starts one: the file that it was started from
/// itself, which may be another one by now, with the same words and `--upgrade`. It goes on serving until
/// the next program serves, and starts another one where that ends before, or ends while this one drains.
///
/// ```
/// use fulltimehen_server::{Opt, Server, Succession};
///
/// let mut server = Server::new(Opt::default())?;
/// // A link that leads to the version that is wanted.
/// let next = Succession::new().program("/opt/web/current").words(["--conf", "/etc/web.yaml", "--upgrade"]);
/// server.succession(next);
/// # Ok::<(), fulltimehen_server::ServerError>(())
/// ```
#[derive(Clone, Debug)]
pub struct Succession {
    program: Option<PathBuf>,
    words: Option<Vec<OsString>>,
    starts: bool,
}

impl Default for Succession {
    fn default() -> Succession {
        Succession::new()
    }
}

impl Succession {
    /// The next program is the file that this one was started from, with the same words.
    #[must_use]
    pub fn new() -> Succession {
        Succession { program: None, words: None, starts: true }
    }

    /// The next program is this file.
    #[must_use]
    pub fn program(mut self, path: impl Into<PathBuf>) -> Succession {
        self.program = Some(path.into());
        self
    }

    /// The next program is started with these words, without its name.
    #[must_use]
    pub fn words(mut self, words: impl IntoIterator<Item = impl Into<OsString>>) -> Succession {
        self.words = Some(words.into_iter().map(Into::into).collect());
        self
    }

    /// Whether a next program is started where none waits. If not, this one serves on until one does.
    ///
    /// ```
    /// use fulltimehen_server::{Server, Succession};
    ///
    /// let mut server = Server::new(None)?;
    /// // Who deploys starts the next program.
    /// server.succession(Succession::new().starts(false));
    /// # Ok::<(), fulltimehen_server::ServerError>(())
    /// ```
    #[must_use]
    pub fn starts(mut self, starts: bool) -> Succession {
        self.starts = starts;
        self
    }

    /// Starts the next program. `upgrades` says that the words of this one have `--upgrade`.
    fn start(&self, upgrades: bool) -> io::Result<Child> {
        let mut own = env::args_os();
        let own_name = own.next();
        let program = self.program.clone().or(own_name.map(PathBuf::from));
        let program = program.ok_or(io::ErrorKind::NotFound)?;
        let mut command = Command::new(program);
        match &self.words {
            Some(words) => command.args(words),
            None if upgrades => command.args(own),
            None => command.arg("--upgrade").args(own),
        };
        for name in inherited::VARIABLES.into_iter().chain(["WATCHDOG_PID"]) {
            command.env_remove(name);
        }
        // Where the program sees no such file, the next one has its standard input.
        let nothing = fs::File::open("/dev/null");
        command.stdin(nothing.map_or(Stdio::inherit(), Stdio::from)).spawn()
    }
}

/// Where two programs meet.
#[derive(Clone, Debug)]
pub(crate) struct Paths {
    pub(crate) pid_file: PathBuf,
    /// Where a program that takes over waits for the message.
    pub(crate) upgrade_sock: PathBuf,
    /// Where the program that serves gives copies of its sockets.
    pub(crate) copies: PathBuf,
}

/// The folder for what a program keeps while it runs: the service manager's, the user's, or root's.
fn runtime_folder(name: &str) -> Option<PathBuf> {
    if let Some(folders) = env::var_os("RUNTIME_DIRECTORY") {
        return env::split_paths(&folders).find(|folder| folder.is_absolute());
    }
    if let Some(folder) = env::var_os("XDG_RUNTIME_DIR").map(PathBuf::from) {
        return folder.is_absolute().then(|| folder.join(name));
    }
    nix::unistd::geteuid().is_root().then(|| Path::new("/run").join(name))
}

fn refused(path: &Path, reason: impl ToString) -> ServerError {
    ServerError::Path { path: path.to_owned(), reason: reason.to_string() }
}

impl Paths {
    /// The paths of the configuration, or of the runtime folder where it says nothing. That folder is made.
    pub(crate) fn find(configuration: &Configuration, name: &str) -> Result<Paths, ServerError> {
        let unset = Configuration::default();
        let says_pid = configuration.pid_file != unset.pid_file;
        let says_sock = configuration.upgrade_sock != unset.upgrade_sock;
        let folder = if says_pid && says_sock { None } else { runtime_folder(name) };
        if let Some(folder) = &folder {
            let made = fs::DirBuilder::new().recursive(true).mode(0o700).create(folder);
            made.map_err(|error| refused(folder, error))?;
            let owner = fs::metadata(folder).map_err(|error| refused(folder, error))?.uid();
            if owner != nix::unistd::geteuid().as_raw() {
                return Err(refused(folder, format!("the folder is of user {owner}")));
            }
        }
        let path = |says: bool, said: &str, file: &str| {
            let found = if says {
                Some(PathBuf::from(said))
            } else {
                folder.as_ref().map(|f| f.join(file))
            };
            let why = "there is no folder for it: set RUNTIME_DIRECTORY or XDG_RUNTIME_DIR, or pid_file and upgrade_sock in the configuration";
            found.ok_or_else(|| refused(Path::new(file), why))
        };
        let pid_file = path(says_pid, &configuration.pid_file, "pid")?;
        let upgrade_sock = path(says_sock, &configuration.upgrade_sock, "upgrade.sock")?;
        let copies = with_ending(&upgrade_sock, ".copies");
        if !handover::fits(&copies) {
            return Err(refused(
                &upgrade_sock,
                "the path is too long for a socket: it may have 92 bytes",
            ));
        }
        Ok(Paths { pid_file, upgrade_sock, copies })
    }
}

/// A program that waits to take over, and has a copy of the sockets.
struct Waiting {
    process: Option<Process>,
    stream: UnixStream,
}

impl Waiting {
    /// It has ended, or doesn't wait any more.
    fn is_gone(&self) -> bool {
        let mut byte = [0];
        match self.stream.try_read(&mut byte) {
            Ok(_) => true,
            Err(error) => error.kind() != io::ErrorKind::WouldBlock,
        }
    }
}

/// A listening socket and its address, as a plan has it.
#[derive(Clone)]
pub(crate) struct Held {
    pub(crate) word: String,
    pub(crate) listener: Polled,
}

/// What the tasks of a program have in common.
pub(crate) struct Shared {
    pub(crate) succession: Option<Succession>,
    /// The words of this program have `--upgrade`.
    pub(crate) upgrades: bool,
    pub(crate) paths: Option<Paths>,
    pub(crate) spare: RefCell<Spare>,
    pub(crate) manager: Manager,
    pub(crate) inputs: Inputs,
    /// What the service manager is still to be told.
    untold: RefCell<VecDeque<String>>,
    /// What is held, for copies.
    pub(crate) held: RefCell<Vec<Held>>,
    waiting: RefCell<Vec<Waiting>>,
    /// The processes that got copies and haven't ended.
    known: RefCell<Vec<Process>>,
    children: RefCell<Vec<Child>>,
    /// The file that is to be this program's pid file.
    next: RefCell<Option<NextPidFile>>,
    own: RefCell<Option<PidFile>>,
    copies: Cell<Option<tokio::task::JoinHandle<()>>>,
    /// What stands at the path of the copies where this program's socket does.
    copies_file: Cell<Option<FileId>>,
    /// The service is to end: no next program is wanted.
    pub(crate) is_over: Cell<bool>,
    /// A next program has taken over.
    pub(crate) is_succeeded: Cell<bool>,
}

/// The descriptors of what is held, in the order of the addresses' bytes, and the addresses.
fn table(held: &[Held]) -> (Vec<&str>, Vec<BorrowedFd<'_>>) {
    let mut held: Vec<&Held> = held.iter().collect();
    held.sort_by_key(|held| held.word.as_bytes());
    held.dedup_by_key(|held| held.word.as_str());
    held.iter().map(|held| (held.word.as_str(), held.listener.get_ref().share())).unzip()
}

impl Shared {
    pub(crate) fn new(
        succession: Option<Succession>,
        upgrades: bool,
        paths: Option<Paths>,
        manager: Manager,
        inputs: Inputs,
    ) -> Shared {
        Shared {
            succession,
            upgrades,
            paths,
            spare: RefCell::new(Spare::hold()),
            manager,
            inputs,
            untold: RefCell::new(VecDeque::new()),
            held: RefCell::new(Vec::new()),
            waiting: RefCell::new(Vec::new()),
            known: RefCell::new(Vec::new()),
            children: RefCell::new(Vec::new()),
            next: RefCell::new(None),
            own: RefCell::new(None),
            copies: Cell::new(None),
            copies_file: Cell::new(None),
            is_over: Cell::new(false),
            is_succeeded: Cell::new(false),
        }
    }

    /// Tells the service manager, if there is one. Where it is busy, it is told later, in order, but for a sign
    /// of life.
    pub(crate) fn notify(self: &Rc<Self>, state: &str) {
        if !self.untold.borrow().is_empty() {
            return self.untold.borrow_mut().push_back(state.to_owned());
        }
        match self.manager.tell(state) {
            Ok(()) => {}
            Err(error) if error.kind() == io::ErrorKind::WouldBlock => {
                if state != "WATCHDOG=1" {
                    self.untold.borrow_mut().push_back(state.to_owned());
                    tokio::task::spawn_local(Rc::clone(self).tell_later());
                }
            }
            Err(error) => say!(warn, "the service manager wasn't told {state:?}: {error}"),
        }
    }

    async fn tell_later(self: Rc<Self>) {
        let end = Instant::now() + PAUSES[1];
        let next = || self.untold.borrow().front().cloned();
        while let Some(state) = next() {
            let told = self.manager.tell(&state);
            let is_busy = told.is_err_and(|error| error.kind() == io::ErrorKind::WouldBlock);
            if is_busy && Instant::now() < end {
                sleep(LOOK).await;
                continue;
            }
            if is_busy {
                say!(warn, "the service manager wasn't told {state:?}: it doesn't read");
            }
            self.untold.borrow_mut().pop_front();
        }
    }

    /// What the service manager is still to be told is told, if it reads within a short while.
    pub(crate) async fn tell_rest(&self) {
        let end = Instant::now() + LAST_WORDS;
        while !self.untold.borrow().is_empty() && Instant::now() < end {
            sleep(LOOK).await;
        }
    }

    /// Takes the room on the disk that the pid file of this program wants, before anybody can connect to it. Where a
    /// process has died that left its file, that one will do.
    ///
    /// # Errors
    ///
    /// [`ServerError::Path`] where the disk is full, say.
    pub(crate) fn prepare(&self) -> Result<(), ServerError> {
        let (Some(paths), Some(_)) = (&self.paths, &self.succession) else {
            return Ok(());
        };
        let lock = PathLock::take_and_keep(&paths.pid_file);
        let made = lock.and_then(|_lock| NextPidFile::make(&paths.pid_file));
        match made {
            Ok(next) => *self.next.borrow_mut() = Some(next),
            Err(error) if !matches!(pid_file::holder(&paths.pid_file), Ok(Holder::Gone(..))) => {
                return Err(refused(&paths.pid_file, error));
            }
            Err(_) => {}
        }
        Ok(())
    }

    /// This program serves from now on: its pid file stands, and copies of its sockets are given. `left` is the file of
    /// a program that has ended, where the caller has locked it.
    ///
    /// # Errors
    ///
    /// [`ServerError::AlreadyRunning`] where another program serves, unless this one takes over from it.
    pub(crate) fn claim(
        self: &Rc<Self>,
        takes_over: bool,
        left: Option<fs::File>,
    ) -> Result<(), ServerError> {
        let (Some(paths), Some(_)) = (&self.paths, &self.succession) else {
            return Ok(());
        };
        let failed = |error| refused(&paths.pid_file, error);
        let lock = PathLock::take_and_keep(&paths.pid_file).map_err(failed)?;
        if self.has_claimed() {
            self.give_copies(paths);
            return Ok(());
        }
        let left = match pid_file::holder(&paths.pid_file) {
            Ok(Holder::Serves(pid)) if !takes_over => {
                return Err(ServerError::AlreadyRunning { pid });
            }
            Err(error) if !takes_over => return Err(failed(error)),
            Ok(Holder::Gone(file, _)) => Some(file),
            _ => left,
        };
        let next = self.next.take().map_or_else(|| NextPidFile::make(&paths.pid_file), Ok);
        if let (Err(error), None) = (&next, &left) {
            // The program that serves goes on with its own sockets.
            return Err(failed(io::Error::new(error.kind(), error.to_string())));
        }
        self.give_copies(paths);
        // Those that are gone cost nothing any more.
        self.waiting();
        let own = PidFile::put(&paths.pid_file, next, left).map_err(failed)?;
        *self.own.borrow_mut() = Some(own);
        drop(lock);
        Ok(())
    }

    /// The pid file is this program's.
    fn has_claimed(&self) -> bool {
        self.own.borrow().as_ref().is_some_and(PidFile::is_in_place)
    }

    /// This program serves, and is to be followed: its pid file, by which others see that, and its socket for copies are made again
    /// where somebody removed them.
    pub(crate) fn put_again(self: &Rc<Self>, paths: &Paths) {
        match self.server(paths) {
            Serving::Own => return self.give_copies_still(paths),
            Serving::Stopped | Serving::Nobody(..) => {}
            Serving::Other(_) | Serving::Unknown => return,
        }
        let path = paths.pid_file.display();
        match self.claim(false, None) {
            Ok(()) => say!(warn, "{path}: somebody removed it, so it was put again"),
            Err(error) => say!(warn, "{error}"),
        }
    }

    /// From now on a program that waits gets copies of the sockets.
    fn give_copies(self: &Rc<Self>, paths: &Paths) {
        let socket = match PrivateSocket::open(&paths.copies) {
            Ok(socket) => socket,
            Err(error) => return say!(warn, "{}: {error}", paths.copies.display()),
        };
        self.copies_file.set(socket.id());
        let shared = Rc::clone(self);
        let task = tokio::task::spawn_local(async move {
            loop {
                let (stream, process) = socket.accept(&shared.spare).await;
                shared.give_copy(stream, process).await;
            }
        });
        self.stop_copies();
        self.copies.set(Some(task));
    }

    /// This program gives the copies, also where one that was to take over has died on its way.
    fn give_copies_still(self: &Rc<Self>, paths: &Paths) {
        let stands = FileId::at(&paths.copies);
        if stands.is_none() || stands != self.copies_file.get() {
            self.give_copies(paths);
        }
    }

    /// No more copies are given by this program.
    pub(crate) fn stop_copies(&self) {
        if let Some(task) = self.copies.take() {
            task.abort();
        }
    }

    async fn give_copy(&self, stream: UnixStream, process: Option<Process>) {
        let held = self.held.borrow().clone();
        let (words, fds) = table(&held);
        // More don't go into a message.
        let most = words.len().min(fds::MOST_FDS);
        let message = handover::encode(&words[..most]);
        match handover::send(&stream, &message, &fds[..most], Frame::Length).await {
            Ok(()) => {
                // However often one comes and goes.
                self.waiting();
                let mut known = self.known.borrow_mut();
                let is_new = |it: &&Process| known.iter().all(|one| one.number() != it.number());
                let new = process.as_ref().filter(is_new).cloned();
                known.extend(new);
                self.waiting.borrow_mut().push(Waiting { process, stream });
            }
            Err(error) => say!(warn, "a program that waits got no copy: {error}"),
        }
    }

    /// Programs that wait are told that the service is stopped.
    pub(crate) fn tell_stop(&self) {
        for waiting in self.waiting.borrow_mut().drain(..) {
            // Where it doesn't take it, it is gone.
            _ = waiting.stream.try_write(STOP);
        }
    }

    /// Programs that this one started are told to end.
    pub(crate) fn end_children(&self) {
        self.reap();
        for child in self.children.borrow().iter() {
            terminate(&Process::numbered(child.id()));
        }
    }

    /// The programs that wait.
    fn waiting(&self) -> Vec<Option<u32>> {
        self.known.borrow_mut().retain(Process::lives);
        let mut waiting = self.waiting.borrow_mut();
        waiting.retain(|waiting| !waiting.is_gone());
        waiting.iter().map(|it| it.process.as_ref().map(Process::number)).collect()
    }

    /// The program ends: its pid file goes where the service ends with it.
    pub(crate) fn leave(&self) {
        self.stop_copies();
        if let Some(own) = self.own.take()
            && self.is_over.get()
        {
            own.remove();
        }
    }

    /// Who serves, as far as this program is asked.
    fn server(&self, paths: &Paths) -> Serving {
        if self.has_claimed() {
            return Serving::Own;
        }
        let holder = match pid_file::holder(&paths.pid_file) {
            Err(error) if handover::is_exhausted(&error) => {
                self.spare.borrow_mut().lend(|| pid_file::holder(&paths.pid_file))
            }
            holder => holder,
        };
        match holder {
            Ok(Holder::Serves(pid)) => Serving::Other(pid),
            Ok(Holder::Absent) => Serving::Stopped,
            Ok(Holder::Gone(file, pid)) => {
                let id = file.metadata().ok().map(|metadata| FileId::of(&metadata));
                // Another program may have put its own there meanwhile.
                match id == FileId::at(&paths.pid_file) {
                    true => Serving::Nobody(file, pid),
                    false => Serving::Other(None),
                }
            }
            Err(error) => {
                say!(warn, "{}: {error}", paths.pid_file.display());
                Serving::Unknown
            }
        }
    }

    /// Whether another program serves.
    pub(crate) fn is_followed(&self) -> bool {
        let other = |paths: &Paths| matches!(self.server(paths), Serving::Other(_));
        self.is_succeeded.get() || self.paths.as_ref().is_some_and(other)
    }

    /// The program that serves after that one is gone, if one does. Its connections end before its lock does.
    pub(crate) async fn follower(&self, gone: Option<u32>) -> Option<Option<u32>> {
        let (paths, end) = (self.paths.as_ref()?, Instant::now() + LAST_WORDS);
        loop {
            match self.server(paths) {
                Serving::Other(number) if number != gone => return Some(number),
                Serving::Other(_) if Instant::now() < end => sleep(LOOK).await,
                _ => return None,
            }
        }
    }

    /// Until another program serves, which had the sockets from before this one went on.
    pub(crate) async fn watch(self: Rc<Self>) {
        let Some(paths) = &self.paths else {
            return;
        };
        while !matches!(self.server(paths), Serving::Other(_)) {
            sleep(WATCH).await;
        }
        self.inputs.give(Input::Overtaken);
    }

    /// The message that offers these sockets.
    pub(crate) fn message(held: &[Held]) -> Vec<u8> {
        handover::encode(&table(held).0)
    }

    /// The program that serves is told to end, too.
    pub(crate) fn end_other(&self) {
        let Some(paths) = self.paths.as_ref().filter(|_| self.succession.is_some()) else {
            return;
        };
        let Serving::Other(Some(pid)) = self.server(paths) else {
            return;
        };
        let process = Process::numbered(pid);
        // As long as its lock stands the number is its own, so that process was it.
        if matches!(self.server(paths), Serving::Other(Some(still)) if still == pid) {
            terminate(&process);
        }
    }

    /// Waits until a program listens for the message, and connects to it. Where none does, it starts one, and
    /// the next one after a growing pause.
    pub(crate) async fn seek(
        &self,
        paths: &Paths,
        starter: &mut Starter,
    ) -> (UnixStream, Option<Process>) {
        let mut said = None;
        loop {
            match handover::connect(&paths.upgrade_sock, &self.spare) {
                Ok(found) => {
                    return found;
                }
                Err(error) => {
                    let kind = error.kind();
                    let is_usual = matches!(
                        kind,
                        io::ErrorKind::NotFound
                            | io::ErrorKind::ConnectionRefused
                            | io::ErrorKind::WouldBlock
                    );
                    if !is_usual && said.replace(kind) != Some(kind) {
                        say!(warn, "{}: {error}", paths.upgrade_sock.display());
                    }
                }
            }
            if self.waiting().is_empty()
                && let Some(succession) = self.succession.as_ref().filter(|it| it.starts)
            {
                starter.look(self, succession);
            }
            sleep(LOOK).await;
        }
    }

    /// Sees to it that somebody serves, from the handover to `to` on until this program ends.
    pub(crate) async fn see_to_it(
        self: Rc<Self>,
        message: Vec<u8>,
        held: Vec<Held>,
        to: Option<Process>,
    ) {
        let Some(paths) = self.paths.clone() else {
            return;
        };
        let (mut to, mut since) = (to, Instant::now());
        // One that takes the sockets and ends is started again after growing pauses, too.
        let mut starter = Starter::new();
        let mut is_gone = false;
        loop {
            sleep(LOOK).await;
            self.reap();
            match self.server(&paths) {
                Serving::Other(_) => {
                    is_gone = false;
                    self.succeed();
                }
                Serving::Unknown => {}
                Serving::Stopped => {
                    // Whoever took over was stopped since, and so was the service.
                    self.is_over.set(true);
                    self.succeed();
                    return;
                }
                Serving::Nobody(file, pid) => {
                    let who = pid.map(|pid| format!(": process {pid}")).unwrap_or_default();
                    let is_said = std::mem::replace(&mut is_gone, true);
                    if !is_said {
                        say!(warn, "the program that took over is gone{who}");
                    }
                    if let Err(error) = self.reclaim(file, &held) {
                        if !is_said {
                            say!(warn, "{error}; it is tried again each second");
                        }
                        sleep(PAUSES[0]).await;
                    }
                    (to, starter) = (None, Starter::new());
                }
                Serving::Own => {
                    is_gone = false;
                    if self.is_on_its_way(to.as_ref(), since) {
                        continue;
                    }
                    if to.take().is_some() && starter.child.is_none() {
                        starter.fail("took the sockets and has ended");
                    }
                    self.give_copies_still(&paths);
                    let (stream, process) = self.seek(&paths, &mut starter).await;
                    let (_, fds) = table(&held);
                    match handover::send(&stream, &message, &fds, Frame::ToItsEnd).await {
                        Ok(()) => (to, since) = (process, Instant::now()),
                        Err(error) => say!(warn, "the sockets weren't taken over: {error}"),
                    }
                }
            }
        }
    }

    /// Programs that this one started and that have ended are forgotten.
    fn reap(&self) {
        self.children.borrow_mut().retain_mut(|child| matches!(child.try_wait(), Ok(None)));
    }

    fn succeed(&self) {
        if !self.is_succeeded.replace(true) {
            self.stop_copies();
            self.inputs.give(Input::Succeeded);
        }
    }

    /// The pid file is this program's again, in place of the one that is left.
    fn reclaim(self: &Rc<Self>, left: fs::File, held: &[Held]) -> Result<(), ServerError> {
        self.is_succeeded.set(false);
        self.inputs.give(Input::Reclaimed);
        *self.held.borrow_mut() = held.to_vec();
        let mut spare = self.spare.replace(Spare::none());
        let claimed = spare.lend(|| self.claim(true, Some(left)));
        self.spare.replace(spare);
        claimed.map(|()| self.notify(&format!("MAINPID={}", process::id())))
    }

    /// Whether the program that got the message will serve, as far as is known.
    fn is_on_its_way(&self, to: Option<&Process>, since: Instant) -> bool {
        let Some(to) = to else {
            return false;
        };
        if self.waiting().contains(&Some(to.number())) {
            return true;
        }
        if self.known.borrow().iter().any(|known| known.number() == to.number()) || !to.lives() {
            return false;
        }
        // It is of another make, which asks for no copy and locks no pid file.
        if since.elapsed() >= FOREIGN {
            self.succeed();
        }
        true
    }
}

/// Tells a process to end.
fn terminate(process: &Process) {
    if let Err(error) = process.terminate() {
        say!(warn, "process {} wasn't told to end: {error}", process.number());
    }
}

/// Who serves.
enum Serving {
    /// This program, by its pid file.
    Own,
    /// Another program.
    Other(Option<u32>),
    /// Nobody: who did has died, and left this file, which is locked now.
    Nobody(fs::File, Option<u32>),
    /// Nobody: the service was stopped.
    Stopped,
    /// The pid file can't be read.
    Unknown,
}

/// Starts the next program, again and again.
pub(crate) struct Starter {
    /// The process that was started and hasn't ended.
    child: Option<u32>,
    next: Instant,
    pause: Duration,
}

impl Starter {
    pub(crate) fn new() -> Starter {
        Starter { child: None, next: Instant::now() + OTHERS_FIRST, pause: PAUSES[0] }
    }

    fn fail(&mut self, why: impl fmt::Display) {
        say!(warn, "the next program {why}; another one is started in {} s", self.pause.as_secs());
        self.child = None;
        self.next = Instant::now() + self.pause;
        self.pause = (2 * self.pause).min(PAUSES[1]);
    }

    /// Starts one where none runs and it is time.
    fn look(&mut self, shared: &Shared, succession: &Succession) {
        let mut children = shared.children.borrow_mut();
        if let Some(pid) = self.child {
            let mut ended = None;
            children.retain_mut(|child| match child.try_wait() {
                Ok(Some(status)) if child.id() == pid => {
                    ended = Some(status);
                    false
                }
                _ => true,
            });
            return match ended {
                Some(status) => self.fail(format!("ended ({status})")),
                None if children.iter().any(|child| child.id() == pid) => {}
                None => self.fail("has ended"),
            };
        }
        if Instant::now() < self.next {
            return;
        }
        let start = || succession.start(shared.upgrades);
        let started = match start() {
            Err(error) if handover::is_exhausted(&error) => shared.spare.borrow_mut().lend(start),
            started => started,
        };
        match started {
            Ok(child) => {
                say!(info, "no program waits to take over, so process {} was started", child.id());
                self.child = Some(child.id());
                children.push(child);
            }
            Err(error) => self.fail(format!("doesn't start: {error}")),
        }
    }
}
