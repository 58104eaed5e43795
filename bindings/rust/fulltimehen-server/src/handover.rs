//! Listening sockets that pass between programs: the message, and the sockets over which it goes.

use crate::fds;
use crate::limits::Spare;
use crate::log::say;
use crate::pid_file::{FileId, with_ending};
use crate::process::Process;
use crate::sys;
use socket2::{Domain, SockAddr, SockRef, Socket, Type};
use std::cell::RefCell;
use std::fs::{self, Permissions};
use std::future::poll_fn;
use std::io;
use std::net::Shutdown;
use std::os::fd::{BorrowedFd, OwnedFd};
use std::os::unix::fs::{FileTypeExt, MetadataExt, PermissionsExt};
use std::path::{Path, PathBuf};
use std::process;
use std::str;
use std::time::Duration;
use tokio::io::Interest;
use tokio::net::{UnixListener, UnixStream};
use tokio::time::{sleep, timeout};

/// How long the other side of a connection has for a message.
const PATIENCE: Duration = Duration::from_secs(2);
/// How long a sender that doesn't close its connection is listened to.
const QUIET: Duration = Duration::from_millis(250);
/// The most bytes of a message, with what version 2 has around its addresses.
const MOST_BYTES: usize = 70_000;
/// The most bytes of a Unix socket's path.
pub(crate) const LONGEST_PATH: usize = 107;
/// What such a path gets behind it while it is made.
const LONGEST_ENDING: usize = ".4194304".len();
/// How many connections wait to be accepted.
const BACKLOG: i32 = 16;

/// The user that this program runs as.
fn own_user() -> u32 {
    nix::unistd::geteuid().as_raw()
}

/// Whether the process at the other end is one of the same user, or of root. It answers it.
fn trusted(stream: &UnixStream) -> io::Result<Option<Process>> {
    let peer = stream.peer_cred()?;
    if peer.uid() != own_user() && peer.uid() != 0 {
        let who = format!("a process of user {} is at the other end", peer.uid());
        return Err(io::Error::new(io::ErrorKind::PermissionDenied, who));
    }
    Process::of(stream)
}

/// Whether a socket can be made at the path: it is short enough.
pub(crate) fn fits(path: &Path) -> bool {
    path.as_os_str().len() + LONGEST_ENDING <= LONGEST_PATH
}

/// What stood at the path may be replaced: nothing, or a socket of the same user.
fn look_at_old(path: &Path) -> io::Result<()> {
    let old = match fs::symlink_metadata(path) {
        Err(error) if error.kind() == io::ErrorKind::NotFound => return Ok(()),
        old => old?,
    };
    let refused =
        |kind, text: &str| Err(io::Error::new(kind, format!("{} is {text}", path.display())));
    if !old.file_type().is_socket() {
        return refused(io::ErrorKind::AlreadyExists, "no socket");
    }
    if old.uid() != own_user() && own_user() != 0 {
        return refused(io::ErrorKind::PermissionDenied, "another user's socket");
    }
    Ok(())
}

/// A listening socket that the same user alone may connect to. Its path goes with it.
#[derive(Debug)]
pub(crate) struct PrivateSocket {
    listener: UnixListener,
    path: PathBuf,
    id: Option<FileId>,
}

impl PrivateSocket {
    /// Makes it in place of a socket that stood at the path. It is made beside it first, so that somebody
    /// listens there at each moment.
    pub(crate) fn open(path: &Path) -> io::Result<PrivateSocket> {
        look_at_old(path)?;
        let beside = with_ending(path, &format!(".{}", process::id()));
        look_at_old(&beside)?;
        // What a process of this number left behind.
        _ = fs::remove_file(&beside);
        let socket = Socket::new(Domain::UNIX, Type::STREAM, None)?;
        socket.bind(&SockAddr::unix(&beside)?)?;
        let made = (|| {
            // Nobody can connect before it listens.
            fs::set_permissions(&beside, Permissions::from_mode(0o600))?;
            socket.listen(BACKLOG)?;
            socket.set_nonblocking(true)?;
            let listener = UnixListener::from_std(socket.into())?;
            let id = FileId::at(&beside);
            fs::rename(&beside, path)?;
            Ok(PrivateSocket { listener, path: path.to_owned(), id })
        })();
        if made.is_err() {
            _ = fs::remove_file(&beside);
        }
        made
    }

    /// What stands at its path where it does.
    pub(crate) fn id(&self) -> Option<FileId> {
        self.id
    }

    /// The next connection of the same user, and its process. Others are sent away.
    pub(crate) async fn accept(&self, spare: &RefCell<Spare>) -> (UnixStream, Option<Process>) {
        loop {
            let accepted = poll_fn(|context| {
                let first = self.listener.poll_accept(context);
                match first {
                    std::task::Poll::Ready(Err(error)) if is_exhausted(&error) => {
                        spare.borrow_mut().lend(|| self.listener.poll_accept(context))
                    }
                    answer => answer,
                }
            });
            match accepted.await {
                Ok((stream, _)) => match trusted(&stream) {
                    Ok(process) => return (stream, process),
                    Err(error) => say!(warn, "{}: {error}", self.path.display()),
                },
                Err(error) => {
                    say!(warn, "{}: {error}", self.path.display());
                    sleep(Duration::from_millis(100)).await;
                }
            }
        }
    }
}

impl Drop for PrivateSocket {
    fn drop(&mut self) {
        // Another program's socket may stand there by now.
        if self.id.is_some() && FileId::at(&self.path) == self.id {
            _ = fs::remove_file(&self.path);
        }
    }
}

/// No descriptor is left, in the process or in the system.
pub(crate) fn is_exhausted(error: &io::Error) -> bool {
    // EMFILE, ENFILE
    matches!(error.raw_os_error(), Some(24 | 23))
}

/// Connects to a program of the same user, without waiting. It answers its process, too.
///
/// # Errors
///
/// What `connect` says: `WouldBlock` where too many wait there already; and `PermissionDenied` for a program
/// of another user.
pub(crate) fn connect(
    path: &Path,
    spare: &RefCell<Spare>,
) -> io::Result<(UnixStream, Option<Process>)> {
    let begin = || {
        let socket = Socket::new(Domain::UNIX, Type::STREAM, None)?;
        socket.set_nonblocking(true)?;
        socket.connect(&SockAddr::unix(path)?)?;
        UnixStream::from_std(socket.into())
    };
    let stream = match begin() {
        Err(error) if is_exhausted(&error) => spare.borrow_mut().lend(begin),
        answer => answer,
    }?;
    let process = trusted(&stream)?;
    Ok((stream, process))
}

/// How the end of a message is told.
#[derive(Clone, Copy, Debug, PartialEq, Eq)]
pub(crate) enum Frame {
    /// The sender shuts its side down: the message is all that comes.
    ToItsEnd,
    /// Its length comes first, in four bytes, the least one first: the connection goes on.
    Length,
}

/// Sends a message, which isn't empty, and tells its end.
///
/// # Errors
///
/// What `sendmsg` says, and `TimedOut` where the other side doesn't take it.
pub(crate) async fn send(
    stream: &UnixStream,
    bytes: &[u8],
    fds: &[BorrowedFd<'_>],
    frame: Frame,
) -> io::Result<()> {
    let length = u32::try_from(bytes.len()).map_err(|_| io::ErrorKind::InvalidInput)?;
    let bytes = match frame {
        Frame::ToItsEnd => bytes.to_vec(),
        Frame::Length => [&length.to_le_bytes(), bytes].concat(),
    };
    let all = async {
        let mut sent = 0;
        while sent < bytes.len() {
            stream.writable().await?;
            // The descriptors go with the first byte.
            let fds = if sent == 0 { fds } else { &[] };
            let put = || fds::send(stream, &bytes[sent..], fds);
            match stream.try_io(Interest::WRITABLE, put) {
                Ok(count) => sent += count,
                Err(error) if is_passing(&error) => {}
                Err(error) => return Err(error),
            }
        }
        match frame {
            Frame::ToItsEnd => SockRef::from(stream).shutdown(Shutdown::Write),
            Frame::Length => Ok(()),
        }
    };
    timeout(PATIENCE, all).await.unwrap_or_else(|_| Err(io::ErrorKind::TimedOut.into()))
}

/// The length that stands before a message, once it has come.
fn length_of(bytes: &[u8]) -> Option<usize> {
    let length = bytes.first_chunk::<4>()?;
    usize::try_from(u32::from_le_bytes(*length)).ok()
}

fn is_passing(error: &io::Error) -> bool {
    matches!(error.kind(), io::ErrorKind::WouldBlock | io::ErrorKind::Interrupted)
}

/// Receives a message. One without a length is over where its sender shuts its side down, or is quiet.
///
/// # Errors
///
/// What `recvmsg` says; `UnexpectedEof` where nothing comes, `TimedOut` where it doesn't come in time, and
/// `InvalidData` for too many bytes or descriptors. What came is closed.
pub(crate) async fn receive(
    stream: &UnixStream,
    frame: Frame,
) -> io::Result<(Vec<u8>, Vec<OwnedFd>)> {
    let (mut bytes, mut fds) = (Vec::new(), Vec::new());
    let all = async {
        let mut piece = vec![0; 65_536];
        loop {
            let is_readable = stream.readable();
            let mut is_quiet = false;
            if bytes.is_empty() || frame == Frame::Length {
                is_readable.await?;
            } else {
                match timeout(QUIET, is_readable).await {
                    Ok(answer) => answer?,
                    Err(_) => is_quiet = true,
                }
            }
            let mut take = || sys::receive(stream, &mut piece);
            // Where this program had no processor for a while, there may be more than its runtime knows of.
            let taken = if is_quiet { take() } else { stream.try_io(Interest::READABLE, take) };
            match taken {
                Ok((0, _)) if bytes.is_empty() || frame == Frame::Length => {
                    return Err(io::ErrorKind::UnexpectedEof.into());
                }
                Ok((0, _)) => return Ok(()),
                Ok((count, came)) => {
                    bytes.extend_from_slice(&piece[..count]);
                    fds.extend(came);
                }
                Err(error) if is_passing(&error) && is_quiet => return Ok(()),
                Err(error) if is_passing(&error) => {}
                Err(error) => return Err(error),
            }
            if bytes.len() > MOST_BYTES || fds.len() > fds::MOST_FDS {
                return Err(io::Error::new(io::ErrorKind::InvalidData, "the message is too long"));
            }
            if frame == Frame::Length
                && let Some(length) = length_of(&bytes)
                && bytes.len() >= 4 + length
            {
                bytes.drain(..4);
                bytes.truncate(length);
                return Ok(());
            }
        }
    };
    timeout(PATIENCE, all).await.unwrap_or_else(|_| Err(io::ErrorKind::TimedOut.into()))?;
    Ok((bytes, fds))
}

/// The begin of a message of version 2.
const VERSION_2: &str = " v2 ";

/// The message that says these addresses, in order (`FORMATS.md`, "The handover message"): in version 1
/// wherever that says them.
pub(crate) fn encode(addresses: &[&str]) -> Vec<u8> {
    let joined = addresses.join(" ");
    let says =
        |address: &&str| !address.is_empty() && !address.contains([' ', '\t', '\n', '\x0c', '\r']);
    if !addresses.is_empty() && joined.len() <= 2_048 && addresses.iter().all(says) {
        return joined.into_bytes();
    }
    let words = addresses.iter().map(|address| format!("{}:{address}", address.len()));
    words.fold(VERSION_2.to_owned(), |message, word| message + &word).into_bytes()
}

/// The addresses of a message, none where it isn't one.
pub(crate) fn decode(bytes: &[u8]) -> Option<Vec<String>> {
    let text = str::from_utf8(bytes).ok()?;
    let addresses = match text.strip_prefix(VERSION_2) {
        Some(rest) => decode_version_2(rest)?,
        None => {
            let words = text.split([' ', '\t', '\n', '\x0c', '\r']);
            words.filter(|word| !word.is_empty()).map(str::to_owned).collect()
        }
    };
    let mut sorted: Vec<&String> = addresses.iter().collect();
    sorted.sort_unstable();
    sorted.windows(2).all(|pair| pair[0] != pair[1]).then_some(addresses)
}

fn decode_version_2(mut rest: &str) -> Option<Vec<String>> {
    let mut addresses = Vec::new();
    while !rest.is_empty() {
        let (length, behind) = rest.split_once(':')?;
        let is_plain = length.bytes().all(|b| b.is_ascii_digit()) && !length.starts_with('0');
        let length: usize = length.parse().ok().filter(|_| is_plain)?;
        addresses.push(behind.get(..length)?.to_owned());
        rest = &behind[length..];
    }
    Some(addresses)
}

#[cfg(test)]
mod tests {
    use super::*;
    use nix::sys::socket::{setsockopt, sockopt};
    use std::fs::File;
    use std::io::Read;
    use std::os::fd::{AsFd, AsRawFd};
    use std::time::Instant;

    #[test]
    fn messages_are_those_of_the_formats() {
        // The rows of FORMATS.md.
        assert_eq!(encode(&["127.0.0.1:80"]), b"127.0.0.1:80");
        assert_eq!(encode(&["a b"]), b" v2 3:a b");
        for addresses in [vec![], vec!["127.0.0.1:80", "[::1]:80"], vec!["a b", "c"]] {
            assert_eq!(decode(&encode(&addresses)).unwrap(), addresses);
        }
        for refused in ["a a", " v2 x", " v2 01:a", " v2 2:a", " v2 1:a1:a", " v2 +1:a"] {
            assert_eq!(decode(refused.as_bytes()), None, "{refused}");
        }
        assert_eq!(decode(&[0xff]), None);
    }

    /// A message of more bytes than a socket passes at once, with as many sockets as it may have, in either frame;
    /// with the sender's credentials before the sockets, as a socket that asks for them has it.
    #[tokio::test]
    async fn a_long_message_comes_whole() {
        for frame in [Frame::ToItsEnd, Frame::Length] {
            let (one, other) = UnixStream::pair().unwrap();
            setsockopt(other.as_raw_fd(), sockopt::PassCred, &true).unwrap();
            let sockets: Vec<_> =
                (0..fds::MOST_FDS).map(|_| File::open("/dev/null").unwrap()).collect();
            let fds: Vec<_> = sockets.iter().map(AsFd::as_fd).collect();
            let bytes = vec![b'a'; 65_536];
            let (sent, received) =
                tokio::join!(send(&one, &bytes, &fds, frame), receive(&other, frame));
            sent.unwrap();
            let (got, came) = received.unwrap();
            assert_eq!((got, came.len()), (bytes, fds::MOST_FDS));
        }
    }

    /// What came while this program had no processor is of the message, too: a sender isn't quiet whose bytes wait.
    #[tokio::test]
    async fn a_receiver_that_was_held_up_reads_on() {
        let (one, other) = UnixStream::pair().unwrap();
        fds::send(&one, b"127.0.0.1:1 ", &[]).unwrap();
        let sending = tokio::spawn(async move {
            sleep(QUIET / 2).await;
            fds::send(&one, b"127.0.0.1:2", &[]).unwrap();
            one
        });
        let receiving = tokio::spawn(async move { receive(&other, Frame::ToItsEnd).await });
        sleep(QUIET / 10).await;
        // Both pauses pass before the runtime looks at either of them.
        std::thread::sleep(2 * QUIET);
        assert_eq!(receiving.await.unwrap().unwrap().0, b"127.0.0.1:1 127.0.0.1:2");
        drop(sending.await.unwrap());
    }

    /// A receiver that doesn't read is given up, and holds nobody up.
    #[tokio::test]
    async fn one_who_never_reads_is_given_up() {
        let (one, _other) = UnixStream::pair().unwrap();
        let (begun, bytes) = (Instant::now(), vec![b'a'; 65_536]);
        let error = loop {
            if let Err(error) = send(&one, &bytes, &[], Frame::Length).await {
                break error;
            }
        };
        assert_eq!(error.kind(), io::ErrorKind::TimedOut);
        assert!((PATIENCE..10 * PATIENCE).contains(&begun.elapsed()));
    }

    /// A socket whose path another one has by now leaves it there.
    #[tokio::test]
    async fn a_socket_that_was_replaced_leaves_the_path() {
        // Temporary files may be in a folder whose path is too long for a socket.
        let folder = PathBuf::from(format!("/tmp/fulltimehen-sock-{}", process::id()));
        fs::create_dir_all(&folder).unwrap();
        let (path, spare) = (folder.join("sock"), RefCell::new(Spare::none()));
        let first = PrivateSocket::open(&path).unwrap();
        let second = PrivateSocket::open(&path).unwrap();
        drop(first);
        connect(&path, &spare).unwrap();
        drop(second);
        assert!(!path.exists());
        fs::remove_dir_all(folder).unwrap();
    }

    /// More bytes or sockets than a message has are refused, and closed.
    #[tokio::test]
    async fn too_much_is_refused() {
        for (length, count) in [(MOST_BYTES + 1, 1), (10, fds::MOST_FDS + 1)] {
            let (one, other) = UnixStream::pair().unwrap();
            let (mut reader, writer) = std::io::pipe().unwrap();
            let fds = vec![writer.as_fd(); count];
            let bytes = vec![b'a'; length];
            let (_, received) = tokio::join!(
                send(&one, &bytes, &fds, Frame::ToItsEnd),
                receive(&other, Frame::ToItsEnd)
            );
            assert_eq!(received.unwrap_err().kind(), io::ErrorKind::InvalidData);
            drop((one, other, writer));
            // Nobody has the other end any more.
            assert_eq!(reader.read(&mut [0]).unwrap(), 0);
        }
    }
}
