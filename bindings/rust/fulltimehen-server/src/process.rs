//! Other processes, each by a descriptor that stays its own (`pidfd_open(2)`): its number may be another's later.

use crate::sys;
use nix::sys::signal::{Signal, kill};
use nix::unistd::Pid;
use socket2::SockRef;
use std::fs;
use std::io;
use std::os::fd::OwnedFd;
use std::sync::Arc;
use tokio::net::UnixStream;

/// Another process.
#[derive(Clone, Debug)]
pub(crate) struct Process {
    number: u32,
    /// None where the system has no such descriptors, before Linux 5.3, or none is left. Then its number
    /// has to do.
    fd: Option<Arc<OwnedFd>>,
}

/// Whether the other end is closed.
fn is_closed(stream: &UnixStream) -> bool {
    // Nothing is sent.
    let sent = SockRef::from(stream).send_with_flags(&[], libc::MSG_NOSIGNAL);
    sent.is_err_and(|error| error.kind() == io::ErrorKind::BrokenPipe)
}

impl Process {
    /// The process that has this number now.
    pub(crate) fn numbered(number: u32) -> Process {
        Process { number, fd: sys::process_fd(number).ok().map(Arc::new) }
    }

    /// The process at the other end, where its number is known here: it isn't in another namespace. Where it has
    /// closed its end it may be gone, and its number another's.
    pub(crate) fn of(stream: &UnixStream) -> io::Result<Option<Process>> {
        let number = stream.peer_cred()?.pid().and_then(|pid| u32::try_from(pid).ok());
        let Some(number) = number.filter(|number| *number > 0) else {
            return Ok(None);
        };
        let process = Process::numbered(number);
        Ok(Some(process).filter(|_| !is_closed(stream)))
    }

    pub(crate) fn number(&self) -> u32 {
        self.number
    }

    /// Whether it runs. One that has ended and wasn't waited for doesn't.
    pub(crate) fn lives(&self) -> bool {
        let Some(fd) = &self.fd else {
            let stat =
                fs::read_to_string(format!("/proc/{}/stat", self.number)).unwrap_or_default();
            let state = stat.rsplit(") ").next().and_then(|rest| rest.chars().next());
            return !matches!(state, None | Some('Z' | 'X'));
        };
        !sys::has_ended(fd)
    }

    /// Tells it to end.
    ///
    /// # Errors
    ///
    /// What the system says: that it has ended, or is another user's.
    pub(crate) fn terminate(&self) -> io::Result<()> {
        let Some(fd) = &self.fd else {
            let number = i32::try_from(self.number).map_err(|_| io::ErrorKind::InvalidInput)?;
            return Ok(kill(Pid::from_raw(number), Signal::SIGTERM)?);
        };
        sys::send_signal(fd, libc::SIGTERM)
    }
}

#[cfg(test)]
mod tests {
    use super::*;
    use std::process::Command;

    #[test]
    fn a_process_that_has_ended_is_told_from_one_with_its_number() {
        let mut child = Command::new("sleep").arg("60").spawn().unwrap();
        let process = Process::numbered(child.id());
        let by_number = Process { number: child.id(), fd: None };
        assert!(process.fd.is_some() && process.lives() && by_number.lives());
        process.terminate().unwrap();
        // It has ended, and isn't waited for yet.
        while process.lives() {
            std::thread::sleep(std::time::Duration::from_millis(5));
        }
        assert!(!by_number.lives());
        child.wait().unwrap();
        // Whoever has the number from now on isn't meant.
        let error = process.terminate().unwrap_err();
        assert!(!process.lives() && error.raw_os_error() == Some(libc::ESRCH), "{error}");
    }

    #[tokio::test]
    async fn the_other_end_is_a_process() {
        let (one, other) = UnixStream::pair().unwrap();
        let process = Process::of(&one).unwrap().unwrap();
        assert_eq!(process.number(), std::process::id());
        assert!(process.fd.is_some() && process.lives());
        // Bytes that it left are there still, but not it.
        other.writable().await.unwrap();
        other.try_write(b"gone").unwrap();
        drop(other);
        assert!(Process::of(&one).unwrap().is_none());
    }
}
