//! All `unsafe` code of the crate: what no safe crate has in all of the versions that `Cargo.toml` takes. Connections that
//! don't block from the first call on (`std` and `socket2` have a second call for that), the numbers of received
//! descriptors (`nix` tells them as numbers), descriptors of processes (`rustix` has them from 0.38 on, which Debian 12
//! hasn't), the traffic class of IPv6 (`socket2` has it from 0.5 on), and what the process does at a signal (`tokio` sets
//! that, and never puts back what was there). Each call takes and answers what is safe to have.

use nix::sys::socket::{CmsgIterator, ControlMessageOwned, MsgFlags, UnixAddr, recvmsg};
use socket2::SockAddr;
use std::io::{self, IoSliceMut};
use std::mem::{self, MaybeUninit};
use std::os::fd::{AsRawFd, FromRawFd, OwnedFd, RawFd};
use std::ptr;
use std::sync::atomic::{AtomicUsize, Ordering};

/// The control messages of a message: later versions of `nix` look whether all were delivered.
trait Walk {
    type Messages;
    fn walk(self) -> nix::Result<Self::Messages>;
}

impl<'a> Walk for CmsgIterator<'a> {
    type Messages = CmsgIterator<'a>;
    fn walk(self) -> nix::Result<Self::Messages> {
        Ok(self)
    }
}

impl<'a> Walk for nix::Result<CmsgIterator<'a>> {
    type Messages = CmsgIterator<'a>;
    fn walk(self) -> nix::Result<Self::Messages> {
        self
    }
}

/// Receives bytes with descriptors over a Unix socket, once, without waiting. No byte is the end.
///
/// # Errors
///
/// What `recvmsg` says; and `InvalidData` where not all descriptors could be delivered: those that were
/// are closed.
pub(crate) fn receive(
    socket: &impl AsRawFd,
    bytes: &mut [u8],
) -> io::Result<(usize, Vec<OwnedFd>)> {
    // Room for as many as the kernel passes at once: one that has too many is then told as such.
    let mut control = nix::cmsg_space!([RawFd; 253], [u8; 64]);
    let flags = MsgFlags::MSG_CMSG_CLOEXEC | MsgFlags::MSG_DONTWAIT;
    let (mut slices, socket) = ([IoSliceMut::new(bytes)], socket.as_raw_fd());
    let message = recvmsg::<UnixAddr>(socket, &mut slices, Some(&mut control), flags)?;
    let is_cut = message.flags.contains(MsgFlags::MSG_CTRUNC);
    let mut fds = Vec::new();
    // Where `walk` refuses, no descriptor is told by a number, and none can be closed here.
    if let Ok(messages) = Walk::walk(message.cmsgs()) {
        for message in messages {
            if let ControlMessageOwned::ScmRights(numbers) = message {
                // SAFETY: the kernel has made these descriptors for this process in this call, and nothing
                // else knows their numbers.
                fds.extend(numbers.into_iter().map(|fd| unsafe { OwnedFd::from_raw_fd(fd) }));
            }
        }
    }
    if is_cut {
        return Err(io::Error::new(
            io::ErrorKind::InvalidData,
            "not all descriptors of the message could be delivered",
        ));
    }
    Ok((message.bytes, fds))
}

/// Accepts a connection, which doesn't block and isn't passed on to programs that are started, and tells its peer.
pub(crate) fn accept(listener: &impl AsRawFd) -> io::Result<(OwnedFd, SockAddr)> {
    // SAFETY: an address of zeros is one: of no family.
    let mut address: libc::sockaddr_storage = unsafe { mem::zeroed() };
    let mut length = size_of_val(&address) as libc::socklen_t;
    let flags = libc::SOCK_CLOEXEC | libc::SOCK_NONBLOCK;
    // SAFETY: the pointers are those of locals, and the length is that of the room for the address.
    let answer = unsafe {
        let address = (&raw mut address).cast();
        libc::accept4(listener.as_raw_fd(), address, &raw mut length, flags)
    };
    if answer < 0 {
        return Err(io::Error::last_os_error());
    }
    // SAFETY: the kernel has made the descriptor for this process in this call, and nothing else knows its
    // number; and it has written the address, of that length.
    Ok(unsafe { (OwnedFd::from_raw_fd(answer), SockAddr::new(address, length)) })
}

/// What a connection of the IPv6 family sends has this traffic class.
pub(crate) fn set_traffic_class(socket: &impl AsRawFd, class: u8) -> io::Result<()> {
    let class = libc::c_int::from(class);
    // SAFETY: the pointer is that of a local, and the length is its own.
    let answer = unsafe {
        libc::setsockopt(
            socket.as_raw_fd(),
            libc::IPPROTO_IPV6,
            libc::IPV6_TCLASS,
            (&raw const class).cast(),
            size_of_val(&class) as libc::socklen_t,
        )
    };
    if answer == 0 { Ok(()) } else { Err(io::Error::last_os_error()) }
}

/// A descriptor of the process that has this number now, from Linux 5.3 on.
pub(crate) fn process_fd(number: u32) -> io::Result<OwnedFd> {
    let none = libc::c_uint::MIN;
    // SAFETY: the call takes two numbers.
    let answer = unsafe { libc::syscall(libc::SYS_pidfd_open, number, none) };
    match RawFd::try_from(answer) {
        // SAFETY: the kernel has made the descriptor for this process in the call that answered it, and
        // nothing else knows its number.
        Ok(fd) if fd >= 0 => Ok(unsafe { OwnedFd::from_raw_fd(fd) }),
        _ => Err(io::Error::last_os_error()),
    }
}

/// Whether the process of this descriptor has ended, also where nobody has waited for it.
pub(crate) fn has_ended(process: &OwnedFd) -> bool {
    let mut ended = libc::pollfd { fd: process.as_raw_fd(), events: libc::POLLIN, revents: 0 };
    // SAFETY: the pointer is that of a local, which is one descriptor.
    let count = unsafe { libc::poll(&raw mut ended, 1, 0) };
    count != 0
}

/// Sends a signal to the process of this descriptor.
pub(crate) fn send_signal(process: &OwnedFd, signal: libc::c_int) -> io::Result<()> {
    let (no_info, none) = (ptr::null::<libc::siginfo_t>(), libc::c_uint::MIN);
    // SAFETY: the call takes two numbers, a null pointer, and a number.
    let answer = unsafe {
        libc::syscall(libc::SYS_pidfd_send_signal, process.as_raw_fd(), signal, no_info, none)
    };
    if answer == 0 { Ok(()) } else { Err(io::Error::last_os_error()) }
}

/// A signal's handler with all three parameters.
type Handler = extern "C" fn(libc::c_int, *mut libc::siginfo_t, *mut libc::c_void);

/// The addresses of the handlers that `keeping_errno` calls, by their signals.
static BEHIND: [AtomicUsize; 32] = [const { AtomicUsize::new(0) }; 32];

fn behind(signal: libc::c_int) -> Option<&'static AtomicUsize> {
    BEHIND.get(usize::try_from(signal).ok()?)
}

/// Calls the handler that is behind it, and leaves `errno` as it was for the code that it interrupts.
extern "C" fn keeping_errno(
    signal: libc::c_int,
    info: *mut libc::siginfo_t,
    context: *mut libc::c_void,
) {
    // SAFETY: the address is that of a variable of this thread.
    let before = unsafe { *libc::__errno_location() };
    let address = behind(signal).map_or(0, |behind| behind.load(Ordering::Acquire));
    if address != 0 {
        // SAFETY: `Disposition::keeping_errno` has put the address of such a handler there.
        let handler = unsafe { mem::transmute::<usize, Handler>(address) };
        handler(signal, info, context);
    }
    // SAFETY: as above.
    unsafe { *libc::__errno_location() = before };
}

/// What the process does at a signal.
#[derive(Clone, Copy)]
pub(crate) struct Disposition {
    signal: libc::c_int,
    action: libc::sigaction,
}

impl Disposition {
    /// What it does now.
    pub(crate) fn of(signal: libc::c_int) -> io::Result<Disposition> {
        let mut now = MaybeUninit::uninit();
        // SAFETY: the first pointer is null, so that nothing is set, and the other one is that of a local.
        let answer = unsafe { libc::sigaction(signal, ptr::null(), now.as_mut_ptr()) };
        match answer {
            // SAFETY: the call has filled it.
            0 => Ok(Disposition { signal, action: unsafe { now.assume_init() } }),
            _ => Err(io::Error::last_os_error()),
        }
    }

    /// The same, but for that its handler leaves `errno` as it was.
    pub(crate) fn keeping_errno(mut self) -> Disposition {
        let own = keeping_errno as Handler as usize;
        let action = &mut self.action;
        let is_handler = action.sa_flags & libc::SA_SIGINFO != 0 && action.sa_sigaction != own;
        if let Some(behind) = behind(self.signal).filter(|_| is_handler) {
            behind.store(action.sa_sigaction, Ordering::Release);
            action.sa_sigaction = own;
        }
        self
    }

    /// Its handler leaves `errno` as it was.
    #[cfg(test)]
    pub(crate) fn keeps_errno(&self) -> bool {
        self.action.sa_sigaction == keeping_errno as Handler as usize
    }

    /// It does this from now on.
    pub(crate) fn set(&self) -> io::Result<()> {
        // SAFETY: a disposition is one that the process had (`of`), so its handler is one that may run at a signal of
        // this program, and so is `keeping_errno` before it; the pointer is that of a local, and the other one is null.
        let answer =
            unsafe { libc::sigaction(self.signal, &raw const self.action, ptr::null_mut()) };
        if answer == 0 { Ok(()) } else { Err(io::Error::last_os_error()) }
    }
}

#[cfg(test)]
mod tests {
    use super::*;
    use std::fs::File;

    #[test]
    fn a_handler_leaves_errno_as_it_was() {
        extern "C" fn clobber(_: libc::c_int, _: *mut libc::siginfo_t, _: *mut libc::c_void) {
            // SAFETY: the address is that of a variable of this thread.
            unsafe { *libc::__errno_location() = libc::EAGAIN };
        }
        /// What `errno` is after a call that failed, and a signal.
        fn errno() -> Option<i32> {
            let missing = File::open("/nowhere");
            // SAFETY: the call takes a number.
            assert_eq!(unsafe { libc::raise(libc::SIGUSR2) }, 0);
            let error = io::Error::last_os_error();
            assert!(missing.is_err());
            error.raw_os_error()
        }
        let before = Disposition::of(libc::SIGUSR2).unwrap();
        let mut handler = before;
        handler.action.sa_sigaction = clobber as Handler as usize;
        handler.action.sa_flags = libc::SA_SIGINFO;
        handler.set().unwrap();
        assert_eq!(errno(), Some(libc::EAGAIN));
        handler.keeping_errno().set().unwrap();
        assert_eq!(errno(), Some(libc::ENOENT));
        before.set().unwrap();
    }
}
