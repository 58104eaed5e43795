//! Bytes that go both ways between two streams.

use crate::connection::Connection;
use std::cell::RefCell;
use std::future::poll_fn;
use std::io;
use std::pin::Pin;
use std::task::{Context, Poll, ready};
use tokio::io::{AsyncRead, AsyncWrite, ReadBuf};

/// How many bytes are read at once.
const PIECE: usize = 16_384;

thread_local! {
    /// Room for what is read, for all relays of a thread: bytes stay in it within a call alone.
    static ROOM: RefCell<Vec<u8>> = const { RefCell::new(Vec::new()) };
}

/// What goes one way. It has memory of its own only where the receiver is slower than the sender.
#[derive(Default)]
struct Way {
    /// What was read and isn't written, from `start` on.
    held: Vec<u8>,
    start: usize,
    count: u64,
    is_flushed: bool,
    /// The sender has ended.
    is_ended: bool,
    /// The receiver was told so.
    is_over: bool,
}

/// Writes bytes, and answers how many: fewer than all where it would have to wait.
fn write(
    to: &mut (impl AsyncWrite + Unpin),
    context: &mut Context<'_>,
    bytes: &[u8],
) -> io::Result<usize> {
    let mut written = 0;
    while written < bytes.len() {
        match Pin::new(&mut *to).poll_write(context, &bytes[written..])? {
            Poll::Ready(0) => return Err(io::ErrorKind::WriteZero.into()),
            Poll::Ready(count) => written += count,
            Poll::Pending => break,
        }
    }
    Ok(written)
}

impl Way {
    /// Goes on as far as it can without waiting.
    fn go_on(
        &mut self,
        context: &mut Context<'_>,
        from: &mut (impl AsyncRead + Unpin),
        to: &mut (impl AsyncWrite + Unpin),
        room: &mut [u8],
    ) -> Poll<io::Result<()>> {
        while !self.is_over {
            if self.start < self.held.len() {
                self.start += write(to, context, &self.held[self.start..])?;
                if self.start < self.held.len() {
                    return Poll::Pending;
                }
                (self.held, self.start) = (Vec::new(), 0);
            }
            if self.is_ended {
                ready!(Pin::new(&mut *to).poll_shutdown(context))?;
                self.is_over = true;
                break;
            }
            let mut piece = ReadBuf::new(room);
            if Pin::new(&mut *from).poll_read(context, &mut piece)?.is_pending() {
                if !self.is_flushed {
                    ready!(Pin::new(&mut *to).poll_flush(context))?;
                    self.is_flushed = true;
                }
                return Poll::Pending;
            }
            let bytes = piece.filled();
            self.is_ended = bytes.is_empty();
            self.is_flushed = false;
            self.count += bytes.len() as u64;
            let written = write(to, context, bytes)?;
            self.held.extend_from_slice(&bytes[written..]);
        }
        Poll::Ready(Ok(()))
    }
}

/// Sends bytes both ways between a client and a server until both have ended, each in its time: where one
/// side has ended, the other one is told so, and may go on. It answers how many bytes went either way. A
/// relay that waits for bytes has no buffer.
///
/// ```
/// use fulltimehen_server::{Opt, Server, connect, listening, relay};
/// use std::time::Duration;
///
/// let upstream = "127.0.0.1:8000".parse()?;
/// let mut server = Server::new(Opt::default())?;
/// let forward = listening("forward", move |mut client| async move {
///     let mut server = connect(upstream, Duration::from_secs(10)).await?;
///     relay(&mut client, &mut server).await
/// });
/// server.add_service(forward.tcp("127.0.0.1:8080"));
/// # Ok::<(), Box<dyn std::error::Error>>(())
/// ```
///
/// # Errors
///
/// What reading or writing says.
pub async fn relay(
    client: &mut Connection,
    server: &mut (impl AsyncRead + AsyncWrite + Unpin),
) -> io::Result<(u64, u64)> {
    let (mut there, mut back) = (Way::default(), Way::default());
    let both = |context: &mut Context<'_>, room: &mut [u8]| {
        let one = there.go_on(context, client, server, room)?;
        let other = back.go_on(context, server, client, room)?;
        match one.is_ready() && other.is_ready() {
            true => Poll::Ready(Ok((there.count, back.count))),
            false => Poll::Pending,
        }
    };
    let mut both = both;
    poll_fn(move |context| {
        ROOM.with(|room| match room.try_borrow_mut() {
            Ok(mut room) => {
                room.resize(PIECE, 0);
                both(context, &mut room)
            }
            // A stream that is made of a relay has this one's room.
            Err(_) => both(context, &mut [0; 1_024]),
        })
    })
    .await
}
