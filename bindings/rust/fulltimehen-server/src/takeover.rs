//! The newer program's part of an upgrade: it waits for the listening sockets of the program that serves.

use crate::accept::Place;
use crate::driver::Input;
use crate::handover::{self, Frame, PrivateSocket};
use crate::listener::{Address, Listener};
use crate::log::say;
use crate::pid_file::{self, Holder};
use crate::succession::{Paths, STOP, Shared};
use std::collections::BTreeMap;
use std::io;
use std::rc::Rc;
use std::time::Duration;
use tokio::net::UnixStream;
use tokio::time::{Instant, sleep, sleep_until, timeout};

/// How long a try to receive waits where no program is known that serves.
const TRY: Duration = Duration::from_secs(1);
/// How long the program that serves is given to answer.
const PATIENCE: Duration = Duration::from_secs(2);
/// How long is listened for a message of a program that is gone.
const LAST_WORDS: Duration = Duration::from_millis(50);

/// The addresses of a plan, with their words.
pub(crate) type Addresses = BTreeMap<Place, (String, Address)>;

/// The program that serves, while this one waits.
pub(crate) enum Predecessor {
    /// It serves, and it is seen where it ends. Here are its number, and copies of its sockets.
    Known { link: UnixStream, number: Option<u32>, copies: Vec<(String, Listener)> },
    /// It served, and is gone: there is nothing to wait for.
    Gone,
    /// Nothing is known of one. One of another make may come.
    Unknown,
}

/// How a program that serves came to its end while this one waited.
#[derive(Clone, Copy, Debug, PartialEq, Eq)]
pub(crate) enum Ended {
    /// The service was stopped.
    Stopped,
    /// The program died.
    Died,
}

/// Looks for the program that serves, and gets copies of its sockets.
pub(crate) async fn meet(shared: &Shared, paths: &Paths, addresses: &Addresses) -> Predecessor {
    let ask = async {
        loop {
            let number = match pid_file::holder(&paths.pid_file) {
                Ok(Holder::Serves(number)) => number,
                Ok(Holder::Gone(..)) => return Predecessor::Gone,
                Ok(Holder::Absent) => return Predecessor::Unknown,
                Err(error) => {
                    say!(warn, "{}: {error}", paths.pid_file.display());
                    return Predecessor::Unknown;
                }
            };
            match copies(shared, paths, addresses).await {
                Ok((link, copies)) => return Predecessor::Known { link, number, copies },
                Err(error) => tracing::debug!("no copies yet: {error}"),
            }
            sleep(Duration::from_millis(20)).await;
        }
    };
    timeout(PATIENCE, ask).await.unwrap_or(Predecessor::Unknown)
}

async fn copies(
    shared: &Shared,
    paths: &Paths,
    addresses: &Addresses,
) -> io::Result<(UnixStream, Vec<(String, Listener)>)> {
    let (link, _) = handover::connect(&paths.copies, &shared.spare)?;
    let (bytes, fds) = handover::receive(&link, Frame::Length).await?;
    let words = handover::decode(&bytes).unwrap_or_default();
    let mut copies = Vec::new();
    for (word, fd) in words.into_iter().zip(fds) {
        match Listener::from_outside(fd) {
            Ok(listener) => copies.push((own_word(&word, &listener, addresses), listener)),
            Err(error) => say!(warn, "the copy for {word} is left: {error}"),
        }
    }
    Ok((link, copies))
}

/// The word of the plan's address at which the socket listens, or else the one that came with it.
fn own_word(word: &str, listener: &Listener, addresses: &Addresses) -> String {
    let is_it = |(_, address): &&(String, Address)| listener.is_at(address);
    let is_same = addresses.values().filter(is_it).any(|(own, _)| own == word);
    let own = addresses.values().find(is_it).filter(|_| !is_same);
    own.map_or(word, |(own, _)| own).to_owned()
}

/// Whether the socket listens at the address of its word, as far as that can be told.
fn is_right(word: &str, listener: &Listener, addresses: &Addresses) -> bool {
    let own = addresses.values().find(|(own, _)| own == word).map(|(_, address)| address.clone());
    let address = own.or_else(|| match listener.is_tcp() {
        true => word.parse().map(Address::Tcp).ok(),
        false => Some(Address::Unix { path: word.into(), mode: 0 }),
    });
    address.is_some_and(|address| listener.is_at(&address))
}

/// Reads a message, and looks at each of its sockets. Its words are those of the plan.
async fn message(
    stream: &UnixStream,
    addresses: &Addresses,
) -> io::Result<(Vec<u8>, Vec<(String, Listener)>)> {
    let refused = |text: String| io::Error::new(io::ErrorKind::InvalidData, text);
    let (bytes, fds) = handover::receive(stream, Frame::ToItsEnd).await?;
    let words = handover::decode(&bytes).ok_or_else(|| refused("it is no message".to_owned()))?;
    if words.len() != fds.len() {
        let text = format!("{} addresses came with {} sockets", words.len(), fds.len());
        return Err(refused(text));
    }
    let mut sockets: Vec<(String, Listener)> = Vec::new();
    for (word, fd) in words.into_iter().zip(fds) {
        let listener = Listener::from_outside(fd)?;
        let own = own_word(&word, &listener, addresses);
        if !is_right(&own, &listener, addresses) {
            return Err(refused(format!("the socket for {word} listens at another address")));
        }
        if sockets.iter().all(|(other, _)| *other != own) {
            sockets.push((own, listener));
        }
    }
    sockets.sort_by(|(one, _), (other, _)| one.as_bytes().cmp(other.as_bytes()));
    let words: Vec<&str> = sockets.iter().map(|(word, _)| word.as_str()).collect();
    Ok((handover::encode(&words), sockets))
}

/// How the link to the program that serves ends.
async fn end_of(link: Option<&UnixStream>) -> Ended {
    let Some(link) = link else {
        return std::future::pending().await;
    };
    let mut bytes = [0; STOP.len()];
    let mut count = 0;
    loop {
        if link.readable().await.is_err() {
            return Ended::Died;
        }
        match link.try_read(&mut bytes[count..]) {
            Err(error) if error.kind() == io::ErrorKind::WouldBlock => {}
            Ok(read) if read > 0 && count + read < STOP.len() => count += read,
            Ok(read) if count + read == STOP.len() && bytes == STOP => return Ended::Stopped,
            _ => return Ended::Died,
        }
    }
}

/// A try to receive: as long as the program that serves lives, or a second where none is known.
pub(crate) async fn try_once(
    receiver: Rc<PrivateSocket>,
    link: Option<Rc<UnixStream>>,
    shared: Rc<Shared>,
    addresses: Rc<Addresses>,
) -> Input {
    let end = Instant::now() + TRY;
    let mut ended = None;
    loop {
        let over = async {
            match (&link, ended) {
                // It may have sent the message before.
                (_, Some(_)) => sleep(LAST_WORDS).await,
                (Some(_), None) => std::future::pending().await,
                (None, None) => sleep_until(end).await,
            }
        };
        let accepted = tokio::select! {
            biased;
            accepted = receiver.accept(&shared.spare) => accepted,
            why = end_of(link.as_deref()), if ended.is_none() => {
                ended = Some(why);
                continue;
            }
            () = over => return ended.map_or(Input::NoSender, Input::PredecessorEnded),
        };
        // A message that has come is read to its end.
        let (stream, process) = accepted;
        match message(&stream, &addresses).await {
            Ok((bytes, sockets)) => return Input::Message { bytes, sockets },
            Err(error) => {
                let who = process.map(|it| format!("process {}", it.number()));
                let who = who.unwrap_or("a program".to_owned());
                say!(warn, "what {who} sent is left: {error}");
            }
        }
    }
}
