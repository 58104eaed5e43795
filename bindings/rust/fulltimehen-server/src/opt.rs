//! The words of the command line.

use clap::Parser;
use std::ffi::OsString;
use std::path::PathBuf;

/// The words that a server takes on its command line. A program with words of its own has these among
/// them by `#[command(flatten)]`, and by `#[command(version)]` `--version`.
///
/// ```
/// use clap::Parser;
/// use fulltimehen_server::Opt;
///
/// #[derive(Parser)]
/// #[command(version)]
/// struct Words {
///     #[command(flatten)]
///     server: Opt,
///     upstream: String,
/// }
///
/// let words = Words::try_parse_from(["forward", "-u", "127.0.0.1:8000"])?;
/// assert!(words.server.upgrade);
/// # Ok::<(), clap::Error>(())
/// ```
#[derive(Clone, Debug, Default, Parser)]
#[non_exhaustive]
pub struct Opt {
    /// Take over the listening sockets of the server that runs
    #[arg(short, long)]
    pub upgrade: bool,
    /// Refused: a service manager runs a server in the background
    #[arg(short, long)]
    pub daemon: bool,
    /// Nothing, as `cargo test` may say it
    #[arg(long, hide = true)]
    pub nocapture: bool,
    /// Look whether the server could start, and end
    #[arg(short, long)]
    pub test: bool,
    /// The file with the configuration
    #[arg(short, long, value_name = "FILE")]
    pub conf: Option<PathBuf>,
    /// Write the record of the run to this file, and its plan beside it
    #[arg(long, value_name = "FILE")]
    pub record: Option<PathBuf>,
}

impl Opt {
    /// The words of the program's command line. Where they are refused, or ask for help, that is printed, and
    /// the program ends.
    ///
    /// ```
    /// use fulltimehen_server::{Opt, Server};
    ///
    /// let server = Server::new(Opt::parse_args()).unwrap_or_else(|error| error.exit());
    /// # drop(server);
    /// ```
    #[must_use]
    pub fn parse_args() -> Opt {
        Opt::parse()
    }

    /// The words of this command line, of which the first is the program's name.
    ///
    /// ```
    /// use fulltimehen_server::Opt;
    ///
    /// let opt = Opt::parse_from_args(["web", "--test", "--conf", "/etc/web.yaml"])?;
    /// assert!(opt.test && !opt.upgrade && opt.conf.is_some());
    /// # Ok::<(), Box<dyn std::error::Error>>(())
    /// ```
    ///
    /// # Errors
    ///
    /// Where the words are refused, or ask for help.
    pub fn parse_from_args(
        words: impl IntoIterator<Item = impl Into<OsString> + Clone>,
    ) -> Result<Opt, clap::Error> {
        Opt::try_parse_from(words)
    }
}
