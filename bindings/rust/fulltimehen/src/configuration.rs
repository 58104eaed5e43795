//! Configurations: the settings of a server, by type, and their text.

mod reading;
mod value;

use reading::{key_line, misspelled, read};
use std::fmt;
use std::str::FromStr;
use std::sync::LazyLock;
use value::KeyValue;

/// How the buckets of the histogram of poll times grow.
///
/// ```
/// use fulltimehen::{Configuration, HistogramScale};
///
/// let text = "runtime_metrics_poll_time_histogram_scale: log\n";
/// let configuration: Configuration = text.parse()?;
/// assert_eq!(configuration.runtime_metrics_poll_time_histogram_scale, Some(HistogramScale::Log));
/// # Ok::<(), fulltimehen::ConfigurationError>(())
/// ```
#[derive(Clone, Copy, Debug, PartialEq, Eq)]
#[non_exhaustive]
pub enum HistogramScale {
    /// All are equally wide.
    Linear,
    /// Each is twice as wide as the one before it.
    Log,
}

macro_rules! configuration {
    ($($(#[doc = $doc:literal])* $key:ident: $kind:ty = $unset:expr;)*) => {
        /// The settings of a server. Each key of a configuration's text is a field, and a method that sets it.
        ///
        /// A text is read by [`FromStr`], and the settings are written as such a text by [`Display`](fmt::Display):
        /// lines `key: value` (`FORMATS.md`, "The configuration").
        ///
        /// ```
        /// use fulltimehen::Configuration;
        ///
        /// let configuration = Configuration::new().grace_period_seconds(10).user(Some("nobody".to_owned()));
        /// assert_eq!("grace_period_seconds: 10 # short\nuser: nobody\n".parse(), Ok(configuration));
        ///
        /// let refused = "threads: many\n".parse::<Configuration>().unwrap_err();
        /// assert_eq!(refused.line(), Some(1));
        /// assert!(refused.to_string().starts_with("line 1: threads: many isn't taken"));
        /// ```
        #[derive(Clone, Debug, PartialEq, Eq)]
        #[non_exhaustive]
        pub struct Configuration {
            $($(#[doc = $doc])* pub $key: $kind,)*
        }

        impl Default for Configuration {
            fn default() -> Configuration {
                Configuration { $($key: $unset,)* }
            }
        }

        /// All keys, in the order in which they are printed.
        pub(crate) const KEYS: &[&str] = &[$(stringify!($key),)*];

        impl Configuration {
            /// What each setting is where nothing sets it.
            #[must_use]
            pub fn new() -> Configuration {
                Configuration::default()
            }

            $($(#[doc = $doc])*
            #[must_use]
            pub fn $key(mut self, value: impl Into<$kind>) -> Configuration {
                self.$key = value.into();
                self
            })*

            /// Takes the value of a key, if it is of the key's sort. Of an unknown key nothing is taken.
            fn take(&mut self, key: &str, value: value::Value) -> Option<()> {
                match key {
                    $(stringify!($key) => self.$key = KeyValue::read(value)?,)*
                    _ => {}
                }
                Some(())
            }

            /// The lines of the keys, or of those that aren't as where nothing sets them.
            pub(crate) fn write(&self, f: &mut impl fmt::Write, all: bool) -> fmt::Result {
                static UNSET: LazyLock<Configuration> = LazyLock::new(Configuration::default);
                $(if all || self.$key != UNSET.$key {
                    self.$key.write(stringify!($key), f)?;
                })*
                Ok(())
            }
        }

        /// What the key takes, if it is known.
        fn wanted(key: &str) -> Option<&'static str> {
            match key {
                $(stringify!($key) => Some(<$kind as KeyValue>::WANTED),)*
                _ => None,
            }
        }

        /// The key's value is a list.
        fn is_list(key: &str) -> bool {
            match key {
                $(stringify!($key) => <$kind as KeyValue>::IS_LIST,)*
                _ => false,
            }
        }
    };
}

configuration! {
    /// The version of the settings. Nothing looks at it. 0 where nothing sets it.
    version: u64 = 0;
    /// The process runs in the background: the machine tells `Daemonize` before all else.
    daemon: bool = false;
    /// The file that a daemon's errors go to. Standard error where unset.
    error_log: Option<String> = None;
    /// The file that a daemon writes its process's number to. `/tmp/pingora.pid` where nothing sets it.
    pid_file: String = "/tmp/pingora.pid".to_owned();
    /// The path of the socket over which an old server hands its descriptors to a new one.
    /// `/tmp/pingora_upgrade.sock` where nothing sets it.
    upgrade_sock: String = "/tmp/pingora_upgrade.sock".to_owned();
    /// The user that a daemon becomes before it serves.
    user: Option<String> = None;
    /// The group that a daemon becomes before it serves.
    group: Option<String> = None;
    /// The directory that a daemon changes to.
    working_directory: Option<String> = None;
    /// How many threads each service has of its own. 1 where nothing sets it.
    threads: u64 = 1;
    /// How many accept loops each endpoint has, from 1 on. 1 where nothing sets it.
    listener_tasks_per_fd: u64 = 1;
    /// The threads of one service take work from each other. True where nothing sets it.
    work_stealing: bool = true;
    /// Services use the runtime's alternative timer.
    runtime_enable_alt_timer: bool = false;
    /// The file of the certificate authorities that are trusted. The system's where unset.
    ca_file: Option<String> = None;
    /// Seconds between the signal of a graceful shutdown and its last step. 300 where unset.
    grace_period_seconds: Option<u64> = None;
    /// Seconds that the last step of a graceful shutdown may take. 5 where unset.
    graceful_shutdown_timeout_seconds: Option<u64> = None;
    /// The IPv4 addresses that connections to upstream servers are bound to.
    client_bind_to_ipv4: Vec<String> = Vec::new();
    /// The IPv6 addresses that connections to upstream servers are bound to.
    client_bind_to_ipv6: Vec<String> = Vec::new();
    /// How many idle connections to upstream servers are kept. 128 where nothing sets it.
    upstream_keepalive_pool_size: u64 = 128;
    /// How many pools of threads connect to upstream servers. Unset or 0: connecting has none of its own.
    upstream_connect_offload_threadpools: Option<u64> = None;
    /// How many threads each of these pools has.
    upstream_connect_offload_thread_per_pool: Option<u64> = None;
    /// How many pools of threads do the TLS handshakes of accepted connections. Unset or 0: they have none
    /// of their own.
    downstream_tls_offload_threadpools: Option<u64> = None;
    /// How many threads each of these pools has.
    downstream_tls_offload_thread_per_pool: Option<u64> = None;
    /// The TLS keys of connections to upstream servers may be written to a file.
    upstream_debug_ssl_keylog: bool = false;
    /// How often a request that may be repeated is repeated at most. 16 where nothing sets it.
    max_retries: u64 = 16;
    /// How often connecting and accepting at `upgrade_sock` are tried again at most. 5 where unset.
    upgrade_sock_connect_accept_max_retries: Option<u64> = None;
    /// How many threads for blocking work each runtime has at most, from 1 on. The runtime decides where
    /// unset.
    max_blocking_threads: Option<u64> = None;
    /// Seconds that an idle thread for blocking work is kept. The runtime decides where unset.
    blocking_threads_ttl_seconds: Option<u64> = None;
    /// Timeouts of more seconds than this are left to the runtime; unset: none is. 900 where nothing sets it.
    fast_timeout_to_tokio_threshold_seconds: Option<u64> = Some(900);
    /// Runtimes keep a histogram of how long polls take.
    runtime_metrics_poll_time_histogram: bool = false;
    /// How the histogram's buckets grow. The runtime decides where unset.
    runtime_metrics_poll_time_histogram_scale: Option<HistogramScale> = None;
    /// The width of the histogram's first bucket, in microseconds, from 1 on. The runtime decides where
    /// unset.
    runtime_metrics_poll_time_histogram_resolution_micros: Option<u64> = None;
    /// How many buckets the histogram has, from 1 to 1,024. The runtime decides where unset.
    runtime_metrics_poll_time_histogram_buckets: Option<u64> = None;
    /// The parent of a daemon waits until the daemon is ready.
    daemon_wait_for_ready: bool = false;
    /// Seconds that the parent waits for its daemon, from 1 on. 600 where unset.
    daemon_ready_timeout_seconds: Option<u64> = None;
    /// Seconds for which a daemon tries again to tell its parent that it is ready, from 1 on. 60 where unset.
    daemon_notify_timeout_seconds: Option<u64> = None;
}

/// The most buckets that the histogram has.
const MOST_BUCKETS: u64 = 1024;

impl Configuration {
    /// What is said of the first ten keys of a text that aren't known: a line each, with the known one that the key
    /// is one letter off, as `line 3: threadz is no key and is skipped; did you mean threads?`, or with those that
    /// are near it.
    ///
    /// ```
    /// use fulltimehen::Configuration;
    ///
    /// let said = Configuration::misspelled("threadz: 2\n");
    /// assert_eq!(said, ["line 1: threadz is no key and is skipped; did you mean threads?"]);
    /// ```
    #[must_use]
    pub fn misspelled(text: &str) -> Vec<String> {
        misspelled(text)
    }

    /// The settings of a text that stands behind so many lines.
    pub(crate) fn read(text: &str, behind: usize) -> Result<Configuration, ConfigurationError> {
        let configuration = read(text, behind)?;
        match configuration.unfit_key() {
            Some(key) => Err(ConfigurationError::of_key(text, behind, key)),
            None => Ok(configuration),
        }
    }

    /// The first key with whose value no server can run.
    fn unfit_key(&self) -> Option<&'static str> {
        let resolution = self.runtime_metrics_poll_time_histogram_resolution_micros;
        let buckets = self.runtime_metrics_poll_time_histogram_buckets;
        let is_zero = |value: Option<u64>| value == Some(0);
        let keys = [
            (is_zero(self.max_blocking_threads), "max_blocking_threads"),
            (is_zero(resolution), "runtime_metrics_poll_time_histogram_resolution_micros"),
            (
                is_zero(buckets) || buckets > Some(MOST_BUCKETS),
                "runtime_metrics_poll_time_histogram_buckets",
            ),
            (self.listener_tasks_per_fd == 0, "listener_tasks_per_fd"),
            (is_zero(self.daemon_ready_timeout_seconds), "daemon_ready_timeout_seconds"),
            (is_zero(self.daemon_notify_timeout_seconds), "daemon_notify_timeout_seconds"),
        ];
        keys.into_iter().find(|(is_unfit, _)| *is_unfit).map(|(_, key)| key)
    }

    /// Whether a server can run with these settings.
    ///
    /// ```
    /// use fulltimehen::{Configuration, ConfigurationFault};
    ///
    /// let error = Configuration::new().listener_tasks_per_fd(0_u64).validate().unwrap_err();
    /// assert_eq!(error.fault(), ConfigurationFault::Unfit);
    /// assert_eq!(error.key(), Some("listener_tasks_per_fd"));
    /// ```
    ///
    /// # Errors
    ///
    /// The first key that has a value with which no server can run.
    pub fn validate(&self) -> Result<(), ConfigurationError> {
        match self.unfit_key() {
            Some(key) => Err(ConfigurationError::unfit(key, None)),
            None => Ok(()),
        }
    }
}

/// All keys, a line each and one for each item of a list, in the order of the fields.
impl fmt::Display for Configuration {
    fn fmt(&self, f: &mut fmt::Formatter<'_>) -> fmt::Result {
        self.write(f, true)
    }
}

impl FromStr for Configuration {
    type Err = ConfigurationError;

    /// The settings that a text gives: those where nothing sets them, overridden by the keys that it has.
    ///
    /// # Errors
    ///
    /// The first line that is no line of a configuration or has a value that isn't of its key's sort; or
    /// else the first key with whose value no server can run.
    fn from_str(text: &str) -> Result<Configuration, ConfigurationError> {
        Configuration::read(text, 0)
    }
}

/// What of a configuration is refused.
#[derive(Clone, Copy, Debug, PartialEq, Eq)]
#[non_exhaustive]
pub enum ConfigurationFault {
    /// A line that is none of a configuration, or may not stand where it does.
    Line,
    /// A value that isn't of its key's sort.
    Value,
    /// A value with which no server can run.
    Unfit,
}

/// Why a configuration is refused: the key, its line in the text, and what would be taken.
///
/// ```
/// use fulltimehen::{Configuration, ConfigurationError};
///
/// let refused: Result<Configuration, ConfigurationError> = "threads: 2\ndaemon: perhaps\n".parse();
/// let error = refused.unwrap_err();
/// assert_eq!((error.line(), error.key()), (Some(2), Some("daemon")));
/// assert_eq!(error.to_string(), format!("line 2: {}", error.message()));
/// ```
#[derive(Clone, Debug, PartialEq, Eq)]
pub struct ConfigurationError {
    fault: ConfigurationFault,
    key: Option<String>,
    line: Option<usize>,
    message: String,
}

impl ConfigurationError {
    /// Why no server can run with the value of this key in a text that stands behind so many lines.
    pub(crate) fn of_key(text: &str, behind: usize, key: &str) -> ConfigurationError {
        ConfigurationError::unfit(key, key_line(text, key).map(|line| behind + line))
    }

    fn unfit(key: &str, line: Option<usize>) -> ConfigurationError {
        let taken = match key {
            "runtime_metrics_poll_time_histogram_buckets" => "a number from 1 to 1024",
            _ => "a number from 1 on",
        };
        let message = format!("no server can run with this value of {key}; it takes {taken}");
        ConfigurationError {
            fault: ConfigurationFault::Unfit,
            key: Some(key.to_owned()),
            line,
            message,
        }
    }

    /// What is refused.
    #[must_use]
    pub fn fault(&self) -> ConfigurationFault {
        self.fault
    }

    /// The key, where the line has one or it is the key that is refused.
    #[must_use]
    pub fn key(&self) -> Option<&str> {
        self.key.as_deref()
    }

    /// The number of the line in the text, from 1, where a text is refused.
    #[must_use]
    pub fn line(&self) -> Option<usize> {
        self.line
    }

    /// Why, without the line.
    #[must_use]
    pub fn message(&self) -> &str {
        &self.message
    }
}

impl fmt::Display for ConfigurationError {
    fn fmt(&self, f: &mut fmt::Formatter<'_>) -> fmt::Result {
        match self.line {
            Some(line) => write!(f, "line {line}: {}", self.message),
            None => f.write_str(&self.message),
        }
    }
}

impl std::error::Error for ConfigurationError {}
