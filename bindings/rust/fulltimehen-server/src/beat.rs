//! A timer that beats while connections come.
//!
//! A runtime is woken where a timer is set that is due before all others, so that it sleeps no longer than
//! until then. With one that is due soon in any case, the time limits that each connection sets (of a
//! connect, of silence) wake nobody.

use std::sync::Arc;
use std::sync::atomic::{AtomicU8, Ordering};
use std::time::Duration;
use tokio::runtime::Handle;
use tokio::time::sleep;

const BEAT: Duration = Duration::from_millis(500);
/// How often it beats after a connection.
const TIMES: u8 = 2;

/// How often it still beats.
#[derive(Clone, Default)]
pub(crate) struct Beat(Arc<AtomicU8>);

impl Beat {
    /// A connection has come.
    pub(crate) fn go_on(&self, runtime: &Handle) {
        if self.0.load(Ordering::Relaxed) == TIMES || self.0.swap(TIMES, Ordering::Relaxed) > 0 {
            return;
        }
        let left = Arc::clone(&self.0);
        runtime.spawn(async move {
            loop {
                sleep(BEAT).await;
                if left.fetch_sub(1, Ordering::Relaxed) == 1 {
                    return;
                }
            }
        });
    }
}
