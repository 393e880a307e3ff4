//! A sign of life on a terminal while a long run is done, and while the cause of its
//! stop is looked for.

use std::io::{IsTerminal, Write};
use std::sync::atomic::{AtomicBool, Ordering};
use std::sync::mpsc;
use std::time::{Duration, Instant};

/// Whether one is shown: of two that overlap only the first is.
static SHOWN: AtomicBool = AtomicBool::new(false);

/// Dropped, it is gone.
pub struct Progress(Option<(mpsc::Sender<()>, std::thread::JoinHandle<()>)>);

impl Progress {
    /// Shorter runs than this many steps show none.
    const LONG: u32 = 1_000_000;

    pub fn start(steps: u32) -> Progress {
        if steps < Progress::LONG || !std::io::stderr().is_terminal() {
            return Progress(None);
        }
        if SHOWN.swap(true, Ordering::Relaxed) {
            return Progress(None);
        }
        let (end, ended) = mpsc::channel();
        let begun = Instant::now();
        let shows = move || {
            let wait = Duration::from_millis(500);
            while ended.recv_timeout(wait) == Err(mpsc::RecvTimeoutError::Timeout) {
                let seconds = begun.elapsed().as_secs();
                let _ = write!(std::io::stderr(), "\rworking, {seconds} s");
            }
            let _ = write!(std::io::stderr(), "\r\x1b[K");
        };
        Progress(Some((end, std::thread::spawn(shows))))
    }
}

impl Drop for Progress {
    fn drop(&mut self) {
        if let Some((end, thread)) = self.0.take() {
            drop(end);
            let _ = thread.join();
            SHOWN.store(false, Ordering::Relaxed);
        }
    }
}
