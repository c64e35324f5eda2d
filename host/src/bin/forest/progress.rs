//! A line on the terminal while the work takes longer than a second.

use std::io::{stderr, IsTerminal, Write};
use std::sync::mpsc::{channel, Receiver, RecvTimeoutError, Sender};
use std::thread::{self, JoinHandle};
use std::time::{Duration, Instant};

/// How long the work may take before it is told, and how often it is told.
const PAUSE: Duration = Duration::from_secs(1);

/// Tells of the work until it is dropped.
pub struct Progress {
    end: Option<Sender<()>>,
    thread: Option<JoinHandle<()>>,
}

impl Progress {
    /// Starts a thread where standard error is a terminal.
    pub fn start(what: String) -> Progress {
        if !stderr().is_terminal() {
            return Progress {
                end: None,
                thread: None,
            };
        }
        let (end, ended) = channel();
        let thread = thread::Builder::new().spawn(move || tell(&what, &ended));
        Progress {
            end: Some(end),
            thread: thread.ok(),
        }
    }
}

impl Drop for Progress {
    fn drop(&mut self) {
        drop(self.end.take());
        if let Some(thread) = self.thread.take() {
            let _ = thread.join();
        }
    }
}

/// Rewrites the line until the other end is gone, and then erases it.
fn tell(what: &str, ended: &Receiver<()>) {
    let start = Instant::now();
    let mut told = false;
    while ended.recv_timeout(PAUSE) == Err(RecvTimeoutError::Timeout) {
        put(&format!(
            "\r\x1b[Kforest: {what}, {} s",
            start.elapsed().as_secs()
        ));
        told = true;
    }
    if told {
        put("\r\x1b[K");
    }
}

fn put(text: &str) {
    let mut out = stderr();
    let _ = out.write_all(text.as_bytes()).and_then(|()| out.flush());
}
